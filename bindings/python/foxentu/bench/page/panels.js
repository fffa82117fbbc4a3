// The panels beside the grids: blocks, the selected cell, contributions, target, edits, legend. Each is drawn anew from what the bench answered.

export function make(tag, settings = {}, ...children) {
  const made = document.createElement(tag);
  for (const [name, value] of Object.entries(settings)) {
    if (name === 'on') for (const [event, run] of Object.entries(value)) made.addEventListener(event, run);
    else if (name in made) made[name] = value;
    else made.setAttribute(name, value);
  }
  made.append(...children.filter((child) => child !== null && child !== undefined));
  return made;
}

export const button = (text, click, settings = {}) => make('button', { type: 'button', on: { click }, ...settings }, text);
const hint = (text) => make('p', { className: 'hint' }, text);
export const place = (n, index) => `row ${Math.floor(index / n)}, column ${index % n}`;
export const count = (number, word) => `${number} ${word}${number === 1 ? '' : 's'}`;
export const signed = (value) => (value < 0 ? `−${-value}` : `${value}`);
const by = (id) => document.getElementById(id);

// ---- blocks
export function drawBlocks(list, current, open) {
  by('blocks').replaceChildren(...list.blocks.map((block) => {
    const marks = [];
    if (block.edits) marks.push(make('span', { className: 'mark edited' }, count(block.edits, 'edit')));
    if (block.limited) marks.push(make('span', { className: 'mark limited' }, `${block.limited} limited`));
    const [kind, ...rest] = block.told.replace("QP'", 'QP′').split(', ').filter((part) => part !== 'no list');
    const item = make('button', { type: 'button', title: `${block.where}: ${block.told}`, on: { click: () => open(block.block) } },
      make('span', { className: 'number' }, `${block.block + 1}`),
      make('span', { className: 'kind' }, kind.replace(' x ', '×')),
      make('span', { className: 'rest' }, rest.join(' · ')),
      ...marks);
    if (block.block === current) item.setAttribute('aria-current', 'true');
    return make('li', {}, item);
  }));
  const paged = list.of > list.blocks.length;
  by('pages').hidden = !paged;
  by('blocks-title').textContent = paged ? `Blocks ${list.from + 1} to ${list.from + list.blocks.length} of ${list.of}` : `Blocks`;
}

export function drawFacts(block) {
  const facts = [['columns', block.columns ?? '–', 'one past the last column with a coefficient other than zero'],
    ['limited', block.limits.length, 'coefficients whose level or result lay outside the range'],
    ['edits', block.edit_count, 'edits made and not taken back'],
    ['samples changed', block.residual.reduce((sum, value, i) => sum + (value !== block.came[i]), 0), 'against the block as it came']];
  by('facts').replaceChildren(...facts.map(([name, value, title]) => make('div', { title }, make('dt', {}, name), make('dd', {}, `${value}`))));
}

// ---- the selected cell
const LIMITS = {
  1: 'the level lay outside the coefficient range and was limited',
  2: 'the result lay outside the coefficient range and was limited',
  3: 'the level and the result of the limited level both lay outside the coefficient range',
};

export function limitWords(flags) {
  return LIMITS[flags];
}

export function drawCell(block, at, set) {
  const [row, column] = [Math.floor(at / block.size), at % block.size];
  const flags = new Map(block.limits).get(at);
  const came = block.came_levels[at] !== block.levels[at] ? ` (came as ${signed(block.came_levels[at])})` : '';
  const lines = [
    ['place', place(block.size, at)],
    ['level', `${signed(block.levels[at])}${came}`],
    ['m', `${block.factors[at]}: ${block.reasons[at]}`],
    ['coefficient', signed(block.coefficients[at])],
    ['limited', flags ? limitWords(flags) : 'no'],
  ];
  const facts = make('dl', { className: 'lines' }, ...lines.flatMap(([name, text]) => [make('dt', {}, name), make('dd', {}, text)]));
  const words = make('p', { className: 'words', role: 'alert' });
  const entry = make('input', { inputMode: 'numeric', autocomplete: 'off', size: 11, value: block.levels[at], id: 'cell-level' });
  const form = make('form', { className: 'entry-line', on: {
    submit: async (event) => {
      event.preventDefault();
      words.textContent = (await set(row, column, entry.value.trim())) ?? '';
    },
  } }, make('label', { htmlFor: 'cell-level' }, 'new level'), entry, make('button', { type: 'submit' }, 'Set'));
  by('cell').replaceChildren(facts, ...(block.editable ? [form, words] : []));
}

// ---- contributions
export function drawSample(block, found, words, drop, go) {
  if (words) {
    by('sample').replaceChildren(make('p', { className: 'words' }, words));
    return;
  }
  if (!found) {
    by('sample').replaceChildren(hint('Click a sample of the residual, or press Enter on it: the coefficients are coloured by what they contribute to it.'));
    return;
  }
  const at = found.row * block.size + found.column;
  const peak = Math.max(1, ...found.largest.map((index) => Math.abs(found.values[index])));
  const rows = found.largest.map((index) => {
    const value = found.values[index], steps = (Math.abs(value) / block.step).toFixed(2);
    const bar = make('span', { className: value < 0 ? 'bar negative' : 'bar positive' });
    bar.style.setProperty('--part', Math.abs(value) / peak);
    return make('tr', {},
      make('td', {}, button(`${Math.floor(index / block.size)}, ${index % block.size}`, () => go(index), { className: 'plain', title: place(block.size, index) })),
      make('td', { className: 'figure' }, signed(block.coefficients[index])),
      make('td', { className: 'figure', title: `${value} in units of the exact product` }, `${value < 0 ? '−' : '+'}${steps}`),
      make('td', { className: 'bars' }, bar));
  });
  by('sample').replaceChildren(
    make('p', {}, `Sample at ${place(block.size, at)} is ${signed(block.residual[at])}.`),
    make('table', { className: 'list' },
      make('thead', {}, make('tr', {}, ...['place', 'coefficient', 'samples', ''].map((text) => make('th', { scope: 'col' }, text)))),
      make('tbody', {}, ...rows)),
    ...(found.others ? [hint(`and ${count(found.others, 'smaller one')}`)] : []),
    button('Colour by value again', drop));
}

// ---- target
// the blocks of another case that have this one's size: the one of its number first, then the first hundred
function fitting(sizes, block) {
  const same = sizes.flatMap((size, of) => (size === block.size && of !== block.block ? [of] : [])).slice(0, 100);
  return sizes[block.block] === block.size ? [block.block, ...same] : same;
}

export function drawTarget(aim, block, about, run) {
  const wanted = aim.wanted.filter(Boolean).length;
  const from = make('select', { id: 'aim-from' },
    make('option', { value: 'came' }, 'the residual as it came'),
    make('option', { value: 'now' }, 'the residual as it is'),
    ...about.targets.flatMap(({ name, sizes }, which) => fitting(sizes, block).map((of) => make('option', { value: `${which} ${of}` }, `${name}, block ${of + 1}`))));
  if ([...from.options].some((option) => option.value === aim.from)) from.value = aim.from;
  from.addEventListener('change', () => { aim.from = from.value; });
  const paint = make('input', { id: 'aim-paint', inputMode: 'numeric', autocomplete: 'off', size: 7, value: aim.paint });
  paint.addEventListener('change', () => { aim.paint = paint.value; });
  const parts = [
    hint('In the grid Target type what a sample is to be, or paint: click or drag over samples.'),
    make('div', { className: 'entry-line' }, make('label', { htmlFor: 'aim-paint' }, 'paint with'), paint,
      button('Paint', run.painting, { id: 'aim-painting', 'aria-pressed': `${aim.painting}` })),
    make('div', { className: 'entry-line' }, make('label', { htmlFor: 'aim-from' }, 'all of'), from, button('Take', run.take, { id: 'aim-take' })),
    make('div', { className: 'entry-line' },
      button('Find edits', run.find, { id: 'aim-find', className: 'main', disabled: !wanted || !block.editable }),
      button('Clear', run.clear, { id: 'aim-clear', disabled: !wanted }),
      make('span', { className: 'hint' }, `${count(wanted, 'sample')} wanted`)),
  ];
  by('aim').replaceChildren(...parts, ...reached(aim, block, run.make));
}

function reached(aim, block, set) {
  if (aim.words) return [make('p', { className: 'words', role: 'alert' }, aim.words)];
  const found = aim.found;
  if (!found) return [];
  const old = found.version !== block.version ? [hint('The block has changed since: find again.')] : [];
  if (!found.count) return [...old, make('p', {}, 'No single edit of one level reaches it.')];
  const rows = found.found.map((one) => make('tr', {},
    make('td', {}, `${one.row}, ${one.column}`),
    make('td', { className: 'figure' }, signed(one.now)),
    make('td', { className: 'figure' }, one.least === one.most ? signed(one.least) : `${signed(one.least)} to ${signed(one.most)}`),
    make('td', {}, one.level === one.now ? make('span', { className: 'hint' }, 'as it is')
      : button(`Set ${signed(one.level)}`, () => set(one), { title: `row ${one.row}, column ${one.column}: level ${one.now} becomes ${one.level}` }))));
  const reach = `${count(found.count, 'single edit')} reach${found.count === 1 ? 'es' : ''} it; the smallest change first:`;
  const told = found.met ? 'The residual has these samples already. Edits that keep them:' : reach;
  return [...old, make('p', {}, told),
    make('div', { className: 'long' }, make('table', { className: 'list' },
      make('thead', {}, make('tr', {}, ...['place', 'level', 'to', ''].map((text) => make('th', { scope: 'col' }, text)))),
      make('tbody', {}, ...rows))),
    found.count > found.found.length ? hint(`and ${found.count - found.found.length} more`) : ''];
}

// ---- edits
export function drawEdits(block, go) {
  const line = (edit, number, undone) => {
    const [row, column, before, level] = edit;
    const words = undone ? 'taken back' : number <= block.case_edits ? 'of the case' : '';
    const item = make('li', { className: undone ? 'undone' : '', value: number });
    item.append(button(`${row}, ${column}: ${signed(before)} → ${signed(level)}`, () => go(row * block.size + column), { className: 'plain' }));
    if (words) item.append(make('span', { className: 'mark' }, words));
    return item;
  };
  const first = block.edit_count - block.edits.length;
  const lines = block.edits.map((edit, index) => line(edit, first + index + 1, false));
  const undone = block.undone.slice().reverse().map((edit, index) => line(edit, block.edit_count + index + 1, true));
  const none = !block.edit_count && !block.undone_count;
  const list = make('ol', { id: 'edit-list', start: first + 1 }, ...lines, ...undone);
  if (none) by('edits').replaceChildren(hint(block.editable ? 'None yet. Click a level and type.' : 'A transform-skip block cannot be edited.'));
  else by('edits').replaceChildren(make('div', { className: 'long' }, first ? hint(`${first} earlier`) : '', list));
  const long = by('edits').querySelector('.long');
  if (long) long.scrollTop = long.scrollHeight;
}

// ---- legend
export function drawLegend(sample) {
  const ground = sample ? '; the coefficients by what they contribute to the sample' : ', each grid by its own largest value';
  const steps = [-7, -5, -3, -1, 0, 1, 3, 5, 7].map((step) => make('i', { 'data-tone': step }));
  const mark = (name, words) => make('span', {}, make('i', { className: name }, name === 'edited' || name === 'limited' ? '' : '0'), words);
  by('legend').replaceChildren(
    make('span', {}, 'negative', make('span', { className: 'scale' }, ...steps), `positive${ground}`),
    mark('edited', 'level other than it came'), mark('limited', 'limited to the range'),
    mark('misses', 'sample that misses its target'), mark('reaches', 'an edit here reaches the target'));
}
