// The bench: asks for blocks, makes edits, and draws what comes back. It computes differences and colours, and no sample.
import { Grid, peakOf } from './grid.js';
import * as panels from './panels.js';
import { ask, tell } from './server.js';
import { aiming, freshAim } from './target.js';

const by = (id) => document.getElementById(id);
const NUMBER = /^[+-]?[0-9]+$/;
const PAGE = 100;
const GRIDS = ['levels', 'coefficients', 'intermediate', 'before', 'after', 'difference', 'target'];
const TITLES = Object.fromEntries(GRIDS.map((name) => [name, name[0].toUpperCase() + name.slice(1)]));

const app = {
  about: null, list: null, block: null, grids: {}, hidden: new Set(['target']), before: 'came', cell: 0, look: 0, sample: null, found: null, sampleWords: null,
  aim: null,
};

// ---- words
function say(words, kind = '') {
  by('status').textContent = words;
  by('status').className = kind;
}

// a refusal in words at the cell that it is about
function bubble(words, cell) {
  const box = by('bubble'), at = cell.getBoundingClientRect();
  box.textContent = words;
  box.hidden = false;
  const left = Math.min(at.left, document.documentElement.clientWidth - box.offsetWidth - 8);
  const below = at.bottom + 6 + box.offsetHeight < window.innerHeight;
  box.style.left = `${Math.max(8, left)}px`;
  box.style.top = `${below ? at.bottom + 6 : Math.max(8, at.top - 6 - box.offsetHeight)}px`;
}

function noBubble() {
  by('bubble').hidden = true;
}

// ---- a block
async function open(number) {
  try {
    app.block = await ask('block', { block: number });
  } catch (refused) {
    say(refused.words, 'bad');
    return;
  }
  const { size } = app.block;
  Object.assign(app, { cell: 0, look: 0, sample: null, found: null, sampleWords: null });
  app.aim = freshAim(size);
  build();
  noBubble();
  draw();
  location.hash = `block-${number + 1}`;
}

function build() {
  const { size, editable } = app.block;
  const cellGrid = { select: selectCell, closed: noBubble, describe: describeCell };
  const sampleGrid = { select: selectSample, describe: describeSample };
  const asked = {
    levels: editable ? { ...cellGrid, enter: (index, text) => enter('level', index, text), clear: (index) => enter('level', index, '0') } : cellGrid,
    coefficients: editable ? { ...cellGrid, enter: (index, text) => enter('coefficient', index, text) } : cellGrid,
    intermediate: { select: () => undefined, describe: (i) => describe('intermediate', i) },
    before: sampleGrid,
    after: { ...sampleGrid, act: contributions },
    difference: sampleGrid,
    target: { ...sampleGrid, enter: aim.at, clear: (i) => aim.at(i, ''), closed: noBubble },
  };
  app.grids = {};
  for (const name of GRIDS) app.grids[name] = new Grid(name, TITLES[name], size, asked[name]);
  if (size === 32) for (const name of ['coefficients', 'intermediate', 'before']) app.hidden.add(name);
  aim.painting(app.grids.target);
  by('panels-cells').replaceChildren(...GRIDS.slice(0, 3).map((name) => app.grids[name].section));
  by('panels-samples').replaceChildren(...GRIDS.slice(3).map((name) => app.grids[name].section));
  views();
}

function views() {
  const toggle = (name) => panels.button(TITLES[name], () => view(name, app.hidden.has(name)), { 'aria-pressed': `${!app.hidden.has(name)}` });
  by('views').replaceChildren(...GRIDS.map(toggle));
  for (const name of GRIDS) app.grids[name].section.hidden = app.hidden.has(name);
}

function view(name, shown) {
  if (shown) app.hidden.delete(name);
  else app.hidden.add(name);
  [...by('views').querySelectorAll('button')][GRIDS.indexOf(name)].setAttribute('aria-pressed', `${shown}`);
  app.grids[name].section.hidden = !shown;
  draw();
}

// ---- drawing
function before() {
  return app.before === 'last' && app.block.last ? app.block.last : app.block.came;
}

function drawGrids() {
  const { block, grids, aim, found } = app;
  const old = before(), difference = block.residual.map((value, i) => value - old[i]);
  const limits = new Map(block.limits), reaching = new Set();
  if (aim.found && aim.found.version === block.version) for (const one of aim.found.found) reaching.add(one.row * block.size + one.column);
  const marks = (i) => [block.levels[i] !== block.came_levels[i] && 'edited', limits.has(i) && 'limited', reaching.has(i) && 'reaches'];
  const cellMarks = block.levels.map((_, i) => marks(i).filter(Boolean).join(' '));
  const chosen = block.residual.map((_, i) => (app.sample === i ? 'chosen' : ''));
  const afterMarks = block.residual.map((value, i) => `${aim.wanted[i] && aim.values[i] !== value ? 'misses ' : ''}${chosen[i]}`.trim());
  const peak = Math.max(peakOf(old), peakOf(block.residual));
  const shown = {
    levels: [block.levels, { marks: cellMarks }],
    coefficients: [block.coefficients, { marks: cellMarks, coloured: found ? found.values : block.coefficients }],
    intermediate: [block.intermediate ?? block.levels.map(() => null), {}],
    before: [old, { peak }],
    after: [block.residual, { peak, marks: afterMarks }],
    difference: [difference, { marks: difference.map((value) => (value ? 'changed' : '')) }],
    target: [aim.values, { peak: Math.max(peak, peakOf(aim.values)) }],
  };
  const drawn = GRIDS.filter((name) => !app.hidden.has(name));
  for (const name of drawn) grids[name].look();
  for (const name of drawn) grids[name].show(...shown[name]);
  const changed = difference.filter(Boolean).length;
  const told = {
    levels: block.editable ? 'click and type to edit' : 'not edited: transform skip',
    coefficients: found ? `by contribution to ${panels.place(block.size, app.sample)}` : 'scaled levels; type one to find its level',
    intermediate: block.intermediate ? 'after stage one, down the columns' : 'transform skip has none',
    before: app.before === 'last' && block.last ? 'the edit before' : 'as it came',
    after: `after ${panels.count(block.edit_count, 'edit')}; click for contributions`,
    difference: `${changed} of ${block.size * block.size} samples differ`,
    target: `${panels.count(aim.wanted.filter(Boolean).length, 'sample')} wanted`,
  };
  for (const name of GRIDS) grids[name].told.textContent = told[name];
}

// the grids at once; the panels, and what is not in view, once the grids are seen
function draw() {
  drawGrids();
  if (app.drawing) return;
  app.drawing = true;
  by('grids').setAttribute('aria-busy', 'true');
  later(() => {
    app.drawing = false;
    // a panel drawn anew keeps the focus where it was, or has it where the next step is
    const held = app.focus ?? document.activeElement?.id;
    app.focus = null;
    drawPanels();
    if (held && document.activeElement?.id !== held && !document.activeElement?.closest('[role=grid]')) by(held)?.focus();
    for (const name of GRIDS) if (!app.hidden.has(name)) app.grids[name].finish();
    by('grids').setAttribute('aria-busy', 'false');
  });
}

// once what was changed is on the screen and nothing else is to be done
function later(run) {
  requestAnimationFrame(() => (window.requestIdleCallback ? requestIdleCallback(run, { timeout: 100 }) : setTimeout(run, 20)));
}

function drawPanels() {
  const { block } = app;
  by('undo').setAttribute('aria-disabled', `${!block.edit_count}`);
  by('redo').setAttribute('aria-disabled', `${!block.undone_count}`);
  by('block-title').textContent = `Block ${block.block + 1}`;
  by('block-told').textContent = `${block.told.replace(' x ', ' × ').replace("QP'", 'QP′')} · ${block.where}`;
  by('block-note').hidden = !block.program;
  by('block-note').textContent = block.program ?? '';
  panels.drawFacts(block);
  drawCell();
  by('sample-read').textContent = describeSample(app.look);
  panels.drawSample(block, app.found, app.sampleWords, dropSample, (index) => goTo('coefficients', index));
  panels.drawTarget(app.aim, block, app.about, { painting: aim.togglePainting, take: aim.take, find: aim.find, clear: aim.clear, make: aim.make });
  panels.drawEdits(block, (index) => goTo('levels', index));
  panels.drawLegend(app.found);
  drawCase();
  drawPicture();
  drawList();
}

function drawCase() {
  const { about } = app;
  const unsaved = about.unsaved ? ` · ${panels.count(about.unsaved, 'change')} not saved` : '';
  by('case').textContent = `${about.case} · ${panels.count(about.blocks, 'block')}${unsaved}`;
  by('save').title = `saves as ${about.save}`;
  document.title = `${about.unsaved ? '• ' : ''}${about.case} · Foxentu bench`;
}

function drawPicture() {
  const { block } = app, address = `api/picture?block=${block.block}&v=${block.version}`;
  if (by('picture').getAttribute('src') === address) return;
  by('picture').src = address;
  by('picture').alt = 'before, after and difference in grey, side by side';
  const peak = Math.max(1, peakOf(block.came), peakOf(block.residual), peakOf(block.residual.map((value, i) => value - block.came[i])));
  by('picture-told').textContent = `as it came, after, difference; middle grey is 0, black −${peak}, white ${peak}`;
  by('picture-file').href = address;
  by('picture-file').download = `${app.about.case}-block-${block.block + 1}.png`;
}

// the list is drawn anew only where it says something else
async function drawList() {
  const { block } = app, from = Math.floor(block.block / PAGE) * PAGE;
  if (!app.list || app.list.from !== from) app.list = await ask('blocks', { from, count: PAGE });
  const said = `${block.block} ${block.edit_count}`;
  if (app.list.said === said) return;
  app.list.said = said;
  for (const one of app.list.blocks) if (one.block === block.block) one.edits = block.edit_count;
  panels.drawBlocks(app.list, block.block, open);
}

function goTo(name, index) {
  if (app.hidden.has(name)) view(name, true);
  app.grids[name].focus(index);
}

// ---- selection
function selectCell(index) {
  if (app.cell !== index) noBubble();
  app.cell = index;
  for (const name of ['levels', 'coefficients']) app.grids[name].follow(index);
  drawCell();
}

function drawCell() {
  const { block, cell } = app;
  by('cell-read').textContent = describeCell(cell);
  panels.drawCell(block, cell, async (row, column, text) => {
    const words = await enter('level', row * block.size + column, text, true);
    by('cell-level').focus();
    return words;
  });
}

function selectSample(index) {
  app.look = index;
  by('sample-read').textContent = describeSample(index);
  for (const name of ['before', 'after', 'difference', 'target']) app.grids[name].follow(index);
}

function describe(what, i) {
  return `${what} at ${panels.place(app.block.size, i)}: ${app.grids[what].values[i] ?? 'none'}`;
}

function describeCell(i) {
  const { block } = app, flags = new Map(block.limits).get(i);
  const limited = flags ? `; ${panels.limitWords(flags)}` : '';
  const m = `m ${block.factors[i]} (${block.reasons[i]})`;
  return `${panels.place(block.size, i)}: level ${block.levels[i]}, ${m}, coefficient ${block.coefficients[i]}${limited}`;
}

function describeSample(i) {
  const { block, aim } = app, old = before()[i];
  const wanted = aim.wanted[i] ? `; wanted ${aim.values[i]}` : '';
  return `${panels.place(block.size, i)}: before ${old}, after ${block.residual[i]}, difference ${block.residual[i] - old}${wanted}`;
}

// ---- edits
function took(state) {
  Object.assign(app.block, state);
  app.about.unsaved = state.unsaved;
  draw();
  if (app.found) contributions(app.sample);
}

async function enter(what, index, text, quiet = false) {
  const { block } = app, row = Math.floor(index / block.size), column = index % block.size;
  let words = null;
  if (!NUMBER.test(text)) words = text ? `'${text}' is no whole number` : `type a ${what}`;
  else if (!Number.isSafeInteger(Number(text))) words = `a ${what} is a signed 32-bit number`;
  else {
    try {
      took(await tell(what === 'level' ? 'edit' : 'edit_coefficient', { block: block.block, row, column, [what]: Number(text) }));
    } catch (refused) {
      words = refused.words;
    }
  }
  if (words) {
    if (!quiet) bubble(words, app.grids[what === 'level' ? 'levels' : 'coefficients'].cells[index]);
    say(words, 'bad');
    return words;
  }
  noBubble();
  const flags = new Map(app.block.limits).get(index);
  say(`row ${row}, column ${column}: level ${app.block.levels[index]}` + (flags ? `; ${panels.limitWords(flags)}` : ''), flags ? 'warn' : '');
  return null;
}

async function step(name) {
  try {
    took(await tell(name, { block: app.block.block }));
    say(name === 'undo' ? 'the last edit was taken back' : 'the edit was made again');
  } catch (refused) {
    say(refused.words, 'bad');
  }
}

// ---- contributions
async function contributions(index) {
  const { block } = app;
  app.sample = index;
  try {
    app.found = await tell('contributions', { block: block.block, row: Math.floor(index / block.size), column: index % block.size });
    app.sampleWords = null;
    if (app.hidden.has('coefficients')) view('coefficients', true);
  } catch (refused) {
    app.found = null;
    app.sampleWords = refused.words;
  }
  draw();
}

function dropSample() {
  Object.assign(app, { sample: null, found: null, sampleWords: null });
  draw();
}

// ---- the case
async function compare() {
  try {
    const told = await tell('compare', { block: app.block.block });
    say(told.words, told.same ? 'good' : 'bad');
  } catch (refused) {
    say(refused.words, 'bad');
  }
}

async function save(overwrite = false) {
  try {
    const told = await tell('save', { overwrite });
    if (!told.saved) {
      by('ask-words').textContent = told.asks;
      by('ask').showModal();
      by('ask-no').focus();
      return;
    }
    say(told.words, 'good');
    app.about = await ask('about');
    app.block = await ask('block', { block: app.block.block });
    draw();
  } catch (refused) {
    say(refused.words, 'bad');
  }
}

function goToBlock(number) {
  if (number >= 0 && number < app.about.blocks) open(number);
}

const aim = aiming(app, { draw, view, enter, goTo, bubble });

const KEYS = {
  u: () => step('undo'),
  r: () => step('redo'),
  c: compare,
  f: () => app.aim.wanted.some(Boolean) && aim.find(),
  s: () => save(),
  '?': () => by('keys').showModal(),
  '[': () => goToBlock(app.block.block - 1),
  ']': () => goToBlock(app.block.block + 1),
};

function key(event) {
  if (!app.block || document.querySelector('dialog[open]')) return;
  const typing = event.target.closest?.('input, select, textarea');
  if (event.ctrlKey || event.metaKey) {
    const run = { z: event.shiftKey ? KEYS.r : KEYS.u, y: KEYS.r, s: KEYS.s }[event.key.toLowerCase()];
    if (run && !(typing && event.key !== 's')) {
      event.preventDefault();
      run();
    }
    return;
  }
  if (event.key === 'Escape') {
    noBubble();
    say('');
    if (app.found || app.sampleWords) dropSample();
    return;
  }
  if (!typing && !event.altKey && KEYS[event.key]) {
    event.preventDefault();
    KEYS[event.key]();
  }
}

async function start() {
  app.about = await ask('about');
  const { about } = app;
  if (about.replayed) say(`${panels.count(about.replayed, 'change')} kept beside the case ${about.replayed === 1 ? 'was' : 'were'} made again`, 'warn');
  else if (about.refusal) say(`The feed stops early: ${about.refusal}`, 'warn');
  drawCase();
  const named = /^#block-([0-9]+)$/.exec(location.hash);
  if (about.blocks) await open(named && Number(named[1]) >= 1 && Number(named[1]) <= about.blocks ? Number(named[1]) - 1 : 0);
  else say(about.refusal ? `There is no block before the feed stops: ${about.refusal}` : 'There is no block in this case.', 'warn');
}

by('before-is').addEventListener('change', (event) => { app.before = event.target.value; draw(); });
by('undo').addEventListener('click', KEYS.u);
by('redo').addEventListener('click', KEYS.r);
by('compare').addEventListener('click', compare);
by('save').addEventListener('click', KEYS.s);
by('help').addEventListener('click', KEYS['?']);
by('keys-close').addEventListener('click', () => by('keys').close());
by('ask-no').addEventListener('click', () => by('ask').close());
by('ask-yes').addEventListener('click', () => { by('ask').close(); save(true); });
by('pages-back').addEventListener('click', () => goToBlock(Math.max(0, app.list.from - PAGE)));
by('pages-on').addEventListener('click', () => goToBlock(app.list.from + PAGE));
by('pages-to').addEventListener('change', (event) => goToBlock(Number(event.target.value) - 1));
document.addEventListener('keydown', key);
document.addEventListener('scroll', noBubble, true);
start().catch((refused) => say(refused.words ?? `${refused}`, 'bad'));
