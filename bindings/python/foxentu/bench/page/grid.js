// A grid of numbers: a table with one tab stop, arrow keys, an entry in the cell, colours by size and sign, and marks.

const STEPS = 7;

export function tone(value, peak) {
  if (!value || !peak) return 0;
  const step = Math.min(STEPS, Math.max(1, Math.ceil(STEPS * (Math.abs(value) / peak) ** 0.65)));
  return value < 0 ? -step : step;
}

export function peakOf(values) {
  let peak = 0;
  for (const value of values) if (Math.abs(value) > peak) peak = Math.abs(value);
  return peak;
}

const minus = (value) => (value < 0 ? `−${-value}` : `${value}`);

export class Grid {
  // asked: enter(index, text) for a typed value, or null where cells take none; act(index) for Enter and Space; select(index); describe(index); clear(index)
  constructor(name, title, n, asked) {
    Object.assign(this, { name, title, n, asked, at: 0, values: [], tones: [], marks: [], cells: [] });
    this.section = document.createElement('section');
    this.section.className = 'panel';
    this.section.id = `panel-${name}`;
    const head = document.createElement('header');
    this.head = document.createElement('h4');
    this.head.id = `title-${name}`;
    this.head.textContent = title;
    this.told = document.createElement('p');
    head.append(this.head, this.told);
    this.scroll = document.createElement('div');
    this.scroll.className = 'scroll';
    this.scroll.append(this.table());
    this.section.append(head, this.scroll);
  }

  table() {
    const { n } = this;
    const table = document.createElement('table');
    table.setAttribute('role', 'grid');
    table.setAttribute('aria-labelledby', `title-${this.name}`);
    table.className = `n${n}`;
    table.id = `grid-${this.name}`;
    table.style.setProperty('--n', n);
    if (!this.asked.enter) table.setAttribute('aria-readonly', 'true');
    const top = table.createTHead().insertRow();
    top.append(document.createElement('td'));
    for (let column = 0; column < n; column++) top.append(heading(column, 'col'));
    const body = table.createTBody();
    for (let row = 0; row < n; row++) {
      const line = body.insertRow();
      line.append(heading(row, 'row'));
      for (let column = 0; column < n; column++) {
        const cell = line.insertCell();
        cell.setAttribute('role', 'gridcell');
        cell.tabIndex = -1;
        cell.index = row * n + column;
        this.cells.push(cell);
      }
    }
    this.cells[0].tabIndex = 0;
    this.events(table);
    return table;
  }

  events(table) {
    const cellOf = (event) => event.target.closest('td[role=gridcell]');
    table.addEventListener('mousedown', (event) => {
      const cell = cellOf(event);
      if (!cell || event.target.tagName === 'INPUT') return;
      event.preventDefault();
      this.focus(cell.index);
    });
    table.addEventListener('click', (event) => {
      const cell = cellOf(event);
      if (!cell || event.target.tagName === 'INPUT') return;
      this.asked.act?.(cell.index);
    });
    table.addEventListener('dblclick', (event) => {
      const cell = cellOf(event);
      if (cell && this.asked.enter && event.target.tagName !== 'INPUT') this.open(cell.index);
    });
    table.addEventListener('focusin', (event) => {
      const cell = cellOf(event);
      if (cell && event.target.tagName !== 'INPUT') this.select(cell.index);
    });
    table.addEventListener('mouseover', (event) => {
      const cell = cellOf(event);
      if (cell) cell.title = this.asked.describe(cell.index);
    });
    table.addEventListener('keydown', (event) => this.key(event));
  }

  key(event) {
    if (event.target.tagName === 'INPUT' || event.altKey) return;
    const { n, at } = this;
    const row = Math.floor(at / n), column = at % n, far = event.ctrlKey || event.metaKey;
    const to = {
      ArrowLeft: column > 0 ? at - 1 : at,
      ArrowRight: column < n - 1 ? at + 1 : at,
      ArrowUp: row > 0 ? at - n : at,
      ArrowDown: row < n - 1 ? at + n : at,
      Home: far ? 0 : row * n,
      End: far ? n * n - 1 : row * n + n - 1,
      PageUp: Math.max(column, at - 8 * n),
      PageDown: Math.min(n * (n - 1) + column, at + 8 * n),
    }[event.key];
    if (to !== undefined) {
      event.preventDefault();
      this.focus(to);
      return;
    }
    if (far) return;
    const { asked } = this;
    const typed = /^[0-9-]$/.test(event.key);
    if (asked.enter && (typed || event.key === 'Enter' || event.key === 'F2')) {
      event.preventDefault();
      this.open(at, typed ? event.key : undefined);
    } else if (asked.act && (event.key === 'Enter' || event.key === ' ')) {
      event.preventDefault();
      asked.act(at);
    } else if (asked.clear && (event.key === 'Delete' || event.key === 'Backspace')) {
      event.preventDefault();
      asked.clear(at);
    }
  }

  select(index) {
    if (index !== this.at) {
      this.cells[this.at].tabIndex = -1;
      this.cells[index].tabIndex = 0;
      this.at = index;
    }
    this.asked.select(index);
  }

  focus(index) {
    this.select(index);
    this.cells[index].focus();
  }

  // the cell that goes with the one selected in another grid
  follow(index) {
    if (this.followed !== undefined) this.cells[this.followed].classList.remove('followed');
    this.followed = index;
    if (index !== undefined) this.cells[index].classList.add('followed');
  }

  // ---- the entry in a cell
  open(index, text) {
    if (this.entry) this.close();
    const cell = this.cells[index], entry = document.createElement('input');
    entry.className = 'entry';
    entry.setAttribute('inputmode', 'numeric');
    entry.setAttribute('autocomplete', 'off');
    entry.setAttribute('aria-label', `${this.title}, row ${Math.floor(index / this.n)}, column ${index % this.n}`);
    entry.value = text ?? (this.values[index] ?? '');
    this.entry = entry;
    entry.addEventListener('keydown', (event) => {
      event.stopPropagation();
      if (event.key === 'Escape') {
        event.preventDefault();
        this.close();
        cell.focus();
      } else if (event.key === 'Enter') {
        event.preventDefault();
        this.enter(index, entry);
      }
    });
    entry.addEventListener('blur', () => this.entry === entry && !entry.waiting && this.close());
    cell.classList.add('typing');
    cell.append(entry);
    entry.focus();
    if (text === undefined) entry.select();
  }

  async enter(index, entry) {
    entry.waiting = true;
    const words = await this.asked.enter(index, entry.value.trim());
    entry.waiting = false;
    if (this.entry !== entry) return;
    if (words) {
      entry.setAttribute('aria-invalid', 'true');
      entry.setAttribute('aria-describedby', 'bubble');
      entry.focus();
      return;
    }
    this.close();
    this.cells[index].focus();
  }

  close() {
    const { entry } = this;
    this.entry = undefined;
    entry?.parentNode.classList.remove('typing');
    entry?.remove();
    this.asked.closed?.();
  }

  // ---- what the cells show
  // values with null for an empty cell; colours of other values where given; marks as class names. Of a large grid the rows
  // on the screen, as look() found them, are drawn at once, and the others by finish()
  show(values, { coloured = values, peak = peakOf(coloured), marks = [] } = {}) {
    this.values = values;
    this.wanted = { coloured, peak, marks };
    this.widen(values);
    const [first, last] = this.rows ?? [0, this.n];
    this.paint(first * this.n, last * this.n);
    if (first === 0 && last === this.n) this.wanted = null;
  }

  finish() {
    if (this.wanted) this.paint(0, this.cells.length);
    this.wanted = null;
  }

  // which rows are on the screen; asked of all grids before any is changed, since the answer costs a layout
  look() {
    if (this.n === 32) this.rows = this.inView();
  }

  inView() {
    const at = this.section.getBoundingClientRect(), high = at.height / (this.n + 2) || 1;
    const row = (y) => Math.min(this.n, Math.max(0, Math.floor((y - at.top) / high)));
    if (at.bottom < 0 || at.top > window.innerHeight) return [0, 0];
    return [Math.max(0, row(0) - 2), at.bottom > window.innerHeight ? row(window.innerHeight) : this.n];
  }

  paint(from, to) {
    const { values, wanted: { coloured, peak, marks } } = this;
    for (let i = from; i < to; i++) {
      const cell = this.cells[i], value = values[i], mark = marks[i] ?? '';
      const text = value === null ? '' : minus(value);
      if (cell.shown !== text) {
        cell.shown = text;
        if (cell.firstChild?.nodeType === 3) cell.firstChild.data = text;
        else cell.prepend(text);
      }
      const step = tone(coloured[i], peak);
      if (this.tones[i] !== step) {
        this.tones[i] = step;
        cell.dataset.tone = step;
      }
      if (this.marks[i] !== mark) {
        for (const name of (this.marks[i] ?? '').split(' ')) if (name) cell.classList.remove(name);
        for (const name of mark.split(' ')) if (name) cell.classList.add(name);
        this.marks[i] = mark;
      }
    }
  }

  // columns are as wide as the widest number so far, so that an edit does not move the grid
  widen(values) {
    let wide = this.n > 8 ? 2 : 3;
    for (const value of values) if (value !== null) wide = Math.max(wide, `${value}`.length);
    if (!(wide <= this.wide)) {
      this.wide = wide;
      this.scroll.firstChild.style.setProperty('--digits', wide);
    }
  }
}

function heading(number, scope) {
  const cell = document.createElement('th');
  cell.scope = scope;
  cell.textContent = number;
  return cell;
}
