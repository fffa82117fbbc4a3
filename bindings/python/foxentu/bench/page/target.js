// The target of a block: samples typed, painted or taken, and the edits that reach them.
import { ask, tell } from './server.js';

const NUMBER = /^[+-]?[0-9]+$/;

export function freshAim(size) {
  return { values: Array(size * size).fill(null), wanted: Array(size * size).fill(false), paint: '0', painting: false, from: 'came', found: null, words: null };
}

// app has the block and its aim; page has draw, view, enter, goTo and bubble of the page
export function aiming(app, page) {
  function aimAt(index, text) {
    const { aim } = app;
    if (text && (!NUMBER.test(text) || !Number.isSafeInteger(Number(text)))) {
      const words = `'${text}' is no whole number`;
      page.bubble(words, app.grids.target.cells[index]);
      return words;
    }
    aim.values[index] = text ? Number(text) : null;
    aim.wanted[index] = Boolean(text);
    aim.found = null;
    aim.words = null;
    page.draw();
    return null;
  }

  function painting(grid) {
    const paint = (event) => {
      const cell = event.target.closest('td[role=gridcell]');
      if (cell && app.aim.painting && NUMBER.test(app.aim.paint) && (event.type === 'mousedown' || event.buttons === 1)) aimAt(cell.index, app.aim.paint);
    };
    grid.scroll.addEventListener('mousedown', paint);
    grid.scroll.addEventListener('mouseover', paint);
    grid.asked.act = (index) => app.aim.painting && aimAt(index, app.aim.paint);
  }

  function togglePainting() {
    app.aim.painting = !app.aim.painting;
    app.focus = 'aim-painting';
    page.view('target', true);
  }

  async function take() {
    const { aim, block } = app, { from } = aim;
    try {
      let values = from === 'now' ? block.residual : block.came;
      if (/ /.test(from)) {
        const [target, of] = from.split(' ').map(Number);
        values = (await ask('target', { target, of })).residual;
      }
      Object.assign(aim, { values: [...values], wanted: values.map(() => true), found: null, words: null });
    } catch (refused) {
      aim.words = refused.words;
    }
    app.focus = 'aim-find';
    page.view('target', true);
  }

  async function find() {
    const { aim, block } = app;
    try {
      aim.found = await tell('search', { block: block.block, target: aim.values.map((value) => value ?? 0), wanted: aim.wanted.map(Number) });
      aim.words = null;
    } catch (refused) {
      aim.found = null;
      aim.words = refused.words;
    }
    app.focus = 'aim-find';
    page.draw();
  }

  function clearAim() {
    const { aim } = app;
    Object.assign(aim, { values: aim.values.map(() => null), wanted: aim.wanted.map(() => false), found: null, words: null });
    app.focus = 'aim-painting';
    page.draw();
  }

  async function makeFound(one) {
    const index = one.row * app.block.size + one.column;
    if (!(await page.enter('level', index, `${one.level}`, true))) page.goTo('levels', index);
  }

  return { at: aimAt, painting, togglePainting, take, find, clear: clearAim, make: makeFound };
}
