// Loads and stations: found by their names, where each load is and since when, and how full the stations are.

import { button, el, keyed, part, set, show, text } from './dom.js';
import { number, place, say } from './messages.js';
import { day, placeWords, span } from './words.js';

const MOST = 60; // rows that are shown at once

export class Stock {
  constructor(root, view) {
    this.root = root;
    this.view = view;
    this.filter = 'all';
    this.search = el('input', {
      type: 'search',
      id: 'search',
      placeholder: say('stock.find'),
      'aria-label': say('stock.name'),
      autocomplete: 'off',
      spellcheck: 'false',
      oninput: () => view.redraw(),
      onkeydown: (event) => {
        if (event.key === 'Enter' && this.found) view.pick(...this.found);
      },
    });
    this.chips = el('div', { class: 'chips', role: 'group', 'aria-label': say('stock.stations') });
    for (const name of ['all', 'full', 'checking']) {
      this.chips.append(button(say(`stock.${name}`), () => this.choose(name), { 'data-filter': name }));
    }
    this.actions = el('div', { class: 'actions' },
      button(say('command.register'), () => view.command('register', {})),
      button(say('stock.count'), () => view.command('stocktake', {})));
    this.detail = el('section', { class: 'block detail', 'aria-label': say('stock.load') });
    this.stations = el('ul', { class: 'rows' });
    this.loads = el('ul', { class: 'rows' });
    this.titles = [el('h2'), el('h2')];
    this.more = el('p', { class: 'none' });
    this.past = button('', () => view.pick('load', this.search.value.trim()));
    const find = el('div', { class: 'find' }, this.search, this.actions);
    const [stations, loads] = this.titles;
    root.append(find, this.detail, this.chips, stations, this.stations, loads, this.loads, this.more);
    root.append(el('div', { class: 'actions find' }, this.past));
  }

  choose(name) {
    this.filter = name;
    this.search.value = '';
    this.view.redraw();
  }

  update(store, picked) {
    show(this.actions, this.view.mayCommand);
    const words = this.search.value.trim().toLowerCase();
    for (const chip of this.chips.children) {
      set(chip, 'aria-pressed', String(!words && chip.dataset.filter === this.filter));
    }
    const has = (name) => name.toLowerCase().includes(words);
    const byPlace = store.loadsByPlace();
    const station = picked && picked.kind === 'station' ? picked.name : null;
    const stations = this.updateStations(store, words, has);
    const at = (place) => byPlace.get(place) ?? [];
    let [names, title] = [store.loads(), say('tab.stock')];
    if (words && !(station && has(station))) names = names.filter(has);
    else if (this.filter === 'checking' && !words) [names, title] = [at('checking'), say('stock.at', { place: place('checking') })];
    else if (station) [names, title] = [at(`station ${station}`), say('stock.at', { place: place(`station ${station}`) })];
    text(this.titles[1], `${title} ${number(names.length)}`);
    const rows = names.slice(0, MOST).map((name) => ({ key: name, load: store.get('load', name) }));
    keyed(this.loads, rows, (row) => this.madeLoad(row), (item, row) => {
      text(item.querySelector('.where'), placeWords(row.load.place));
      text(item.querySelector('.since'), row.load.since ? span(store.now() - row.load.since) : '');
      set(item.firstChild, 'aria-pressed', String(this.view.isPicked('load', row.key)));
    });
    const left = names.length - rows.length;
    text(this.more, left > 0 ? say('stock.more', { loads: left }) : names.length ? '' : say('stock.none'));
    show(this.past, Boolean(words) && names.length === 0);
    text(this.past, say('stock.past', { load: this.search.value.trim() }));
    this.found = words ? this.firstOf(words, names, stations) : null;
    this.updateDetail(store, picked);
  }

  /** What Enter picks of what was found: the load or the station of that name, else the first. */
  firstOf(words, loads, stations) {
    const found = [...loads.map((name) => ['load', name]), ...stations.map((name) => ['station', name])];
    return found.find(([, name]) => name.toLowerCase() === words) ?? found[0] ?? ['load', this.search.value.trim()];
  }

  /** The names of the stations that are shown. */
  updateStations(store, words, has) {
    const rows = [];
    for (const [name, node, capacity] of this.view.layout?.stations ?? []) {
      const { taken, reserved } = store.get('station', name) ?? { taken: 0, reserved: 0 };
      const full = taken + reserved >= capacity;
      if (words ? has(name) : this.filter === 'all' || (this.filter === 'full' && full)) {
        rows.push({ key: name, node, capacity, taken, reserved, full });
      }
    }
    const title = say(this.filter === 'full' && !words ? 'stock.fulls' : 'stock.stations');
    text(this.titles[0], `${title} ${rows.length}`);
    show(this.titles[0], words ? rows.length > 0 : this.filter !== 'checking');
    keyed(this.stations, rows.slice(0, MOST), (row) => this.madeStation(row), (item, row) => {
      text(item.querySelector('.number'), say(row.reserved ? 'stock.room.reserved' : 'stock.room', row));
      show(item.querySelector('.badge'), row.full);
      const [taken, reserved] = item.querySelectorAll('.fill i');
      taken.style.width = `${(100 * row.taken) / row.capacity}%`;
      reserved.style.width = `${(100 * Math.min(row.capacity, row.taken + row.reserved)) / row.capacity}%`;
      set(item.firstChild, 'aria-pressed', String(this.view.isPicked('station', row.key)));
    });
    return rows.map((row) => row.key);
  }

  madeStation(row) {
    const onclick = () => this.view.toggle('station', row.key);
    return el('li', { class: 'row' }, el('button', { type: 'button', class: 'rowhead', onclick },
      part('span', 'title', row.key), part('span', 'where', say('where.station', { name: row.node })),
      part('span', 'badge warn', say('stock.full')), part('span', 'number'),
      el('span', { class: 'fill' }, part('i', 'taken'), part('i', 'reserved'))));
  }

  madeLoad(row) {
    const onclick = () => this.view.toggle('load', row.key);
    return el('li', { class: 'row' }, el('button', { type: 'button', class: 'rowhead', onclick },
      part('span', 'title', row.key), part('span', 'where'), part('span', 'since number')));
  }

  /** The load that is picked: where it is and was, its job, and what may be done with it. */
  updateDetail(store, picked) {
    const name = picked && picked.kind === 'load' ? picked.name : null;
    show(this.detail, name !== null);
    if (name === null) {
      this.shown = null;
      return;
    }
    const load = store.get('load', name);
    const job = store.jobOf(name);
    const row = job && store.get('job', job);
    const told = JSON.stringify([name, load, job, row]);
    if (this.shown === told) return;
    this.shown = told;
    const since = !load ? '' : load.since ? say('stock.since', { day: day(load.since) }) : say('since.before');
    const moves = el('ol', { class: 'moves' });
    const actions = el('div', { class: 'actions' });
    const act = (command, title) => {
      const onclick = () => this.view.command(command, { load: name });
      actions.append(button(title, onclick, { 'data-command': command }));
    };
    if (load && this.view.mayCommand) {
      if (!job && load.place.startsWith('station ')) act('job', say('do.job'));
      act('correct', say('stock.correct'));
      act('leave', say('stock.leave'));
    }
    const at = load ? placeWords(load.place) : '';
    const words = load ? `${at[0].toUpperCase()}${at.slice(1)}, ${since}.` : say('stock.gone');
    const live = job ? ` ${say(row.vehicle ? 'stock.rides' : 'stock.waits', { job, ...row })}` : '';
    const close = button('×', () => this.view.pick('load', null), { class: 'close', 'aria-label': say('dialog.close') });
    this.detail.replaceChildren(el('h2', {}, name), el('p', {}, words, live), moves, actions, close);
    this.view.history(name).then((history) => {
      if (this.shown !== told) return;
      for (const [at, before, after] of history.moves.slice(0, 8)) {
        const way = ` ${before ? placeWords(before) : say('stock.new')} → ${placeWords(after)}`;
        moves.append(el('li', {}, el('time', {}, day(Date.parse(at))), way));
      }
    });
  }
}
