// The list of vehicles: how each is, its order and how far, and who waits for whom.

import { button, el, keyed, part, set, show, text } from './dom.js';
import { colourOf, factsOf, measuresOf, statesOf, wordsOf } from './looks.js';
import { say } from './messages.js';
import { ordered, span, thingOf } from './words.js';

const SORTS = ['name', 'trouble', 'battery'];

const ACTIONS = ['order', 'drive', 'advance', 'pause', 'resume', 'cancel', 'place', 'resync'];

/**
 * What an order carries, each load with where from, if that is known, and where to: `L1: A → B, on it`; and where a
 * drive leads. `way` is that of the order, or undefined until it has come: its jobs tell then what it carries.
 */
export function carriedWords(way, loads, jobs) {
  const acts = way?.acts ?? jobs.flatMap(({ load, origin, target }) => [
    { kind: 'pick', load, station: origin }, { kind: 'drop', load, station: target },
  ]);
  const station = (kind, load) => acts.find((act) => act.kind === kind && act.load === load)?.station ?? '';
  const names = [...new Set(acts.map((act) => act.load))];
  const others = loads.filter((load) => !names.includes(load)).map((load) => `${load}${say('carries.on')}`);
  const on = (load) => (loads.includes(load) ? say('carries.on') : '');
  const from = (load) => (station('pick', load) ? `${station('pick', load)} → ` : say('carries.to'));
  const carried = names.map((load) => `${load}: ${from(load)}${station('drop', load)}${on(load)}`);
  const drive = !way || acts.length ? [] : [say('carries.drive', { node: way.nodes.at(-1) })];
  return [...drive, ...carried, ...others].join(' · ');
}

export class Vehicles {
  /** `view` picks things and opens commands. */
  constructor(root, view) {
    this.root = root;
    this.view = view;
    const title = say('waits.title');
    this.waits = el('section', { class: 'block waits', 'aria-label': title }, el('h2', {}, title), el('ul'));
    this.search = el('input', {
      type: 'search', id: 'find-vehicle', 'aria-label': say('vehicles.find'), placeholder: say('vehicles.find'),
      autocomplete: 'off', spellcheck: 'false', oninput: () => view.redraw(),
    });
    this.order = el('select', { 'aria-label': say('vehicles.order'), onchange: () => view.redraw() },
      ...SORTS.map((name) => el('option', { value: name }, say(`vehicles.by.${name}`))));
    this.all = el('div', { class: 'actions' },
      button(say('command.pause_all'), () => view.command('pause_all', {}), { 'data-command': 'pause_all' }),
      button(say('command.resume_all'), () => view.command('resume_all', {}), { 'data-command': 'resume_all' }));
    this.finder = el('div', { class: 'find picker' }, this.search, this.order, this.all);
    this.list = el('ul', { class: 'cards' });
    this.none = el('p', { class: 'none' });
    root.append(this.finder, this.waits, this.list, this.none);
  }

  update(store, picked) {
    const names = store.vehicles();
    this.updateWaits(store);
    show(this.all, this.view.mayCommand && names.length > 0);
    const all = names.map((key, number) => ({ key, number, vehicle: store.get('vehicle', key), store, picked }));
    const words = this.search.value.trim().toLowerCase();
    const has = ({ key, vehicle }) => [key, vehicle.node, vehicle.order_name ?? '', ...vehicle.loads]
      .some((name) => name.toLowerCase().includes(words));
    const rows = this.sorted(words ? all.filter(has) : all, store);
    text(this.none, names.length ? say('vehicles.nothing') : say('vehicles.none'));
    show(this.none, rows.length === 0);
    keyed(this.list, rows, (row) => this.made(row), (card, row) => this.change(card, row));
  }

  /** The rows in the order that is chosen: by name, those in trouble first, or the emptiest battery first. */
  sorted(rows, store) {
    if (this.order.value === 'name') return rows;
    const grave = { bad: 0, warn: 1, busy: 2, good: 3 };
    const rank = ({ key, vehicle }) => (this.order.value === 'battery'
      ? store.get('said', key)?.battery ?? 101
      : grave[statesOf(key, vehicle, store)[0].level]);
    return rows.map((row) => [rank(row), row]).sort(([one], [other]) => one - other).map(([, row]) => row);
  }

  updateWaits(store) {
    const rows = [];
    for (const circle of store.get('circles', '') ?? []) {
      const ring = [...circle, circle[0]].join(' → ');
      const words = say('waits.circle', { ring });
      rows.push({ key: `circle ${circle}`, level: 'bad', vehicle: circle[0], words });
    }
    for (const name of ordered(store.kind('wait').keys())) {
      const wait = store.get('wait', name);
      if (!wait.stands) continue;
      const long = span(store.now() - wait.since);
      const words = say('waits.one', { vehicle: name, by: wait.by, thing: thingOf(wait.kind, wait.name), span: long });
      rows.push({ key: name, level: 'warn', vehicle: name, words });
    }
    show(this.waits, rows.length > 0);
    const made = (row) => el('li', {}, button('', () => this.view.pick('vehicle', row.vehicle), { class: 'plain' }));
    keyed(this.waits.lastChild, rows, made, (item, row) => {
      set(item, 'class', row.level);
      text(item.firstChild, row.words);
    });
  }

  made(row) {
    const name = row.key;
    const onclick = () => this.view.toggle('vehicle', name);
    const actions = ACTIONS.map((command) => {
      return button(say(`do.${command}`), () => this.view.command(command, { vehicle: name }), { 'data-command': command });
    });
    return el('li', { class: 'card vehicle-card' },
      el('button', { type: 'button', class: 'head', 'aria-expanded': 'false', onclick },
        part('span', 'chip'), part('span', 'title', name), part('span', 'where'), part('span', 'badges')),
      el('div', { class: 'order' },
        el('p', { class: 'line' }, part('span', 'said'), part('span', 'far')),
        el('div', { class: 'bar', role: 'img' }, part('i', 'seen'), part('i', 'base'))),
      part('p', 'acts'),
      part('p', 'why'),
      part('ul', 'saying'),
      part('p', 'measures'),
      part('p', 'facts'),
      part('p', 'rest bad'),
      el('div', { class: 'actions' }, ...actions));
  }

  change(card, { key: name, number, vehicle, store, picked }) {
    const chosen = Boolean(picked) && picked.kind === 'vehicle' && picked.name === name;
    const states = statesOf(name, vehicle, store);
    set(card, 'class', `card vehicle-card ${colourOf(number)}${chosen ? ' chosen' : ''}`);
    set(card.querySelector('.head'), 'aria-expanded', String(chosen));
    text(card.querySelector('.where'), say('where.station', { name: vehicle.node }));
    const badges = states.map((state) => ({ key: `${state.level} ${state.words.replace(/[0-9].*/, '')}`, ...state }));
    keyed(card.querySelector('.badges'), badges, () => el('span'), (badge, state) => {
      set(badge, 'class', `badge ${state.level}`);
      text(badge, state.words);
    });
    this.changeOrder(card, vehicle, store.get('way', name), () => store.jobsOf(vehicle.order_name));
    this.changeWords(card, vehicle, store.get('said', name), store.now());
    const why = store.get('why', name);
    text(card.querySelector('.why'), why ? say('why.dispatcher', { why }) : '');
    const { rest } = vehicle;
    const { edge, node } = rest ?? {};
    text(card.querySelector('.rest'), say('vehicles.rest', { edge, node }));
    show(card.querySelector('.rest'), Boolean(rest));
    text(card.querySelector('.facts'), chosen ? factsOf(vehicle) : '');
    show(card.querySelector('.facts'), chosen);
    show(card.querySelector('.actions'), chosen && this.view.mayCommand);
    this.changeActions(card, vehicle);
  }

  /** What the vehicle says, in its own words. */
  changeWords(card, vehicle, said, now) {
    const rows = wordsOf(vehicle, said, now).map((row) => ({ key: row.words, ...row }));
    const made = () => el('li', {}, el('span'), el('small'));
    keyed(card.querySelector('.saying'), rows, made, (item, row) => {
      set(item, 'class', row.level);
      text(item.firstChild, row.words);
      text(item.lastChild, row.since);
    });
    const measures = measuresOf(said);
    text(card.querySelector('.measures'), measures);
    show(card.querySelector('.measures'), measures !== '');
  }

  /** `jobs` finds those of its order. */
  changeOrder(card, vehicle, way, jobs) {
    const has = vehicle.order_name !== null;
    show(card.querySelector('.order'), has);
    const loads = vehicle.loads.length ? say('carries', { loads: vehicle.loads }) : '';
    const acts = card.querySelector('.acts');
    if (!has) {
      text(acts, loads);
      show(acts, loads !== '');
      return;
    }
    text(card.querySelector('.said'), say('vehicles.has', { order: vehicle.order_name }));
    set(card.querySelector('.said'), 'title', vehicle.order_name);
    const words = say('vehicles.far', { seen: vehicle.seen, edges: vehicle.edges, base: vehicle.base });
    text(card.querySelector('.far'), words);
    const part = (count) => `${vehicle.edges ? (100 * count) / vehicle.edges : 100}%`;
    const [done, base] = card.querySelectorAll('.bar i');
    done.style.width = part(vehicle.seen);
    base.style.width = part(vehicle.base);
    set(card.querySelector('.bar'), 'aria-label', words);
    const told = way ? [] : jobs();
    text(acts, way || told.length ? carriedWords(way, vehicle.loads, told) : loads);
    show(acts, true);
  }

  changeActions(card, vehicle) {
    const use = {
      order: vehicle.order_name === null,
      drive: vehicle.order_name === null,
      advance: vehicle.order_name !== null,
      cancel: vehicle.order_name !== null,
      pause: !vehicle.paused,
      resume: Boolean(vehicle.paused),
    };
    for (const button of card.querySelectorAll('.actions button')) show(button, use[button.dataset.command] ?? true);
  }
}
