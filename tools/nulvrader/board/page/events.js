// What happened, the newest first: the last as it comes, or what is looked for, page by page.

import { button, el, keyed, part, set, show, text } from './dom.js';
import { faultOf, has, say } from './messages.js';
import { clock, day } from './words.js';

const MOST = 200;
const AGAIN = 2000; // milliseconds from one search to the next, while new entries come
const KINDS = ['alarm', 'load', 'job', 'order', 'vehicle', 'said', 'wait', 'desk', 'command', 'refused', 'failed'];

/** The sentence of an entry, in the language of the page. */
export function sentenceOf(event) {
  const name = `event.${event.what}`;
  return has(name) ? say(name, { ...event, ...(event.more ?? {}) }).trim() : event.text;
}

/** By whom or what, and with which call. */
export function causeOf(event) {
  const name = event.cause === 'person' && !event.who ? 'cause.page' : `cause.${event.cause}`;
  const call = event.call ? say('cause.call', { call: event.call }) : '';
  return has(name) ? `${say(name, event)}${call}` : '';
}

export class Events {
  /** `view` picks things; `find(query)` asks the board for entries. */
  constructor(root, view, find) {
    Object.assign(this, { view, find });
    const field = (name, attributes) => el('p', {}, el('label', { for: `find-${name}` }, say(`record.${name}`)),
      el('input', { id: `find-${name}`, name, autocomplete: 'off', ...attributes }));
    const kinds = ['', ...KINDS].map((kind) => el('option', { value: kind }, say(kind ? `kind.${kind}` : 'record.all')));
    this.form = el('form', { class: 'finder', role: 'search', oninput: () => this.later(), onsubmit: (event) => event.preventDefault() },
      field('text', { type: 'search', maxlength: 100 }),
      field('thing', { type: 'search', maxlength: 100, list: 'find-things' }),
      field('who', { type: 'search', maxlength: 100 }),
      el('p', {}, el('label', { for: 'find-kind' }, say('record.kind')), el('select', { id: 'find-kind', name: 'kind' }, ...kinds)),
      field('from', { type: 'datetime-local' }), field('to', { type: 'datetime-local' }),
      el('datalist', { id: 'find-things' }));
    this.file = el('a', { class: 'file', download: 'record.csv', href: 'record.csv' }, say('record.csv'));
    this.list = el('ol', { class: 'events' });
    this.none = el('p', { class: 'none' });
    this.older = button(say('record.older'), () => this.more());
    root.append(this.form, el('p', { class: 'find' }, this.file), this.list, this.none, el('div', { class: 'actions find' }, this.older));
    this.found = null; // what was found, while something is looked for or older entries are seen
    this.hasOlder = true;
  }

  /** What is asked for, as the board takes it. */
  query() {
    const query = new URLSearchParams();
    for (const [name, value] of new FormData(this.form)) {
      const time = name === 'from' || name === 'to';
      if (value.trim()) query.set(name, time ? String(Date.parse(value)) : value.trim());
    }
    return query;
  }

  /** Looks for what is asked for, once the typing has paused. */
  later(wait = 250) {
    clearTimeout(this.timer);
    this.timer = setTimeout(() => this.search(), wait);
  }

  async search() {
    const query = this.query();
    set(this.file, 'href', `record.csv?${query}`);
    if (!query.toString()) {
      this.found = null;
      this.hasOlder = true;
      this.view.redraw();
      return;
    }
    await this.take(query, []);
  }

  /** The entries before the last one that is seen. */
  async more() {
    const query = this.query();
    const seen = this.rows;
    if (seen.length) query.set('before', String(seen.at(-1).n));
    await this.take(query, seen);
  }

  async take(query, before) {
    const told = await this.find(query);
    this.fault = faultOf(told);
    this.found = [...before, ...(told.events ?? [])];
    this.hasOlder = Boolean(told.older);
    this.view.redraw();
  }

  update(store) {
    const newest = store.events.at(-1)?.n ?? 0;
    const looks = this.query().toString() !== '';
    if (looks && this.newest !== undefined && newest > this.newest) this.later(AGAIN);
    this.newest = newest;
    this.offer(store);
    const live = store.events.slice(-MOST).reverse();
    const fresh = this.found && !looks ? live.filter((event) => event.n > (this.found[0]?.n ?? 0)) : [];
    const all = new Map((this.found ? [...fresh, ...this.found] : live).map((event) => [event.n, event]));
    this.rows = [...all.values()].sort((one, other) => other.n - one.n); // each once, the newest first
    text(this.none, this.fault || (this.rows.length ? '' : say(looks ? 'record.nothing' : 'record.none')));
    show(this.none, this.none.textContent !== '');
    show(this.older, this.hasOlder && this.rows.length > 0);
    keyed(this.list, this.rows.map((event) => ({ key: event.n, event })), ({ event }) => this.made(event), () => {});
  }

  /** Offers the names of vehicles, stations and jobs to look for. */
  offer(store) {
    const names = [...store.vehicles(), ...(this.view.layout?.stations ?? []).map(([name]) => name), ...store.kind('job').keys()];
    const told = names.join(' ');
    if (this.offered === told) return;
    this.offered = told;
    this.form.querySelector('datalist').replaceChildren(...names.map((value) => el('option', { value })));
  }

  made(event) {
    const [kind, name] = event.vehicle ? ['vehicle', event.vehicle] : event.load ? ['load', event.load] : ['station', event.station];
    const words = name
      ? button(sentenceOf(event), () => this.view.pick(kind, name), { class: 'plain' })
      : el('span', {}, sentenceOf(event));
    const today = day(event.at).slice(0, 10) === day(Date.now()).slice(0, 10);
    return el('li', { class: `event ${event.kind}` },
      el('time', { title: day(event.at) }, today ? clock(event.at) : day(event.at)),
      part('span', 'kind', has(`kind.${event.kind}`) ? say(`kind.${event.kind}`) : event.kind),
      el('span', {}, words, part('small', 'cause', causeOf(event))));
  }
}
