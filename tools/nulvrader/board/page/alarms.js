// What needs a person, first of all on the page: since when, what to do, and who has taken it on.

import { button, el, keyed, part, set, show, text } from './dom.js';
import { faultOf, say } from './messages.js';
import { clock, day, ordered, span } from './words.js';

const NAME = 'board.name'; // what is kept of who looks here, where no proxy names them
const SOUND = 'board.sound';
const MANY = 6; // alarms of a kind, beyond which only the first are seen
const FIRST = 4;
const SPOKEN = 5000; // milliseconds, after which what was said is taken away
const TITLE = say('page.title');

/** By the kind of an alarm the command that ends the order of its vehicle. */
const HELP = { astray: 'place', silent: 'place', unready: 'cancel', 'unready.unknown': 'cancel' };

/** The jobs of a vehicle's order. */
function jobsOf(vehicle, store) {
  const jobs = [...store.kind('job')].filter(([, job]) => job.phase === 'riding' && job.vehicle === vehicle);
  return ordered(jobs.map(([name]) => name));
}

/** What the browser keeps of this page, or nothing where it keeps none. */
function kept(name) {
  try {
    return localStorage.getItem(name) ?? '';
  } catch {
    return '';
  }
}

function keep(name, value) {
  try {
    localStorage.setItem(name, value);
  } catch {
    // it is asked again next time
  }
}

export class Alarms {
  /** `view` picks things; `ask(path, body)` asks the board. */
  constructor(root, view, ask) {
    Object.assign(this, { root, view, ask });
    this.list = el('ul', {});
    this.name = el('input', {
      id: 'my-name', type: 'text', maxlength: 64, autocomplete: 'name', value: kept(NAME),
      oninput: () => keep(NAME, this.name.value.trim()),
    });
    this.who = el('p', { class: 'who', hidden: true }, el('label', { for: 'my-name' }, say('alarms.name')), this.name);
    this.fault = part('p', 'answer failed');
    this.fault.hidden = true;
    this.spoken = el('p', { class: 'spoken', role: 'alert' }); // what is new, for those who hear the page
    root.append(this.list, this.who, this.fault);
    root.after(this.spoken);
    this.known = null; // the alarms of the last time, until the first time
    this.sound = null;
    this.open = new Set(); // the kinds of which all are seen, however many there are
  }

  /** The button that switches the sound on and off. */
  soundButton() {
    const made = button('', () => {
      this.isLoud = !this.isLoud;
      keep(SOUND, this.isLoud ? 'on' : '');
      this.drawSound(made);
      if (this.isLoud) this.beep();
    }, { class: 'sound' });
    this.isLoud = kept(SOUND) === 'on';
    this.drawSound(made);
    return made;
  }

  drawSound(made) {
    set(made, 'aria-pressed', String(this.isLoud));
    text(made, say(this.isLoud ? 'alarms.loud' : 'alarms.quiet'));
  }

  beep() {
    try {
      this.sound ??= new AudioContext();
      const tone = this.sound.createOscillator();
      const loud = this.sound.createGain();
      loud.gain.value = 0.1;
      tone.frequency.value = 880;
      tone.connect(loud).connect(this.sound.destination);
      tone.start();
      tone.stop(this.sound.currentTime + 0.3);
    } catch {
      // there is no sound here
    }
  }

  /** Brings the list up to date. `own` are the alarms that the page itself has found. */
  update(store, own) {
    const rank = (row) => (row.level === 'bad' ? 0 : 1) + (row.taken ? 0.5 : 0);
    const rows = [...own, ...[...store.kind('alarm')].map(([key, alarm]) => ({ key, ...alarm }))];
    rows.sort((one, other) => rank(one) - rank(other) || one.since - other.since);
    keyed(this.list, this.folded(rows), (row) => this.made(row), (item, row) => this.change(item, row, store));
    const bad = rows.filter((row) => row.level === 'bad');
    const title = bad.length ? `▲ ${bad.length} · ${TITLE}` : TITLE;
    if (document.title !== title) document.title = title;
    set(document.querySelector('link[rel=icon]'), 'href', bad.length ? 'alarm.svg' : 'icon.svg');
    const keys = new Set(bad.map((row) => row.key));
    const fresh = bad.filter((row) => !this.known?.has(row.key));
    if (fresh.length) this.speak(fresh.map((row) => this.wordsOf(row)).join('. '));
    if (this.known && this.isLoud && fresh.length) this.beep();
    this.known = keys;
  }

  /** Has something said to those who hear the page. It is emptied then, so that the same words are heard again. */
  speak(words) {
    text(this.spoken, words);
    clearTimeout(this.silence);
    this.silence = setTimeout(() => text(this.spoken, ''), SPOKEN);
  }

  /** The rows that are seen: of many alarms of one kind the first ones, and behind them how many more there are. */
  folded(rows) {
    const kinds = new Map();
    for (const { n, kind, level } of rows) if (n) kinds.set(`${kind} ${level}`, (kinds.get(`${kind} ${level}`) ?? 0) + 1);
    const seen = new Map();
    return rows.flatMap((row) => {
      const name = `${row.kind} ${row.level}`;
      const count = (seen.get(name) ?? 0) + 1;
      seen.set(name, count);
      const all = kinds.get(name) ?? 0;
      if (!row.n || all <= MANY) return [row];
      const isOpen = this.open.has(name);
      const fold = { key: `fold ${name}`, fold: name, level: row.level, isOpen, count: all - FIRST };
      const isLast = count === (isOpen ? all : FIRST);
      return [...(isOpen || count <= FIRST ? [row] : []), ...(isLast ? [fold] : [])];
    });
  }

  /** Shows all alarms of a kind, or the first ones. */
  toggle(name) {
    if (!this.open.delete(name)) this.open.add(name);
    this.view.redraw();
  }

  made(row) {
    if (row.fold) return el('li', {}, button('', () => this.toggle(row.fold), { class: 'plain fold' }));
    const take = () => this.take(this.rows.get(row.key));
    return el('li', {},
      button('', () => this.pick(this.rows.get(row.key)), { class: 'plain what' }),
      part('span', 'since'), part('span', 'todo'), part('span', 'taken'),
      button('', take, { class: 'take' }), part('span', 'jobs'),
      button('', () => this.help(this.rows.get(row.key)), { class: 'take help' }));
  }

  change(item, row, store) {
    if (row.fold) {
      set(item, 'class', row.level);
      text(item.firstChild, say(row.isOpen ? 'alarms.fewer' : 'alarms.more', row));
      set(item.firstChild, 'aria-expanded', String(row.isOpen));
      return;
    }
    (this.rows ??= new Map()).set(row.key, row);
    set(item, 'class', `${row.level}${row.taken ? ' taken' : ''}`);
    const [what, since, todo, taken, take, riding, help] = item.children;
    text(what, this.wordsOf(row));
    text(since, row.since ? say('since', { clock: clock(row.since), span: span(store.now() - row.since) }) : '');
    set(since, 'title', row.since ? day(row.since) : null);
    text(todo, row.n ? say(`alarm.${row.kind}.do`, row.values) : row.todo ?? '');
    text(taken, row.taken ? say('alarms.taken', { who: row.taken.who, clock: clock(row.taken.at) }) : '');
    text(take, say(row.taken ? 'alarms.leave' : 'alarms.take'));
    show(take, Boolean(row.n) && this.view.mayCommand);
    const command = row.n ? HELP[row.kind] : null;
    const jobs = command ? jobsOf(row.values.vehicle, store) : [];
    text(riding, jobs.length ? say('alarms.jobs', { jobs: jobs.join(', ') }) : '');
    text(help, command ? say(`do.${command}`) : '');
    show(help, jobs.length > 0 && this.view.mayCommand);
  }

  /** Opens the command that frees the jobs of a vehicle which does not go on. */
  help(row) {
    this.view.command(HELP[row.kind], { vehicle: row.values.vehicle });
  }

  /** What is so. */
  wordsOf(row) {
    return row.n ? say(`alarm.${row.kind}`, row.values) : row.words;
  }

  pick(row) {
    const { vehicle, load, station } = row.values ?? {};
    if (vehicle) this.view.pick('vehicle', vehicle);
    else if (load) this.view.pick('load', load);
    else if (station) this.view.pick('station', station);
  }

  /** Takes an alarm on, or has it no more. Where no proxy says who it is the name is asked once. */
  async take(row) {
    const told = await this.ask('take', { alarm: row.n, take: !row.taken, name: this.name.value.trim() });
    const unnamed = Boolean(told.fault) && !this.name.value.trim();
    show(this.who, unnamed);
    text(this.fault, faultOf(told));
    show(this.fault, Boolean(told.fault));
    if (unnamed) this.name.focus();
  }
}
