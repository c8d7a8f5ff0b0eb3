// The page: asks the board for what is newer than it has, and brings all that is seen up to date.

import { Alarms } from './alarms.js';
import { Commands } from './commands.js';
import { el, keyed, set, show, text } from './dom.js';
import { Events } from './events.js';
import { Jobs } from './jobs.js';
import { Plan } from './map.js';
import { number, say, sayAll, translate } from './messages.js';
import { Stock } from './stock.js';
import { Store } from './store.js';
import { Vehicles } from './vehicles.js';
import { clock, day, many, ordered, span } from './words.js';

const EVERY = 400; // milliseconds from one question to the next, where a quarter of them is left
const HIDDEN = 5000; // while the page is not seen
const TABS = ['vehicles', 'stock', 'jobs', 'events'];

const byId = (id) => document.getElementById(id);
let token = document.querySelector('meta[name=token]').content;
const store = new Store();

const view = {
  layout: null, // until the desk has told it
  mayCommand: false,
  instructs: false, // whether the dispatcher is told by commands
  picked: null,
  tab: 'vehicles',

  /** Picks a thing, of which its list is shown then; no name picks nothing. */
  pick(kind, name) {
    view.picked = name === null ? null : { kind, name };
    const tabs = { vehicle: 'vehicles', load: 'stock', station: 'stock' };
    if (view.picked && tabs[kind]) openTab(tabs[kind]);
    if (view.picked) lookAt(kind, name);
    view.redraw();
    const chosen = document.querySelector('.panel .chosen');
    if (chosen && view.picked) chosen.scrollIntoView({ block: 'nearest' });
  },

  /** Picks a thing, or where it is picked nothing. */
  toggle(kind, name) {
    view.pick(kind, view.isPicked(kind, name) ? null : name);
  },

  isPicked(kind, name) {
    return Boolean(view.picked) && view.picked.kind === kind && view.picked.name === name;
  },

  async command(name, values) {
    try {
      await commands.open(name, values, await answerOf('commands'));
    } catch {
      commands.fail(say('board.nothing'));
    }
  },

  history: (load) => answerOf(`history?load=${encodeURIComponent(load)}`),

  /** Brings all up to date; where only some kinds have changed, of the map only what they are. */
  redraw(changed = null) {
    if (!store.told) return;
    drawHeader();
    plan?.update(store, view.picked ? mapPick(view.picked) : null, changed);
    lists[view.tab].update(store, view.picked);
  },
};

const lists = {
  vehicles: new Vehicles(byId('vehicles'), view),
  stock: new Stock(byId('stock'), view),
  jobs: new Jobs(byId('jobs'), view),
  events: new Events(byId('events'), view, entries),
};
const commands = new Commands(byId('command'), post, optionsOf);
const alarms = new Alarms(byId('alarms'), view, post);
let plan = null;

async function answerOf(path) {
  const answer = await fetch(path, { headers: { Accept: 'application/json' } });
  if (!answer.ok) throw new Error(`${path}: ${answer.status}`);
  return answer.json();
}

/** Entries of the record. Where none can be had, the answer has a `fault`. */
async function entries(query) {
  try {
    const answer = await fetch(`record?${query}`, { headers: { Accept: 'application/json' } });
    return await answer.json();
  } catch {
    return { fault: say('record.silent') };
  }
}

/** Asks the board for a look or a command. Where nothing can be had, the answer has a `fault`. A look changes nothing. */
async function post(path, body) {
  try {
    const answer = await fetch(path, {
      method: 'POST',
      headers: { 'Content-Type': 'application/json', 'X-Board-Token': token },
      body: JSON.stringify(body),
    });
    if (answer.status === 401 || answer.status === 403) {
      const told = await answer.json().catch(() => ({}));
      return { fault: say('board.mayNot'), ...told };
    }
    return await answer.json();
  } catch {
    return { fault: say(path === 'look' ? 'board.nothing' : 'board.check') };
  }
}

/** What a field of a command may be filled with. */
function optionsOf(kind) {
  if (kind === 'vehicle') return store.vehicles();
  if (kind === 'station') return (view.layout?.stations ?? []).map(([name]) => name);
  if (kind === 'node') return (view.layout?.nodes ?? []).map(([name]) => name);
  if (kind === 'load') return store.loads();
  if (kind === 'waiting') return optionsOf('job').map((name) => [name, store.get('job', name)]);
  if (kind !== 'job' && kind !== 'stops') return [];
  return ordered([...store.kind('job')].filter(([, job]) => job.phase === 'waiting').map(([name]) => name));
}

/** What is marked on the map for what is picked: of a load the place where it is. */
function mapPick(picked) {
  if (picked.kind !== 'load') return picked;
  const [kind, name] = (store.get('load', picked.name)?.place ?? '').split(' ');
  return name ? { kind, name } : null;
}

function lookAt(kind, name) {
  const at = mapPick({ kind, name });
  if (at && plan) plan.lookAt(at.kind, at.name, store);
}

function openTab(name) {
  view.tab = name;
  for (const tab of TABS) {
    const chosen = tab === name;
    set(byId(`tab-${tab}`), 'aria-selected', String(chosen));
    set(byId(`tab-${tab}`), 'tabindex', chosen ? 0 : -1);
    show(byId(tab), chosen);
  }
  view.redraw();
}

function drawHeader() {
  const desk = store.get('desk', '');
  const silent = Date.now() - store.told > 4000;
  const waiting = silent ? 0 : store.waiting();
  const words = silent
    ? say('desk.silent')
    : !desk
      ? say('desk.asking')
      : waiting
        ? say('desk.waiting', { span: span(waiting) })
        : desk.up
          ? say('desk.up')
          : desk.other
            ? say('desk.other')
            : say('desk.down', { span: span(store.now() - desk.since) });
  set(byId('desk'), 'class', `desk ${silent || (desk && !desk.up) ? 'bad' : desk && !waiting ? 'good' : 'warn'}`);
  text(byId('desk').querySelector('.words'), words);
  set(byId('desk'), 'title', desk ? `${desk.up ? '' : `${desk.says ? sayAll(desk.says) : desk.fault} `}${say('stock.since', { day: day(desk.since) })}` : '');
  document.body.classList.toggle('stale', silent || waiting > 0 || Boolean(desk && !desk.up));
  text(byId('clock'), clock(store.now()));
  drawCounts();
  drawAlarms(silent);
}

function drawCounts() {
  const counts = store.get('counts', '') ?? { loads: 0, checking: 0, left: 0, jobs: 0 };
  const vehicles = store.vehicles();
  const orders = vehicles.filter((name) => store.get('vehicle', name).order_name !== null).length;
  const rows = [
    { key: 'vehicles', count: vehicles.length },
    { key: 'orders', count: orders },
    { key: 'jobs', count: counts.jobs },
    { key: 'loads', count: counts.loads },
    { key: 'checking', count: counts.checking },
  ];
  const made = (row) => el('div', {}, el('dt', {}, say(`count.${row.key}`)), el('dd'));
  keyed(byId('counts'), rows, made, (item, row) => {
    text(item.lastChild, number(row.count));
    set(item, 'class', row.key === 'checking' && row.count ? 'look' : '');
  });
  text(byId('tab-vehicles').lastChild, String(vehicles.length));
  text(byId('tab-stock').lastChild, number(counts.loads));
  text(byId('tab-jobs').lastChild, String(counts.jobs));
}

/** The alarms of the board, and what the page itself has found: the board is silent, or can't record. */
function drawAlarms(silent) {
  const rows = [];
  if (silent) {
    const words = say('alarms.board', { span: span(Date.now() - store.told) });
    rows.push({ key: 'board', level: 'bad', words, since: store.told });
  }
  for (const [key, fault] of store.kind('fault')) {
    rows.push({ key: `fault ${key}`, level: 'bad', words: sayAll(fault.says), since: 0 });
  }
  alarms.update(store, rows);
}

/** Whether commands may be given, and the token for them: another one once the board was started again. */
async function askWhether(again) {
  if (again) {
    const page = new DOMParser().parseFromString(await (await fetch('./')).text(), 'text/html');
    token = page.querySelector('meta[name=token]').content;
  }
  const told = token ? await post('may', {}) : { fault: true };
  view.mayCommand = !told.fault;
  view.instructs = view.mayCommand && Boolean(told.instructs);
  document.body.classList.toggle('may', view.mayCommand);
}

/** Draws the map by the layout of the desk, which is the same for good once there is one. */
function takeLayout(layout) {
  if (!layout || JSON.stringify(layout) === JSON.stringify(view.layout)) return;
  if (view.layout) {
    location.reload();
    return;
  }
  view.layout = layout;
  plan = new Plan(byId('plan'), layout, view.toggle, byId('ruler'));
}

let askedOf = ''; // the run of the board that was asked whether commands may be given

async function turn() {
  const begun = performance.now();
  try {
    const changed = store.take(await answerOf(`data?run=${store.run}&since=${store.version}`));
    if (changed.has('layout')) takeLayout(store.get('layout', ''));
    if (changed.size) view.redraw(changed);
    if (askedOf !== store.run) {
      await askWhether(askedOf !== '');
      askedOf = store.run;
    }
  } catch {
    if (store.told) drawHeader();
  }
  const left = EVERY - (performance.now() - begun); // what has to be drawn makes it no later
  setTimeout(turn, document.hidden ? HIDDEN : Math.max(EVERY / 4, left));
}

function listen() {
  for (const tab of TABS) byId(`tab-${tab}`).addEventListener('click', () => openTab(tab));
  document.querySelector('.tabs').addEventListener('keydown', (event) => {
    const step = { ArrowRight: 1, ArrowLeft: -1 }[event.key];
    if (!step) return;
    const next = TABS[(TABS.indexOf(view.tab) + step + TABS.length) % TABS.length];
    openTab(next);
    byId(`tab-${next}`).focus();
  });
  byId('closer').addEventListener('click', () => plan?.camera.zoom(1 / 1.4));
  byId('farther').addEventListener('click', () => plan?.camera.zoom(1.4));
  byId('whole').addEventListener('click', () => plan?.camera.all());
  document.addEventListener('keydown', (event) => {
    if (event.key !== '/' || event.target.closest('input, dialog')) return;
    event.preventDefault();
    openTab('stock');
    byId('search').focus();
  });
  document.addEventListener('visibilitychange', () => view.redraw());
}

translate(document);
openTab('vehicles');
listen();
byId('sound').append(alarms.soundButton());
setInterval(() => view.redraw(new Set(['time'])), 1000);
turn();
