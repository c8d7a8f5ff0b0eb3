// The page of a day's figures: they are asked for, shown beside those of the day before, and printed by the browser.

import { el, set } from './dom.js';
import { faultOf, number, say, translate } from './messages.js';
import { many, span, thingOf } from './words.js';

const HOUR = 3_600_000;
const OUTCOMES = ['done', 'stopped', 'cancelled', 'placed', 'failed', 'unseen'];
const STATES = ['busy', 'waiting', 'free', 'paused', 'not_ready', 'astray', 'silent']; // of what was seen
const BETTER = { done: 1, registered: 0, waited: -1, took: -1, waits: -1 }; // else fewer are better

const byId = (id) => document.getElementById(id);
const two = (count) => String(count).padStart(2, '0');
const textOf = (date) => `${date.getFullYear()}-${two(date.getMonth() + 1)}-${two(date.getDate())}`;

/** The moment at which a day of the calendar begins where the page is, so many days later. */
function beginning(day, later = 0) {
  const [year, month, date] = day.split('-').map(Number);
  return new Date(year, month - 1, date + later).getTime();
}

/** The figures of a day. Where none can be had, the answer has a `fault`. */
async function figuresOf(begin, end) {
  try {
    const answer = await fetch(`day?begin=${begin}&end=${end}`, { headers: { Accept: 'application/json' } });
    return await answer.json();
  } catch {
    return { fault: say('record.silent') };
  }
}

const sum = (rows) => rows.reduce((whole, row) => whole + row.seconds, 0);

/** The figures that are compared: each with its name, its value, and how it is written. */
function rowsOf(told) {
  const times = (seconds) => (seconds === null ? '–' : span(1000 * seconds));
  return [
    ['registered', told.registered, number],
    ...OUTCOMES.map((name) => [name, told.outcomes[name], number]),
    ['waited', told.waited, times],
    ['took', told.took, times],
    ['waits', sum(told.causes), times],
  ];
}

/** How a figure differs from the one of the day before. */
function change(name, now, before) {
  if (now === null || before === null) return el('td', { class: 'right' }, '–');
  const more = now - before;
  const sign = more > 0 ? '+' : more < 0 ? '−' : '±';
  const part = before ? ` (${sign}${number(Math.round((100 * Math.abs(more)) / before))} %)` : '';
  const isTime = ['waited', 'took', 'waits'].includes(name);
  const words = isTime ? span(1000 * Math.abs(more)) : number(Math.abs(more));
  const good = Math.sign(more) * (BETTER[name] ?? -1);
  return el('td', { class: `right ${good > 0 ? 'better' : good < 0 ? 'worse' : ''}` }, `${sign}${words}${part}`);
}

const headed = (title, ...children) => el('section', { 'aria-label': title }, el('h2', {}, title), ...children);

/**
 * A table: `names` are the titles of its columns, of which those that begin with `>` have numbers. On a phone one of
 * many columns has a line for each cell, with the title before it.
 */
function table(names, rows) {
  const head = names.map((name) => el('th', { scope: 'col', class: name[0] === '>' ? 'right' : '' }, name.replace('>', '')));
  const cell = (value, column) => {
    const made = value instanceof Node ? value : el('td', { class: names[column][0] === '>' ? 'right' : '' }, value);
    set(made, 'data-title', names[column].replace('>', ''));
    return made;
  };
  const body = rows.map((row) => el('tr', {}, ...row.map(cell)));
  const none = el('tr', {}, el('td', { colspan: names.length }, say('figures.none')));
  return el('div', { class: 'wide' }, el('table', { class: names.length > 4 ? 'broad' : '' }, el('thead', {}, el('tr', {}, ...head)), el('tbody', {}, ...(body.length ? body : [none]))));
}

function compared(now, before) {
  const earlier = rowsOf(before);
  const rows = rowsOf(now).map(([name, value, words], at) => [
    say(`figures.${name}`), words(value), words(earlier[at][1]), change(name, value, earlier[at][1]),
  ]);
  const names = ['', `>${say('figures.now')}`, `>${say('figures.before')}`, `>${say('figures.change')}`];
  return headed(say('figures.whole'), table(names, rows));
}

function hours(now, before, begin) {
  const most = Math.max(1, ...now.hours, ...before.hours);
  const bar = (count, style) => {
    const made = el('i', { class: style });
    made.style.height = count ? `max(2px, ${(100 * count) / most}%)` : '0';
    return made;
  };
  const clock = (at) => `${two(new Date(begin + at * HOUR).getHours())}`;
  const words = (at, count, earlier) => say('figures.hour', { clock: `${clock(at)}:00`, jobs: many(count, 'job'), earlier: number(earlier) });
  const bars = now.hours.map((count, at) => {
    const earlier = before.hours[at] ?? 0;
    return el('li', { title: words(at, count, earlier), 'aria-label': words(at, count, earlier) },
      bar(earlier, 'before'), bar(count, 'now'));
  });
  const key = (style, name) => el('span', {}, el('i', { class: style }), say(name));
  return headed(say('figures.hours'), el('ul', { class: 'hours' }, ...bars),
    el('p', { class: 'clock-row', 'aria-hidden': 'true' }, ...now.hours.map((_, at) => el('span', {}, clock(at)))),
    el('p', { class: 'keys' }, key('u-busy', 'figures.now'), key('before', 'figures.before'), el('span', {}, say('figures.most', { count: number(Math.max(0, ...now.hours)) }))));
}

const share = (part, whole) => (whole ? `${number(Math.round((100 * part) / whole))} %` : '–');

function vehicles(now, before) {
  const earlier = new Map(before.vehicles.map((row) => [row.vehicle, row]));
  const seen = (row) => STATES.reduce((whole, state) => whole + (row.seconds[state] ?? 0), 0);
  const rows = now.vehicles.map((row) => {
    const past = earlier.get(row.vehicle);
    const parts = STATES.filter((state) => row.seconds[state]).map((state) => {
      const part = el('i', { class: `u-${state}` });
      part.style.width = `${(100 * row.seconds[state]) / seen(row)}%`;
      return part;
    });
    const words = [...STATES, 'unseen'].filter((state) => row.seconds[state]).map((state) => `${say(`use.${state}`)} ${span(1000 * row.seconds[state])}`).join(', ');
    return [
      row.vehicle, el('td', {}, el('div', { class: 'share', role: 'img', 'aria-label': words, title: words }, ...parts)),
      share(row.seconds.busy ?? 0, seen(row)), past ? share(past.seconds.busy ?? 0, seen(past)) : '–',
      share(row.seconds.waiting ?? 0, seen(row)), number(row.jobs), past ? number(past.jobs) : '–',
    ];
  });
  const names = [say('figures.vehicle'), say('figures.use'), `>${say('use.busy')}`, `>${say('figures.before')}`,
    `>${say('use.waiting')}`, `>${say('figures.done')}`, `>${say('figures.before')}`];
  const keys = STATES.map((state) => el('span', {}, el('i', { class: `u-${state}` }), say(`use.${state}`)));
  return headed(say('figures.vehicles'), table(names, rows), el('p', { class: 'keys' }, ...keys));
}

function waits(now, before) {
  const whole = sum(now.causes);
  const past = new Map(before.causes.map((row) => [row.state, row.seconds]));
  const causes = now.causes.map((row) => [
    say(`cause.wait.${row.state}`), number(row.count), span(1000 * row.seconds), share(row.seconds, whole),
    span(1000 * (past.get(row.state) ?? 0)),
  ]);
  const earlier = new Map(before.places.map((row) => [`${row.kind} ${row.name}`, row.seconds]));
  const places = now.places.map((row) => [
    thingOf(row.kind, row.name), number(row.count), span(1000 * row.seconds), share(row.seconds, whole),
    earlier.has(`${row.kind} ${row.name}`) ? span(1000 * earlier.get(`${row.kind} ${row.name}`)) : '–',
  ]);
  const names = (first) => [first, `>${say('figures.times')}`, `>${say('figures.long')}`, `>${say('figures.part')}`, `>${say('figures.before')}`];
  return [headed(say('figures.causes'), table(names(say('figures.cause')), causes)),
    headed(say('figures.places'), table(names(say('figures.place')), places))];
}

function ways(now) {
  const rows = now.ways.map((row) => [row.job, row.load, `${row.origin} → ${row.target}`, row.vehicle ?? '–', span(1000 * row.seconds)]);
  const names = [say('figures.job'), say('figures.load'), say('figures.way'), say('figures.vehicle'), `>${say('figures.took.one')}`];
  return headed(say('figures.ways'), table(names, rows));
}

let asked = 0; // the last question, whose answer alone is shown

async function show() {
  const day = byId('day').value;
  if (!day) return;
  asked += 1;
  const mine = asked;
  location.replace(`#${day}`);
  byId('told').replaceChildren(el('p', { class: 'day' }, say('figures.asking')));
  const [begin, end] = [beginning(day), beginning(day, 1)];
  const now = await figuresOf(begin, end);
  const before = now.fault ? now : await figuresOf(beginning(day, -1), begin);
  if (mine !== asked) return;
  const wrong = now.fault ? now : before;
  if (wrong.fault) {
    byId('told').replaceChildren(el('p', { class: 'answer failed', role: 'alert' }, faultOf(wrong)));
    return;
  }
  const date = new Date(begin).toLocaleDateString(document.documentElement.lang, { weekday: 'long', year: 'numeric', month: 'long', day: 'numeric' });
  const partly = end > Date.now() ? say('figures.partly') : '';
  byId('told').replaceChildren(el('p', { class: 'day' }, date), el('p', {}, partly),
    compared(now, before), hours(now, before, begin), vehicles(now, before), ...waits(now, before), ways(now));
  document.title = `${say('figures.title')} ${day}`;
}

function move(days) {
  const chosen = byId('day').value || textOf(new Date());
  byId('day').value = textOf(new Date(beginning(chosen, days)));
  show();
}

translate(document);
const linked = location.hash.slice(1);
byId('day').value = /^\d{4}-\d\d-\d\d$/.test(linked) ? linked : textOf(new Date());
byId('day').addEventListener('change', show);
byId('earlier').addEventListener('click', () => move(-1));
byId('later').addEventListener('click', () => move(1));
byId('print').addEventListener('click', () => window.print());
byId('choice').addEventListener('submit', (event) => event.preventDefault());
show();
