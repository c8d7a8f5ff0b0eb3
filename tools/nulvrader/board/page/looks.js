// How vehicles look: their colours, and what is to be said of how they are.

import { say } from './messages.js';
import { clock, span } from './words.js';

const COLOURS = 6;
const LINES = 4;

/** The classes of a vehicle's colour and, beyond six vehicles, of its line. */
export function colourOf(number) {
  return `c${number % COLOURS} d${Math.floor(number / COLOURS) % LINES}`;
}

/** What a vehicle does that goes on with its order: what there is to do where it stands, or whether it may drive on. */
function doing(vehicle, way) {
  const { seen, base, edges, loads } = vehicle;
  const act = way?.acts.find(({ kind, load, at }) => at === seen && loads.includes(load) === (kind === 'drop'));
  if (act) return act.kind === 'pick' ? say('badge.picks') : say('badge.drops');
  return seen !== null && seen === base && base < edges ? say('badge.release') : say('badge.drives');
}

/**
 * What is to be said of how a vehicle is, the gravest first: each with `level`: `bad` needs a person, `warn` is to be
 * looked at, `busy` and `good` are in order; with words, and a sign for the map.
 */
export function statesOf(name, vehicle, store) {
  const now = store.now();
  const found = [];
  const add = (level, words, sign) => found.push({ level, words, sign });
  if (store.inCircle(name)) add('bad', say('badge.circle'), '⟳');
  if (vehicle.astray) add('bad', say('badge.astray'), '✕');
  if (vehicle.silent) add('bad', say('badge.silent', { span: span(now - vehicle.silent) }), '?');
  if (vehicle.header === null) add('warn', say('badge.unheard'), '?');
  else if (!vehicle.ready) add('bad', say('badge.unready'), '!');
  const loads = vehicle.order_name ? [] : vehicle.loads.filter((load) => !store.jobOf(load));
  if (loads.length) add('bad', say('badge.aboard', { loads }), '▣');
  if (store.get('alarm', `action ${name}`)) add('bad', say('badge.failed'), '✕');
  if (vehicle.paused) add('warn', say('badge.paused'), '‖');
  if (vehicle.pending) add('warn', say(`told.${vehicle.pending}`), '…');
  const wait = store.get('wait', name);
  if (wait && wait.stands) add('warn', say('badge.waits', wait), '…');
  if (vehicle.order_name && vehicle.confirmed !== vehicle.sent) add('busy', say('badge.unconfirmed'), '');
  const behind = store.behind(name);
  if (!vehicle.order_name && behind.length) add('warn', say('badge.behind', { vehicles: behind }), '');
  if (!found.length && vehicle.order_name) add('busy', doing(vehicle, store.get('way', name)), '');
  if (!found.length) add('good', say('badge.ready'), '');
  return found;
}

/** Since when something is so: the time of day and how long. */
const since = (moment, now) => (moment ? say('since', { clock: clock(moment), span: span(now - moment) }) : '');

const OLD = 30_000; // milliseconds, from which on a vehicle's words are old

/**
 * What a vehicle says that a person wants to know, the gravest first: each with `level`, `words` and since when.
 * `said` is what a gateway has told of it, if any has.
 */
export function wordsOf(vehicle, said, now) {
  const found = [];
  const add = (level, words, moment) => found.push({ level, words, since: since(moment, now) });
  const unready = vehicle.header !== null && !vehicle.ready;
  if (!said) return unready ? [{ level: 'bad', words: say('reason.unknown'), since: since(vehicle.unready, now) }] : found;
  if (said.stop && said.stop !== 'NONE') add('bad', say('reason.stop', said), said.since.stop);
  for (const error of said.errors) {
    const values = { ...error, refers: error.refers.join(', ') };
    add(error.level === 'FATAL' ? 'bad' : 'warn', say('reason.error', values).replace(/\s+/g, ' ').trim(), error.since);
  }
  if (said.mode && !['AUTOMATIC', 'SEMIAUTOMATIC'].includes(said.mode)) add('bad', say('reason.mode', said), said.since.mode);
  if (unready && !found.some((one) => one.level === 'bad')) add('bad', say('reason.other'), vehicle.unready);
  if (said.field) add('warn', say('reason.field'), said.since.field);
  if (said.low) add('warn', say('reason.battery', { battery: said.battery }), null);
  if (said.connection && said.connection !== 'ONLINE') add('warn', say('reason.connection', said), null);
  if (now - said.at > OLD) add('', say('reason.old', { span: span(now - said.at) }), null);
  return found;
}

/** What else the desk knows of a vehicle: how many loads it may carry, its newest state, and the updates of its order. */
export function factsOf(vehicle) {
  const found = [say('facts.capacity', vehicle)];
  if (vehicle.header !== null) found.push(say('facts.header', vehicle));
  if (vehicle.sent !== null) found.push(say(vehicle.confirmed === null ? 'facts.sent' : 'facts.confirmed', vehicle));
  return found.join(' · ');
}

/** The battery of a vehicle and where it is, as it says. */
export function measuresOf(said) {
  if (!said) return '';
  const found = [];
  if (said.battery !== null) found.push(say(said.charging ? 'said.charging' : 'said.battery', said));
  if (said.position) found.push(say('said.position', { x: said.position[0], y: said.position[1], map: said.map ?? '' }).trim());
  return found.join(' · ');
}
