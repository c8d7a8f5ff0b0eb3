// Times and numbers in words, and the order of names.

import { number, say } from './messages.js';

/** Names in the order in which people look for them: the numbers in them by their values, so that L2 is before L10. */
export function ordered(names) {
  const partsOf = (name) => name.split(/([0-9]+)/).map((part, turn) => (turn % 2 ? BigInt(part) : part));
  return [...names].map((name) => [name, partsOf(name)]).sort(([one, parts], [other, others]) => {
    for (let turn = 0; turn < parts.length && turn < others.length; turn += 1) {
      if (parts[turn] !== others[turn]) return parts[turn] < others[turn] ? -1 : 1;
    }
    return parts.length - others.length || (one < other ? -1 : 1);
  }).map(([name]) => name);
}

/** How long so many milliseconds are: `12 s`, `3 min`, `2 h 5 min`, `4 d 3 h`, in one piece. */
export function span(milliseconds) {
  return spanOf(milliseconds).replaceAll(' ', '\u00a0');
}

function spanOf(milliseconds) {
  const seconds = Math.max(0, Math.round(milliseconds / 1000));
  if (seconds < 60) return say('unit.s', { count: seconds });
  const minutes = Math.floor(seconds / 60);
  if (minutes < 10) return say('unit.min.s', { count: minutes, more: seconds % 60 });
  if (minutes < 60) return say('unit.min', { count: minutes });
  const hours = Math.floor(minutes / 60);
  if (hours < 48) return say('unit.h', { count: hours, more: minutes % 60 });
  return say('unit.d', { count: Math.floor(hours / 24), more: hours % 24 });
}

const two = (number) => String(number).padStart(2, '0');

/** The time of day of a moment, where the page is. */
export function clock(moment) {
  const at = new Date(moment);
  return `${two(at.getHours())}:${two(at.getMinutes())}:${two(at.getSeconds())}`;
}

/** The day and the time of day. */
export function day(moment) {
  const at = new Date(moment);
  return `${at.getFullYear()}-${two(at.getMonth() + 1)}-${two(at.getDate())} ${clock(moment)}`;
}

/** So many things: `1 load`, `2 loads`. */
export function many(count, thing) {
  return say(`many.${thing}.${count === 1 ? '1' : 'n'}`, { count: number(count) });
}

/** A place in words: `station A`, `on KIT/0001`, `checking place`. */
export function placeWords(place) {
  const at = place.indexOf(' ');
  return say(`where.${at < 0 ? place : place.slice(0, at)}`, { name: at < 0 ? '' : place.slice(at + 1) });
}

/** A shorter name for a vehicle: its serial number, where no other vehicle has that. */
export function shortName(name, all) {
  const serial = name.split('/')[1];
  return [...all].filter((other) => other.split('/')[1] === serial).length > 1 ? name : serial;
}

/** A node or an edge in words. */
export const thingOf = (kind, name) => say(`thing.${kind}`, { name });
