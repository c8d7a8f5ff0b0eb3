// What the board has told: values by kind and name, and what happened.

import { ordered } from './words.js';

const EVENTS = 300;
const LONG = 2000; // milliseconds, from which on an answer of the desk is waited for long

export class Store {
  constructor() {
    this.run = '';
    this.version = 0;
    this.kinds = new Map();
    this.events = [];
    this.offset = 0;
    this.asking = null;
    this.told = 0;
    this.kept = new Map();
  }

  /** What a question answers, kept until something changes. */
  once(name, question) {
    if (!this.kept.has(name)) this.kept.set(name, question());
    return this.kept.get(name);
  }

  /** The values of a kind by their names. */
  kind(name) {
    if (!this.kinds.has(name)) this.kinds.set(name, new Map());
    return this.kinds.get(name);
  }

  /** One value, or undefined. */
  get(kind, name) {
    return this.kind(kind).get(name);
  }

  /** The moment by the board's clock, in milliseconds since 1970. */
  now() {
    return Date.now() + this.offset;
  }

  /** For how many milliseconds the desk, which is up, has let the board wait for an answer; 0 where that is not long. */
  waiting() {
    const long = this.asking === null || !this.get('desk', '')?.up ? 0 : this.now() - this.asking;
    return long > LONG ? long : 0;
  }

  /** Takes an answer of the board. The kinds in which something has changed. */
  take(told) {
    const changed = new Set();
    if (told.full || told.values.length) this.kept = new Map();
    if (told.full) {
      for (const [kind, values] of this.kinds) if (values.size) changed.add(kind);
      this.kinds = new Map();
      this.events = [];
      changed.add('event');
    }
    for (const [kind, name, value] of told.values) {
      if (value === null) this.kind(kind).delete(name);
      else this.kind(kind).set(name, value);
      changed.add(kind);
    }
    if (told.events.length) {
      this.events = [...this.events, ...told.events].slice(-EVENTS);
      changed.add('event');
    }
    this.run = told.run;
    this.version = told.version;
    this.offset = told.now - Date.now();
    this.asking = told.asking;
    this.told = Date.now();
    return changed;
  }

  /** The names of the vehicles in their order. */
  vehicles() {
    return this.once('vehicles', () => ordered(this.kind('vehicle').keys()));
  }

  /** The number of a vehicle among all, by which it has its colour. */
  number(vehicle) {
    const numbers = this.once('numbers', () => new Map(this.vehicles().map((name, number) => [name, number])));
    return numbers.get(vehicle) ?? -1;
  }

  /** The vehicles that stand and wait for a vehicle. */
  behind(vehicle) {
    const rows = this.once('behind', () => {
      const found = new Map();
      for (const name of ordered(this.kind('wait').keys())) {
        const wait = this.get('wait', name);
        if (wait.stands) found.set(wait.by, [...(found.get(wait.by) ?? []), name]);
      }
      return found;
    });
    return rows.get(vehicle) ?? [];
  }

  /** By place the loads there, in the order of their names. */
  loadsByPlace() {
    return this.once('places', () => {
      const found = new Map();
      for (const name of this.loads()) {
        const { place } = this.get('load', name);
        if (!found.has(place)) found.set(place, []);
        found.get(place).push(name);
      }
      return found;
    });
  }

  /** The names of the loads in their order. */
  loads() {
    return this.once('loads', () => ordered(this.kind('load').keys()));
  }

  /** The live job of a load, or undefined. */
  jobOf(load) {
    for (const [name, job] of this.kind('job')) if (job.load === load) return name;
    return undefined;
  }

  /** The jobs of an order. */
  jobsOf(order) {
    return [...this.kind('job').values()].filter((job) => job.order === order);
  }

  /** The vehicles and the stations of alarms that nobody has taken on, each as `vehicle KIT/0001`. */
  alarmed() {
    return this.once('alarmed', () => {
      const found = new Set();
      for (const { kind, values, taken } of this.kind('alarm').values()) {
        if (taken) continue;
        const vehicles = values.vehicles ?? (values.vehicle ? [values.vehicle] : []);
        for (const name of vehicles) found.add(`vehicle ${name}`);
        if (values.station && !vehicles.length) found.add(`station ${values.station}`);
        if (kind === 'full') found.add('full');
      }
      return found;
    });
  }

  /** The vehicles of which each waits for the next: those that stand. */
  inCircle(vehicle) {
    return (this.get('circles', '') ?? []).some((circle) => circle.includes(vehicle));
  }
}
