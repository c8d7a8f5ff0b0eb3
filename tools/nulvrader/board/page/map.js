// The map: the layout, the stations with their places, the vehicles where they stand, what each holds in its colour,
// and the way that its order still has.

import { Camera } from './camera.js';
import { boxesOf, gathered, isUnder } from './clusters.js';
import { keyed, set, svg, text } from './dom.js';
import { colourOf, statesOf } from './looks.js';
import { number, say } from './messages.js';
import { MOST_SLOTS, RADIUS, SLOT, areFew, boundsOf, edgesOf, growthOf, namesOf, stationsOf } from './places.js';
import { shortName } from './words.js';

const FAR = 0.6; // pixels a unit, below which only nodes with room for it have a name, and stations no numbers
const NAME = 10.5; // of a node's name, in units, and from afar in pixels of a page whose letters have 14
const FARTHEST = 0.28; // below which stations have no names and no places, where they are many
const LONGEST = 140; // pixels of the ruler
const TEXT = 14; // pixels of the page's letters, at which labels have their own size
const MANY = 30; // vehicles, beyond which none glides from node to node

/** The width of a vehicle's label. */
const widthOf = (label) => Math.max(34, label.length * 7.6 + 14);

/** Shows how long a round number of metres is, of which each has so many pixels; nothing where that is not known. */
function drawScale(ruler, pixels) {
  ruler.hidden = !pixels;
  if (!pixels) return;
  const tens = 10 ** Math.floor(Math.log10(LONGEST / pixels));
  const metres = [5, 2, 1].map((digit) => digit * tens).find((length) => length * pixels <= LONGEST);
  ruler.firstElementChild.style.width = `${metres * pixels}px`;
  text(ruler.lastElementChild, say('map.metres', { count: number(metres) }));
}

export class Plan {
  /** `pick(kind, name)` is called for what is clicked; `ruler` shows how long so many metres are. */
  constructor(element, layout, pick, ruler) {
    Object.assign(this, { element, layout, pick, ruler });
    this.at = new Map(layout.nodes.map(([name, x, y]) => [name, [x, y]]));
    this.ends = edgesOf(layout, this.at);
    this.boxes = stationsOf(layout, this.at);
    this.below = namesOf(this.at, layout, this.boxes);
    this.parts = {};
    this.farthest = areFew(layout.stations) ? FARTHEST / 2 : FARTHEST;
    this.draw();
    element.style.setProperty('--most', growthOf(layout.stations));
    this.camera = new Camera(element, boundsOf(this.at, layout, this.boxes), (scale) => this.scaled(scale));
  }

  draw() {
    const { picture } = this.layout;
    const [x, y, width, height] = picture ?? [];
    const hall = picture ? svg('image', { href: 'picture', x, y, width, height, class: 'hall', preserveAspectRatio: 'none' }) : null;
    const size = { refX: 6, refY: 4, markerWidth: 6, markerHeight: 6 };
    const head = svg('marker', { id: 'head', viewBox: '0 0 8 8', orient: 'auto', ...size },
      svg('path', { d: 'M0 0.5 L7 4 L0 7.5 z' }));
    this.parts.edges = svg('g', { class: 'edges' });
    this.parts.ways = svg('g', { class: 'ways' });
    this.parts.held = svg('g', { class: 'holds' });
    this.parts.nodes = svg('g', { class: 'nodes' });
    this.parts.stations = svg('g', { class: 'stations' });
    this.parts.dots = svg('g', { class: 'dots' });
    this.parts.vehicles = svg('g', { class: 'vehicles' });
    this.edges = new Map();
    for (const [name] of this.layout.edges) {
      const line = svg('path', { class: 'edge', d: this.line(name), 'marker-end': 'url(#head)' },
        svg('title', {}, say('map.edge', { name })));
      this.edges.set(name, line);
      this.parts.edges.append(line);
    }
    this.nodes = new Map();
    for (const [name, x, y] of this.layout.nodes) this.parts.nodes.append(this.drawnNode(name, x, y));
    this.stations = new Map();
    for (const station of this.layout.stations) this.parts.stations.append(this.drawnStation(station));
    this.element.replaceChildren(svg('defs', {}, head), ...(hall ? [hall] : []), ...Object.values(this.parts));
  }

  line(edge) {
    const { from, to } = this.ends.get(edge);
    return `M${from[0].toFixed(1)} ${from[1].toFixed(1)}L${to[0].toFixed(1)} ${to[1].toFixed(1)}`;
  }

  drawnNode(name, x, y) {
    const group = svg('g', { class: 'node', transform: `translate(${x} ${y})` },
      svg('title', {}, say('map.node', { name })),
      svg('circle', { r: RADIUS }),
      svg('text', { y: this.below.get(name) ?? -RADIUS - 4, class: 'name' }, name));
    this.nodes.set(name, group);
    return group;
  }

  drawnStation([name, node, capacity]) {
    const [left, top, right, bottom] = this.boxes.get(name);
    const width = right - left;
    const slots = svg('g', { class: 'slots', transform: `translate(6 ${bottom - top - 14})` });
    const count = Math.min(capacity, MOST_SLOTS);
    const isBar = capacity > MOST_SLOTS;
    const each = isBar ? (width - 12) / MOST_SLOTS : SLOT;
    for (let k = 0; k < count; k += 1) {
      slots.append(svg('rect', { class: 'slot', x: k * each, width: each - (isBar ? 0 : 2), height: 8, rx: 1.5 }));
    }
    const number = svg('text', { class: 'number', x: width - 6, y: 14 });
    const title = svg('title', {}, say('map.station', { name, node }));
    const onclick = () => this.click('station', name);
    const body = svg('g', { class: 'body' },
      svg('rect', { class: 'box', width, height: bottom - top, rx: 5 }),
      svg('text', { x: 6, y: 14, class: 'called' }, name), number, slots);
    // from afar it grows away from its node, so that a vehicle there does not cover it
    const [x, y] = this.at.get(node);
    body.style.setProperty('--x', `${x - left}px`);
    body.style.setProperty('--y', `${y - top}px`);
    // and it stands aside for a vehicle there, however large that is drawn
    body.style.setProperty('--dx', left >= x ? 1 : right <= x ? -1 : 0);
    body.style.setProperty('--dy', top >= y ? 1 : bottom <= y ? -1 : 0);
    const group = svg('g', { class: 'station', transform: `translate(${left} ${top})`, onclick }, title, body);
    this.stations.set(name, { group, number, title, slots: [...slots.children], capacity, node });
    return group;
  }

  click(kind, name) {
    if (!this.camera.moved) this.pick(kind, name);
  }

  scaled(scale) {
    const letters = Number.parseFloat(getComputedStyle(document.documentElement).fontSize) / TEXT;
    const mark = Math.max(1, letters / scale);
    const grow = Math.min(3.5, Math.max(1, (letters * FAR) / scale));
    const body = Math.min(grow, growthOf(this.layout.stations));
    Object.assign(this, { scale, mark, body });
    this.aside = [20, 14].map((half) => Math.max(0, half * mark + 3 - 15 * body));
    this.nameNodes(scale < FAR ? letters / scale : 1);
    this.element.style.setProperty('--mark', mark.toFixed(3));
    for (const [at, name] of ['--sx', '--sy'].entries()) this.element.style.setProperty(name, `${this.aside[at].toFixed(1)}px`);
    this.gather();
    this.element.classList.toggle('far', scale < FAR);
    this.element.classList.toggle('farthest', scale < this.farthest);
    drawScale(this.ruler, scale * (this.layout.metre ?? 0));
    this.element.style.setProperty('--grow', grow.toFixed(2));
  }

  /**
   * Brings the map up to date. `picked` is what is picked: `{kind, name}`, or null; `changed` has the kinds of what has
   * changed, and is null for all.
   */
  update(store, picked, changed) {
    const names = store.vehicles();
    const colours = store.once('colours', () => new Map(names.map((name, number) => [name, colourOf(number)])));
    const all = changed === null || names.length !== this.count;
    const has = (...kinds) => all || kinds.some((kind) => changed.has(kind));
    if (has('hold')) this.updateHolds(store, colours);
    if (has('way', 'vehicle')) this.updateWays(store, names, colours, picked);
    if (has('station', 'alarm')) this.updateStations(store, picked);
    if (has('vehicle', 'wait', 'circles', 'job', 'alarm')) this.updateVehicles(store, names, colours, picked);
    this.element.classList.toggle('many', names.length > MANY);
    this.count = names.length;
  }

  updateHolds(store, colours) {
    const rows = [];
    const nodes = new Map();
    for (const [thing, vehicle] of store.kind('hold')) {
      const [kind, name] = thing.split(' ');
      if (kind === 'node') nodes.set(name, vehicle);
      else if (this.ends.has(name)) rows.push({ key: name, vehicle, colour: colours.get(vehicle) ?? '' });
    }
    keyed(this.parts.held, rows, (row) => svg('path', { d: this.line(row.key) }, svg('title')), (path, row) => {
      set(path, 'class', `hold ${row.colour}`);
      text(path.firstChild, say('map.edge.held', { name: row.key, vehicle: row.vehicle }));
    });
    for (const [name, group] of this.nodes) {
      const vehicle = nodes.get(name);
      set(group, 'class', vehicle ? `node held ${colours.get(vehicle) ?? ''}` : 'node');
      text(group.firstChild, say(vehicle ? 'map.node.held' : 'map.node', { name, vehicle }));
    }
  }

  updateWays(store, names, colours, picked) {
    const rows = [];
    for (const name of names) {
      const way = store.get('way', name);
      const { base } = store.get('vehicle', name);
      if (!way || base === null) continue;
      const left = way.edges.slice(base - way.first).filter((edge) => this.ends.has(edge));
      const d = left.map((edge) => this.line(edge)).join('');
      const strong = picked && picked.kind === 'vehicle' && picked.name === name ? ' strong' : '';
      if (d) rows.push({ key: name, d, style: `way ${colours.get(name)}${strong}` });
    }
    keyed(this.parts.ways, rows, () => svg('path'), (path, row) => {
      set(path, 'd', row.d);
      set(path, 'class', row.style);
    });
  }

  updateStations(store, picked) {
    for (const [name, station] of this.stations) {
      const { taken, reserved } = store.get('station', name) ?? { taken: 0, reserved: 0 };
      const full = taken + reserved >= station.capacity;
      const at = picked && picked.kind === 'station' && picked.name === name ? ' picked' : '';
      const alarmed = store.alarmed();
      const alarm = alarmed.has(`station ${name}`) || (alarmed.has('full') && taken >= station.capacity) ? ' alarm' : '';
      set(station.group, 'class', `station${full ? ' full' : ''}${at}${alarm}`);
      text(station.number, `${taken}/${station.capacity}`);
      const room = { name, node: station.node, taken, capacity: station.capacity, reserved };
      text(station.title, say(reserved ? 'map.station.reserved' : 'map.station.taken', room));
      const part = station.slots.length / station.capacity;
      station.slots.forEach((slot, k) => {
        const state = k < taken * part ? 'taken' : k < (taken + reserved) * part ? 'reserved' : 'free';
        set(slot, 'class', `slot ${state}`);
      });
    }
  }

  updateVehicles(store, names, colours, picked) {
    const rows = names.map((name) => {
      const vehicle = store.get('vehicle', name);
      const states = statesOf(name, vehicle, store);
      const alarm = store.alarmed().has(`vehicle ${name}`);
      return { key: name, vehicle, states, alarm, label: shortName(name, names), colour: colours.get(name) };
    });
    const placed = rows.filter((row) => this.at.has(row.vehicle.node));
    keyed(this.parts.vehicles, placed, (row) => this.drawnVehicle(row), (group, row) => {
      const chosen = picked && picked.kind === 'vehicle' && picked.name === row.key ? ' picked' : '';
      set(group, 'class', `vehicle ${row.colour} ${row.states[0].level}${chosen}${row.alarm ? ' alarm' : ''}`);
      this.changeVehicle(group, row);
    });
    const rank = ({ key, states, alarm }) => (picked?.name === key ? 0 : alarm ? 1 : states[0].level === 'bad' ? 2 : 3);
    this.placed = placed.map((row) => [rank(row), row]).sort(([one], [other]) => one - other).map(([, row]) => row);
    this.gather();
  }

  /** Has each label seen that does not lie on another one: of vehicles that stand close together the first has it. */
  gather() {
    if (!this.placed || !this.scale) return;
    const { scale, mark } = this;
    const rows = this.placed.map(({ key, label, vehicle }) => {
      const [x, y] = this.at.get(vehicle.node);
      return { key, x: x * scale, y: y * scale, half: widthOf(label) / 2 + 4 };
    });
    const leaders = gathered(rows, mark * scale);
    const others = new Map();
    for (const [key, leader] of leaders) if (leader !== key) others.set(leader, [...(others.get(leader) ?? []), key]);
    for (const [key, group] of this.parts.vehicles.kept ?? []) {
      set(group, 'data-in', leaders.get(key) === key ? null : leaders.get(key));
      const count = others.get(key)?.length ?? 0;
      text(group.querySelector('.more text'), count ? `+${count}` : '');
      set(group.querySelector('.more'), 'class', count ? 'more' : 'more none');
    }
    this.others = others;
    const dots = this.placed.filter(({ key }) => leaders.get(key) !== key);
    keyed(this.parts.dots, dots, ({ key }) => svg('g', { onclick: () => this.click('vehicle', key) }, svg('title', {}, key), svg('circle', { r: 5 })),
      (dot, { vehicle, colour }) => {
        const [x, y] = this.at.get(vehicle.node);
        set(dot, 'class', `dot ${colour}`);
        set(dot, 'transform', `translate(${x} ${y})`);
      });
    this.giveWay(boxesOf(rows, leaders, mark * scale));
  }

  /** Draws the names of nodes so many times as large. */
  nameNodes(size) {
    if (size === this.naming) return;
    this.naming = size;
    this.element.style.setProperty('--names', size.toFixed(3));
    for (const [name, group] of this.nodes) set(group.lastChild, 'y', this.baseOf(name));
  }

  /** How far below its node the name of one stands. */
  baseOf(name) {
    const below = this.below.get(name) ?? -RADIUS - 4;
    return below < 0 ? below : below + NAME * (this.naming - 1);
  }

  /** The box of a node's name. */
  nameBox(name) {
    const [[x, y], below, half] = [this.at.get(name), this.baseOf(name), name.length * 3.8 * this.naming];
    return [x - half, y + below - 10 * this.naming, x + half, y + below + 2 * this.naming];
  }

  /** The box of a station, as large as it is drawn. */
  boxOf(name) {
    const { body } = this;
    const [x, y] = this.at.get(this.stations.get(name).node);
    const [left, top, right, bottom] = this.boxes.get(name);
    const [dx, dy] = [left >= x ? 1 : right <= x ? -1 : 0, top >= y ? 1 : bottom <= y ? -1 : 0];
    const [across, down] = [dx * this.aside[0], dy * this.aside[1]];
    return [x + (left - x) * body + across, y + (top - y) * body + down, x + (right - x) * body + across, y + (bottom - y) * body + down];
  }

  /**
   * Has no name of a node and no words of a station seen that would lie under a vehicle, and from afar no name that would
   * lie on another one or a station.
   */
  giveWay(vehicles) {
    const pixels = (box) => box.map((side) => side * this.scale);
    const far = this.naming !== 1;
    const taken = [...vehicles];
    for (const [name, { group }] of this.stations) {
      const box = pixels(this.boxOf(name));
      set(group, 'data-under', isUnder(box, vehicles) ? '' : null);
      if (far) taken.push(box);
    }
    for (const [name, group] of this.nodes) {
      const box = pixels(this.nameBox(name));
      const under = isUnder(box, taken);
      set(group, 'data-under', under ? '' : null);
      if (far && !under) taken.push(box);
    }
  }

  /** Zooms in until the vehicles that are gathered in a label stand apart. */
  open(key, event) {
    event.stopPropagation();
    if (this.camera.moved) return;
    const nodes = this.placed.filter((row) => row.key === key || this.others.get(key)?.includes(row.key)).map((row) => this.at.get(row.vehicle.node));
    this.camera.showAll(nodes);
  }

  changeVehicle(group, { key, vehicle, states }) {
    const [x, y] = this.at.get(vehicle.node);
    const place = `translate(${x}px, ${y}px)`;
    if (group.style.transform !== place) group.style.transform = place;
    const [title, body] = group.children;
    text(title, say('map.vehicle', { vehicle: key, node: vehicle.node, states: states.map((state) => state.words) }));
    const sign = states.find((state) => state.sign)?.sign ?? '';
    text(body.querySelector('.sign text'), sign);
    set(body.querySelector('.sign'), 'class', sign ? 'sign' : 'sign none');
    text(body.querySelector('.cargo text'), String(vehicle.loads.length));
    set(body.querySelector('.cargo'), 'class', vehicle.loads.length ? 'cargo' : 'cargo none');
  }

  drawnVehicle(row) {
    const width = widthOf(row.label);
    const more = svg('g', { class: 'more none', transform: `translate(${width / 2 - 3} 12)`, onclick: (event) => this.open(row.key, event) },
      svg('rect', { x: -13, y: -8, width: 26, height: 16, rx: 8 }), svg('text', { y: 4 }));
    return svg('g', { onclick: () => this.click('vehicle', row.key) },
      svg('title'),
      svg('g', { class: 'body' },
        svg('rect', { class: 'ring', x: -width / 2 - 4, y: -15, width: width + 8, height: 30, rx: 9 }),
        svg('rect', { class: 'hull', x: -width / 2, y: -11, width, height: 22, rx: 6 }),
        svg('text', { class: 'called', y: 4.5 }, row.label),
        svg('g', { class: 'cargo', transform: `translate(${width / 2 - 1} -11)` },
          svg('rect', { x: -7, y: -7, width: 14, height: 14, rx: 2.5 }), svg('text', { y: 4 })),
        svg('g', { class: 'sign', transform: `translate(${-width / 2 + 1} -11)` },
          svg('circle', { r: 8 }), svg('text', { y: 4 })), more));
  }

  /** Has a thing seen. */
  lookAt(kind, name, store) {
    let point = null;
    if (kind === 'node') point = this.at.get(name);
    if (kind === 'station') point = this.at.get(this.stations.get(name)?.node);
    if (kind === 'vehicle') point = this.at.get(store.get('vehicle', name)?.node);
    if (point) this.camera.lookAt(point);
  }
}
