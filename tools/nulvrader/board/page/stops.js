// The stops of an order, chosen by clicks and put in order by dragging or by buttons; the field beside has them as text.

import { button, el } from './dom.js';
import { say } from './messages.js';

/** The stops of a text, as the board reads it: a job alone is its pick and its drop. */
export function stopsOf(words) {
  return words.split(',').map((one) => one.trim().split(/\s+/)).flatMap((parts) => {
    if (parts.length === 1) return parts[0] ? [['pick', parts[0]], ['drop', parts[0]]] : [];
    return parts.length === 2 && ['pick', 'drop'].includes(parts[0]) ? [parts] : [];
  });
}

export class Stops {
  /** `input` has the text; `jobs` are the waiting jobs, each with its name and what it is. */
  constructor(input, jobs) {
    Object.assign(this, { input, jobs: new Map(jobs) });
    this.list = el('ol', { class: 'stops', 'aria-label': say('stops.list') });
    this.offers = el('p', { class: 'actions' });
    this.root = el('div', {}, this.list, this.offers);
    input.addEventListener('input', () => this.draw());
    this.draw();
  }

  /** Puts stops into the text, and draws them. */
  put(stops) {
    this.input.value = stops.map((stop) => stop.join(' ')).join(', ');
    this.draw();
  }

  /** Has a stop stand elsewhere. A drop stays behind its pick. */
  move(from, to) {
    const stops = stopsOf(this.input.value);
    const [stop] = stops.splice(from, 1);
    stops.splice(to, 0, stop);
    const place = (act, job) => stops.findIndex(([one, other]) => one === act && other === job);
    if (place('drop', stop[1]) < place('pick', stop[1])) return;
    this.put(stops);
  }

  draw() {
    const stops = stopsOf(this.input.value);
    this.list.replaceChildren(...stops.map((stop, at) => this.made(stop, at, stops.length)));
    const named = new Set(stops.map(([, job]) => job));
    const left = [...this.jobs].filter(([name]) => !named.has(name));
    this.offers.replaceChildren(...left.map(([name, job]) => button(say('stops.add', { name, ...job }),
      () => this.put([...stopsOf(this.input.value), ['pick', name], ['drop', name]]), { 'data-job': name })));
  }

  made([act, name], at, count) {
    const job = this.jobs.get(name);
    const place = act === 'pick' ? job?.origin : job?.target;
    const words = job ? say(`stops.${act}`, { name, load: job.load, place }) : `${act} ${name}`;
    const step = (by, sign) => button(sign, () => this.move(at, at + by), {
      disabled: at + by < 0 || at + by >= count, 'aria-label': say(by < 0 ? 'stops.up' : 'stops.down', { words }),
    });
    const gone = button('×', () => this.put(stopsOf(this.input.value).filter(([, other]) => other !== name)),
      { 'aria-label': say('stops.remove', { name }) });
    return el('li', {
      draggable: 'true',
      ondragstart: (event) => event.dataTransfer.setData('text/plain', String(at)),
      ondragover: (event) => event.preventDefault(),
      ondrop: (event) => {
        event.preventDefault();
        this.move(Number(event.dataTransfer.getData('text/plain')), at);
      },
    }, el('span', {}, words), step(-1, '↑'), step(1, '↓'), gone);
  }
}
