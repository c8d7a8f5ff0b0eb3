// The live jobs: which wait and which ride, and how long.

import { button, el, keyed, part, set, show, text } from './dom.js';
import { colourOf } from './looks.js';
import { say } from './messages.js';
import { day, ordered, span } from './words.js';

export class Jobs {
  constructor(root, view) {
    this.view = view;
    this.actions = el('div', { class: 'actions find' }, button(say('do.job'), () => view.command('job', {})));
    this.told = el('div', { class: 'actions find' }, ...['close', 'open'].map((command) => {
      return button(say(`command.${command}`), () => view.command(command, {}), { 'data-command': command });
    }));
    this.closed = el('p', { class: 'urgency' });
    this.list = el('ul', { class: 'cards' });
    this.none = el('p', { class: 'none' }, say('jobs.none'));
    root.append(this.actions, this.told, this.closed, this.list, this.none);
  }

  update(store) {
    show(this.actions, this.view.mayCommand);
    show(this.told, this.view.instructs);
    const closed = ordered(store.kind('closed').keys()).join(', ');
    text(this.closed, closed ? say('jobs.closed', { closed }) : '');
    const rows = ordered(store.kind('job').keys()).map((key) => ({ key, job: store.get('job', key), store }));
    const rank = ({ job }) => (job.phase === 'riding' ? 0 : 1);
    rows.sort((one, other) => rank(one) - rank(other) || (one.job.added ?? 0) - (other.job.added ?? 0));
    show(this.none, rows.length === 0);
    keyed(this.list, rows, (row) => this.made(row), (card, row) => this.change(card, row));
  }

  made({ key }) {
    return el('li', { class: 'card job-card' },
      el('div', { class: 'head' },
        part('span', 'chip'), part('span', 'title', key), part('span', 'where'),
        el('span', { class: 'badges' }, el('span'))),
      part('p', 'acts'), part('p', 'urgency'), part('p', 'why'),
      el('div', { class: 'actions' },
        button(say('do.urgency'), () => this.urge(key), { 'data-command': 'urgency' }),
        button(say('do.order'), () => this.view.command('order', { stops: key })),
        button(say('do.stop'), () => this.view.command('stop', { job: key }))));
  }

  /** Asks for how urgent a job is, from what was said of it. */
  urge(key) {
    const { due, priority, truck, place } = this.store.get('urgency', key) ?? {};
    const values = { due: due ? new Date(1000 * due).toISOString().replace('.000', '') : '', priority, truck, place };
    const said = Object.entries(values).filter(([, value]) => value).map(([name, value]) => [name, String(value)]);
    this.view.command('urgency', { job: key, ...Object.fromEntries(said) });
  }

  /** What was said of a job, in words. */
  urgencyOf(key) {
    const { due, priority, truck, place } = this.store.get('urgency', key) ?? {};
    const words = [
      due ? say('jobs.urgency.due', { when: day(1000 * due) }) : '',
      priority ? say('jobs.urgency.priority', { priority }) : '',
      truck ? say('jobs.urgency.truck', { truck, place }) : '',
    ];
    return words.filter(Boolean).join(', ');
  }

  change(card, { key, job, store }) {
    this.store = store;
    const riding = job.phase === 'riding';
    const number = job.vehicle ? store.number(job.vehicle) : -1;
    set(card, 'class', `card job-card ${number < 0 ? '' : colourOf(number)}`);
    show(card.querySelector('.chip'), number >= 0);
    text(card.querySelector('.where'), job.load);
    const since = riding ? job.began : job.added;
    const long = since ? span(store.now() - since) : say('since.before');
    const badge = card.querySelector('.badges').firstChild;
    set(badge, 'class', `badge ${riding ? 'busy' : 'warn'}`);
    text(badge, say(riding ? 'jobs.rides' : 'jobs.waits', { span: long }));
    text(card.querySelector('.acts'), say(riding ? 'jobs.riding' : 'jobs.waiting', job));
    text(card.querySelector('.urgency'), this.urgencyOf(key));
    show(card.querySelector('[data-command=urgency]'), this.view.instructs);
    const why = store.get('why', riding ? job.vehicle : `job ${key}`);
    text(card.querySelector('.why'), why ? say('why.dispatcher', { why }) : '');
    show(card.querySelector('.actions'), this.view.mayCommand && !riding);
  }
}
