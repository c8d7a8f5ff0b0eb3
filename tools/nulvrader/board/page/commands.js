// Commands: what each needs is asked, what it will do is shown, and then it is done.

import { button, el } from './dom.js';
import { faultOf, has, say, sayAll } from './messages.js';
import { Stops } from './stops.js';

const WAYS = ['free', 'all']; // in place of a number of edges

/** The title of a command, in the language of the page. */
const titleOf = ({ command, title }) => (has(`command.${command}`) ? say(`command.${command}`) : title);

export class Commands {
  /** `ask(path, body)` asks the board; `options(kind)` names what a field may be filled with. */
  constructor(dialog, ask, options) {
    Object.assign(this, { dialog, ask, options });
    this.listed = new Map();
    dialog.addEventListener('click', (event) => {
      if (event.target === dialog) dialog.close();
    });
    dialog.addEventListener('close', () => this.giveBack());
  }

  /** Gives the focus to what opened the command or, where that is not seen any more, to what stands there now. */
  giveBack() {
    const { from, near } = this;
    const seen = (one) => one?.isConnected && one.getClientRects().length > 0;
    if (!from || seen(from)) return;
    const buttons = [...(near?.querySelectorAll('button') ?? [])].filter(seen);
    const same = buttons.find((one) => from.dataset.command && one.dataset.command === from.dataset.command);
    (same ?? buttons[0] ?? document.querySelector('[role="tab"][aria-selected="true"]')).focus();
  }

  /** Takes the commands as the board lists them. */
  take(listed) {
    this.listed = new Map(listed.map((command) => [command.command, command]));
  }

  /** Opens a command with some values. One that needs no more is looked at right away. */
  async open(name, values, listed) {
    this.take(listed);
    const command = this.listed.get(name);
    if (!command) return;
    this.from = document.activeElement;
    this.near = this.from?.closest('.card, .detail');
    const given = (field) => [field.name, values[field.name] ?? field.given];
    if (command.fields.every((field) => field.name in values)) await this.look(command, values);
    else this.form(command, Object.fromEntries(command.fields.map(given)));
    const focused = this.dialog.querySelector('[autofocus]');
    this.dialog.showModal();
    focused?.focus({ preventScroll: true });
  }

  /** Says why there is no command. */
  fail(words) {
    const close = button(say('dialog.close'), () => this.dialog.close(), { class: 'main' });
    this.frame(say('dialog.command'),
      el('p', { class: 'answer failed', role: 'alert' }, words),
      el('div', { class: 'buttons' }, close));
    this.focus(close);
    if (!this.dialog.open) this.dialog.showModal();
  }

  frame(title, ...children) {
    const close = button('×', () => this.dialog.close(), { class: 'close', 'aria-label': say('dialog.close') });
    this.dialog.replaceChildren(el('h2', { id: 'command-title' }, title), close, ...children.filter(Boolean));
  }

  /** Has an element focused, now or once the dialog is open. */
  focus(element) {
    if (!element) return;
    element.setAttribute('autofocus', '');
    if (this.dialog.open) element.focus({ preventScroll: true });
  }

  form(command, values, fault = '') {
    const fields = command.fields.map((field) => this.field(field, values[field.name] ?? ''));
    const submit = async (event) => {
      event.preventDefault();
      await this.look(command, await this.valuesOf(command, form, values));
    };
    const form = el('form', { onsubmit: submit, novalidate: true }, ...fields,
      fault ? el('p', { class: 'answer failed', role: 'alert' }, fault) : null,
      el('div', { class: 'buttons' },
        button(say('dialog.close'), () => this.dialog.close()),
        el('button', { type: 'submit', class: 'main' }, say('dialog.look'))));
    this.frame(titleOf(command), form);
    const first = [...form.querySelectorAll('input')].find((input) => !input.value) ?? form.querySelector('input');
    this.focus(first);
  }

  field(field, value) {
    const id = `field-${field.name}`;
    const common = { id, name: field.name, autocomplete: 'off', spellcheck: 'false' };
    const name = `field.${field.name}${field.kind === 'station' && field.optional ? '.checking' : ''}`;
    const label = el('label', { for: id }, has(name) ? say(name) : field.label);
    if (field.kind === 'file') {
      return el('p', {}, label, el('input', { ...common, type: 'file', accept: '.csv,text/csv,text/plain' }));
    }
    const list = field.kind === 'release' ? WAYS : this.options(field.kind);
    const number = { type: 'number', min: 0, max: 200, inputmode: 'numeric' };
    const kind = field.kind === 'number' ? number : { type: 'text' };
    const input = el('input', { ...common, ...kind, value, list: list.length ? `${id}-list` : null });
    const fill = (way) => button(say(`release.${way}`), () => {
      input.value = way;
    });
    const stops = field.kind === 'stops' ? new Stops(input, this.options('waiting')).root : null;
    return el('div', { class: 'field' }, label, input, stops,
      field.kind === 'release' ? el('span', { class: 'actions' }, ...WAYS.map(fill)) : null,
      list.length ? el('datalist', { id: `${id}-list` }, ...list.map((name) => el('option', { value: name }))) : null);
  }

  async valuesOf(command, form, before) {
    const values = {};
    for (const field of command.fields) {
      const input = form.elements[field.name];
      if (field.kind !== 'file') values[field.name] = input.value.trim();
      else values[field.name] = input.files.length ? await input.files[0].text() : before[field.name] ?? '';
    }
    return values;
  }

  async look(command, values) {
    const told = await this.ask('look', { command: command.command, values });
    if (told.fault) {
      this.form(command, values, faultOf(told));
      return;
    }
    const run = button(say('dialog.do'), async () => {
      run.disabled = true;
      this.answered(command, told.values, await this.ask('do', { command: command.command, values: told.values }));
    }, { class: 'main' });
    const items = (lines) => lines.map(([name, values]) => el('li', {}, say(name, values)));
    const warns = el('div', { class: 'warns' }, el('h3', {}, say('dialog.first')), el('ul', {}, ...items(told.lines.warns)));
    this.frame(titleOf(command),
      el('ul', { class: 'says' }, ...items(told.lines.says)),
      told.warns.length ? warns : null,
      el('div', { class: 'buttons' }, button(say('dialog.back'), () => this.form(command, values)), run));
    this.focus(run);
  }

  answered(command, values, told) {
    const failed = told.fault || !told.done;
    const close = button(say('dialog.close'), () => this.dialog.close(), { class: 'main' });
    const back = failed ? button(say('dialog.back'), () => this.form(command, values)) : null;
    this.frame(titleOf(command),
      el('p', { class: failed ? 'answer failed' : 'answer done', role: 'alert' }, told.fault ? faultOf(told) : sayAll(told.lines.says)),
      told.advice ? el('p', { class: 'advice' }, sayAll(told.lines.advice)) : null,
      el('div', { class: 'buttons' }, back, close));
    this.focus(close);
  }
}
