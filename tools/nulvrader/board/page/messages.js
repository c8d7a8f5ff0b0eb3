// The texts of the page in the language of the browser: the table of the board, messages.json.

const LANGUAGES = ['en', 'de'];
const JOINED = { said: ' ', list: ', ', parts: ': ' }; // what stands between sentences
const VALUE = /\{(\w+)(?:\|(\w+)(?::(\w+))?)?\}/g;

const table = await (await fetch('messages.json')).json();

/** The language: the first of the browser's that the table has, else English. */
export const language = navigator.languages.map((name) => name.slice(0, 2)).find((name) => LANGUAGES.includes(name)) ?? 'en';
const column = LANGUAGES.indexOf(language);

/** Whether the table has a text of this name. */
export const has = (name) => Object.hasOwn(table, name);

/** The text of this name with these values, as `messages.py` of the board says it. */
export function say(name, values = {}) {
  if (!has(name)) return name;
  return table[name][column].replace(VALUE, (whole, member, how, of) => {
    if (how === 'text') return say(`${of}.${values[member]}`, values);
    const says = JOINED[how] ? values[of ?? 'says'] : null;
    if (says?.length) return sayAll(says, JOINED[how]);
    return valueOf(values[member] ?? '', how, of);
  });
}

/** Sentences that the board tells, each with the name of its row and its values. */
export const sayAll = (says, between = ' ') => says.map(([name, values]) => say(name, values)).join(between);

/** Why the board has not done what it was asked for. */
export const faultOf = (told) => (told.says ? sayAll(told.says) : told.fault ?? '');

function valueOf(value, how, of) {
  if (how === 'place' || how === 'spot' || how === 'thing') return place(String(value), how);
  if (how === 'many') return say(`many.${of}.${Number(value) === 1 ? '1' : 'n'}`, { count: number(value) });
  if (how === 'name' && has(`${of}.${value}`)) return say(`${of}.${value}`);
  return Array.isArray(value) ? value.join(', ') : String(value);
}

/** A number as the language writes it. */
export const number = (value) => Number(value).toLocaleString(language);

/** A place as it stands in a sentence. */
export function place(value, front = 'place') {
  const at = value.indexOf(' ');
  return say(`${front}.${at < 0 ? value : value.slice(0, at)}`, { name: at < 0 ? '' : value.slice(at + 1) });
}

/** Has the texts of the page itself in the language: those of elements with `data-say`, `data-label` or `data-title`. */
export function translate(root) {
  document.documentElement.lang = language;
  for (const node of root.querySelectorAll('[data-say]')) node.textContent = say(node.dataset.say);
  for (const node of root.querySelectorAll('[data-label]')) node.setAttribute('aria-label', say(node.dataset.label));
  for (const node of root.querySelectorAll('[data-title]')) node.setAttribute('title', say(node.dataset.title));
}
