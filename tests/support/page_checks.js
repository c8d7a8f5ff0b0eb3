// What is looked at of a whole page: the contrast of its texts, and the names of what can be used.

/** The lightness of a colour by WCAG 2. */
const light = ([red, green, blue]) => {
  const [r, g, b] = [red, green, blue].map((part) => part / 255)
    .map((part) => (part <= 0.03928 ? part / 12.92 : ((part + 0.055) / 1.055) ** 2.4));
  return 0.2126 * r + 0.7152 * g + 0.0722 * b;
};
const partsOf = (colour) => {
  const found = colour.match(/[\d.]+/g).map(Number);
  return found.length < 4 ? [...found, 1] : found;
};
const over = ([r, g, b, a], [r2, g2, b2]) => [r * a + r2 * (1 - a), g * a + g2 * (1 - a), b * a + b2 * (1 - a), 1];

/** What lies behind an element: the colours of all that it is in, one over the other. */
function behind(element) {
  const colours = [];
  for (let one = element; one; one = one.parentElement) {
    const hull = one.closest?.('svg') && one.parentElement?.querySelector(':scope > .hull');
    const colour = partsOf(hull ? getComputedStyle(hull).fill : getComputedStyle(one).backgroundColor);
    colours.push(colour);
    if (colour[3] === 1) break;
  }
  return colours.reduceRight((below, colour) => over(colour, below), [255, 255, 255, 1]);
}

const isSeen = (one) => one.checkVisibility({ visibilityProperty: true, opacityProperty: true })
  && one.getClientRects().length > 0 && one.closest('[aria-hidden=true], .skip, .spoken') === null;

/** The texts that stand out too little: each with what it says and how much it stands out. */
function pale() {
  const found = new Map();
  const texts = document.createTreeWalker(document.body, NodeFilter.SHOW_TEXT);
  while (texts.nextNode()) {
    const one = texts.currentNode.parentElement;
    const words = texts.currentNode.textContent.trim();
    if (!words || one.closest('svg, script, style, noscript, option, datalist') || !isSeen(one) || one.closest(':disabled')) continue;
    const style = getComputedStyle(one);
    const back = behind(one);
    const [high, low] = [light(over(partsOf(style.color), back)), light(back)].sort((a, b) => b - a);
    const ratio = (high + 0.05) / (low + 0.05);
    const size = parseFloat(style.fontSize);
    const least = size >= 24 || (size >= 18.66 && Number(style.fontWeight) >= 700) ? 3 : 4.5;
    if (ratio < least) found.set(`${one.className || one.tagName}: ${words.slice(0, 40)}`, ratio.toFixed(2));
  }
  return [...found].map((pair) => pair.join(' '));
}

/** What an element is called by those who hear the page. */
function nameOf(one) {
  const by = (one.getAttribute('aria-labelledby') ?? '').split(' ').map((id) => document.getElementById(id)?.textContent ?? '');
  const labels = [...(one.labels ?? [])].map((label) => label.textContent);
  const images = [...one.querySelectorAll('img[alt]')].map((image) => image.alt);
  return [by.join(' '), one.getAttribute('aria-label'), labels.join(' '), one.matches('input, select') ? '' : one.textContent,
    images.join(' '), one.title].find((name) => name?.trim()) ?? '';
}

/** What can be used, or is a part of the page that has to be called something, and is called nothing. */
function nameless() {
  const css = 'a[href], button, input, select, textarea, [tabindex="0"], [role=img], dialog[open], section, [role=tabpanel], img';
  return [...document.querySelectorAll(css)].filter((one) => isSeen(one) && !nameOf(one) && !one.hasAttribute('alt') && one.id !== 'panel')
    .map((one) => one.outerHTML.slice(0, 120));
}

/** Targets of a finger that are smaller than 24 pixels. */
function small() {
  return [...document.querySelectorAll('button, select, input, a[href]')].filter(isSeen)
    .map((one) => [one, one.getBoundingClientRect()])
    .filter(([one, box]) => (box.width < 24 || box.height < 24) && !one.closest('.skip'))
    .map(([one, box]) => `${one.outerHTML.slice(0, 80)} ${box.width.toFixed(0)}x${box.height.toFixed(0)}`);
}

/** Ids that stand twice. */
function twice() {
  const ids = [...document.querySelectorAll('[id]')].map((one) => one.id);
  return ids.filter((id, at) => ids.indexOf(id) !== at);
}

/** Tables of which a part is only seen once they are moved aside. */
const cut = () => [...document.querySelectorAll('.wide')].filter((one) => one.scrollWidth > one.clientWidth)
  .map((one) => one.textContent.slice(0, 60));

return { pale: pale(), nameless: nameless(), small: small(), twice: twice(), wide: document.documentElement.scrollWidth - window.innerWidth, cut: cut() };
