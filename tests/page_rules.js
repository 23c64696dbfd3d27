// What breaks the rules of page_rules.py in the view that is shown: a list of words, of which the first twelve are given.
const wrong = [];
const name = one => `${one.tagName.toLowerCase()}${one.id ? '#' + one.id : ''}.${one.getAttribute('class') || ''} `
  + `"${(one.textContent || '').trim().slice(0, 40)}"`;
const seen = one => one.checkVisibility({ visibilityProperty: true, opacityProperty: true }) && one.getClientRects().length
  && !one.closest('.unseen, .skip, noscript');

// contrast, by WCAG 2.2
const parts = text => (text.match(/[\d.]+/g) || []).map(Number);
const channel = value => value / 255 <= 0.04045 ? value / 255 / 12.92 : ((value / 255 + 0.055) / 1.055) ** 2.4;
const luminance = ([r, g, b]) => 0.2126 * channel(r) + 0.7152 * channel(g) + 0.0722 * channel(b);
function contrast(one, other) {
  const [most, least] = [luminance(one), luminance(other)].sort((a, b) => b - a);
  return (most + 0.05) / (least + 0.05);
}

// the colour behind an element
function behind(one) {
  for (let at = one; at; at = at.parentElement) {
    const colour = parts(getComputedStyle(at).backgroundColor);
    if (colour.length === 3 || colour[3] === 1) return colour;
    if (colour[3]) wrong.push(`${name(at)}: its ground is neither clear nor whole`);
  }
  return [255, 255, 255];
}

// all colours that may be behind words: also what rises in a night
function grounds(one) {
  const rising = one.parentElement ? [...one.parentElement.querySelectorAll(':scope > i')].filter(seen) : [];
  return [behind(one), ...rising.map(at => parts(getComputedStyle(at).backgroundColor)).filter(colour => colour.length === 3)];
}

// words
const walk = document.createTreeWalker(document.body, NodeFilter.SHOW_TEXT);
for (let node; (node = walk.nextNode());) {
  const one = node.parentElement, style = getComputedStyle(one), size = parseFloat(style.fontSize);
  if (!node.data.trim() || /^(SCRIPT|STYLE|TITLE|DESC|OPTION)$/i.test(one.tagName) || !seen(one)) continue;
  const least = size >= 24 || (size >= 18.66 && style.fontWeight >= 700) ? 3 : 4.5;
  const colour = parts(one instanceof SVGElement ? style.fill : style.color);
  for (const found of grounds(one).map(ground => contrast(colour, ground))) {
    if (found < least) wrong.push(`${name(one)}: its words have a contrast of ${found.toFixed(2)}`);
  }
  if (size < 11) wrong.push(`${name(one)}: its words are of ${style.fontSize}`);
}

// fields, and the lines of the path
for (const one of document.querySelectorAll('input:not([type=checkbox]), select')) if (seen(one)) {
  const style = getComputedStyle(one);
  if (contrast(parts(style.borderTopColor), behind(one.parentElement)) < 3) wrong.push(`${name(one)}: its border is faint`);
  if (contrast(parts(style.color), behind(one)) < 4.5) wrong.push(`${name(one)}: what is typed is faint`);
}
for (const one of document.querySelectorAll('.drawn path, .drawn circle')) {
  const style = getComputedStyle(one), picture = one.closest('svg');
  const colour = parts(style.stroke === 'none' ? style.fill : style.stroke);
  if (seen(picture) && !one.matches('.level') && contrast(colour, behind(picture.parentElement)) < 3) {
    wrong.push(`a line .${one.getAttribute('class')} of the path is faint`);
  }
}

// sizes
for (const one of document.querySelectorAll('button, input, select, a')) if (seen(one)) {
  const box = one.getBoundingClientRect(), tall = one.closest('label');
  const least = one.type === 'checkbox' ? Math.max(box.height, tall.getBoundingClientRect().height) : Math.min(box.width, box.height);
  if (least < 24) wrong.push(`${name(one)}: it is ${Math.round(box.width)} by ${Math.round(box.height)}`);
  if (!one.closest('.path, .grid') && (box.right > innerWidth + 1 || box.left < -1)) {
    wrong.push(`${name(one)}: it stands out of the window, at ${Math.round(box.left)} to ${Math.round(box.right)}`);
  }
}
const wide = document.documentElement.scrollWidth;
if (wide > innerWidth) wrong.push(`the page is ${wide} wide in a window of ${innerWidth}`);
for (const one of document.querySelectorAll('main, main section')) if (one.scrollWidth > one.clientWidth + 1) {
  wrong.push(`${name(one)}: it is ${one.scrollWidth} wide in a window of ${innerWidth}, and has ${one.clientWidth}`);
}

// the page as a whole
const ids = [...document.querySelectorAll('[id]')].map(one => one.id);
for (const id of new Set(ids)) if (ids.filter(one => one === id).length > 1) wrong.push(`the id ${id} is there more than once`);
const headings = [...document.querySelectorAll('h1, h2, h3, h4')].filter(one => one.checkVisibility());
const levels = headings.map(one => +one.tagName[1]);
if (levels.filter(level => level === 1).length !== 1) wrong.push('there is not one heading of the first level');
levels.forEach((level, n) => {
  if (n && level > levels[n - 1] + 1) wrong.push(`a heading of level ${level} follows one of ${levels[n - 1]}`);
});
if (document.documentElement.lang !== navigator.language.slice(0, 2)) wrong.push('the page has another language');
if (!/ – Desk$/.test(document.title)) wrong.push('the view has no title');
if (document.querySelector('[tabindex]:not([tabindex="0"]):not([tabindex="-1"])')) wrong.push('an order of the tabulator of its own');
return [...new Set(wrong)].slice(0, 12);
