// contrast(): all text has 4.5 to 1 against what it stands on, frames of controls and of the answer 3 to 1.
const wrong = new Set();
const channels = colour => colour.match(/[\d.]+/g).map(Number);
const light = value => (value / 255 <= 0.03928 ? value / 255 / 12.92 : ((value / 255 + 0.055) / 1.055) ** 2.4);
const luminance = ([r, g, b]) => 0.2126 * light(r) + 0.7152 * light(g) + 0.0722 * light(b);
function ratio(one, other) {
  const [low, high] = [luminance(one), luminance(other)].sort((x, y) => x - y);
  return (high + 0.05) / (low + 0.05);
}
function ground(node) {
  for (let at = node; at; at = at.parentElement) {
    const colour = channels(getComputedStyle(at).backgroundColor);
    if (colour.length === 3 || colour[3] === 1) return colour;
  }
  return [255, 255, 255];
}
const name = node => `${node.tagName.toLowerCase()}.${node.className} "${node.textContent.trim().slice(0, 30)}"`;
const walker = document.createTreeWalker(document.body, NodeFilter.SHOW_TEXT);
let texts = 0;
for (let text = walker.nextNode(); text; text = walker.nextNode()) {
  const node = text.parentElement;
  if (text.data.trim() === "" || !node.checkVisibility() || node.closest("script, noscript, .unseen, .skip")) continue;
  texts++;
  const found = ratio(channels(getComputedStyle(node).color), ground(node));
  if (found < 4.5) wrong.add(`${name(node)}: ${found.toFixed(2)}`);
}
for (const node of document.querySelectorAll("button, .button, select, textarea, input:not(.unseen), #answer, .place")) {
  if (!node.checkVisibility()) continue;
  const found = ratio(channels(getComputedStyle(node).borderTopColor), ground(node.parentElement));
  if (found < 3) wrong.add(`the frame of ${name(node)}: ${found.toFixed(2)}`);
}
if (texts < 20) wrong.add("hardly any text was found");
return { wrong: [...wrong].slice(0, 8) };
