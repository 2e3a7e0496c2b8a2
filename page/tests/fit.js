// fit(): nothing is wider than the screen, and every control is large enough for a finger (44 px, in rows 24).
const wrong = [];
const shown = node => node.checkVisibility() && !node.closest(".unseen, .skip, thead") && node.getBoundingClientRect().width > 0;
if (document.documentElement.scrollWidth > innerWidth) wrong.push(`the page is ${document.documentElement.scrollWidth} px wide on ${innerWidth}`);
for (const node of [...document.querySelectorAll("body *")].filter(shown)) {
  const { right, left, height, width } = node.getBoundingClientRect();
  const name = `${node.tagName.toLowerCase()} "${node.textContent.slice(0, 30)}"`;
  if (right > innerWidth + 0.5 || left < -0.5) wrong.push(`${name} goes from ${left} to ${right} on ${innerWidth}`);
  if (node.scrollWidth > node.clientWidth + 1 && getComputedStyle(node).overflowX === "auto") wrong.push(`${name} scrolls sideways`);
  if (!node.matches("button, .button, select, textarea, summary, input:not(.unseen)")) continue;
  const least = node.matches("summary, .choose") ? 24 : 44;
  if (height < least || width < 24) wrong.push(`${name} is ${width} by ${height} px`);
}
return { wrong: wrong.slice(0, 8) };
