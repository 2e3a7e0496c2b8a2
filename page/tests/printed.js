// printed(): on paper stand the line, the places and the checksums, and no control; all black on white.
const wrong = [];
const seen = node => Boolean(node) && node.checkVisibility({ contentVisibilityAuto: true }) && node.getClientRects().length > 0;
const rows = [...document.querySelectorAll(".step")].filter(row => !row.closest("details.case:not([open])"));
if (!seen(document.querySelector("#told .line"))) wrong.push("the line is missing");
if (rows.length === 0 || !rows.every(row => seen(row.querySelector(".printed")))) wrong.push("places are missing");
const sum = document.querySelector("#checksums code");
if (!seen(sum) || !/^([0-9a-f]{8} ){7}[0-9a-f]{8}$/.test(sum.textContent)) wrong.push("the checksums are missing");
for (const node of document.querySelectorAll("button, input, select, textarea, .button, .skip")) if (seen(node)) wrong.push(`${node.id || node.textContent} is printed`);
if (!/^\d+ cases? (is|are) folded and not printed\.$/.test(document.querySelector("#folded").textContent)) wrong.push("what is folded is not told");
for (const node of document.querySelectorAll("#told p, .step p, td")) {
  if (getComputedStyle(node).color !== "rgb(0, 0, 0)") wrong.push(`"${node.textContent.slice(0, 30)}" is not black`);
}
return { wrong: wrong.slice(0, 8) };
