// lists(document, files): the tables of docs/PAPER.md. Each belongs to the paper that was printed before it, and the lists after each step are
// the page's.
const [text, files] = arguments;
const wrong = [];
const bytesOf = name => page.bytesOfText(files[name]).bytes;
const numbers = cell => cell.split(" ").filter(word => word !== "").map(Number).sort((r, q) => r - q).join(" ");
let paper, rows = [], tables = 0, compared = 0;

function compare() {
  if (rows.length === 0) return;
  tables++;
  const { book, steps, kept } = page.check(bytesOf(paper.replace(/-[^-]*$/, "") + ".book"), bytesOf(`${paper}.paper`));
  if (steps.length !== rows.length) wrong.push(`${paper}: ${rows.length} rows, ${steps.length} steps`);
  rows.forEach(([at, step, on, off], i) => {
    compared++;
    const after = page.made(steps[i], kept.before(i));
    const rules = book.rules.map((_, r) => r);
    const came = [steps[i].at, page.hexadecimal(bytesOf(`${paper}.paper`).subarray(steps[i].at, steps[i].end)),
      numbers(rules.filter(r => page.isOn(after, r)).join(" ")), numbers(rules.filter(r => page.isOff(after, r)).join(" "))].join(" | ");
    const due = [at, step, numbers(on), numbers(off)].join(" | ");
    if (came !== due) wrong.push(`${paper}: ${due} is due, ${came} came`);
  });
  rows = [];
}

for (const line of text.split("\n")) {
  const printed = /^ {4,}\$ od .* examples\/(\S+)\.paper$/.exec(line);
  const row = /^\| (\d+) \| ([0-9a-f ]+) \|([\d ]*)\|([\d ]*)\|/.exec(line);
  if (row) rows.push(row.slice(1));
  else compare();
  if (printed) paper = printed[1];
}
compare();
if (tables < 2) wrong.push("hardly any table was found");
return { wrong, note: `the lists at ${compared} steps are those of docs/PAPER.md` };
