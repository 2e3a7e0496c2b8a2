// examples(files): the files of examples/, as { name: text }, books and papers in hexadecimal. The examples in the page are those files; each
// paper has the steps that its .steps say, and is accepted; each rule reads as in its .words, with names and without, but for a book that was
// made of a grounder's .text and has no words.
const [files] = arguments;
const wrong = [];
const same = (what, due, came) => { if (due !== came) wrong.push(`${what}: "${String(due).slice(0, 200)}" is due, "${String(came).slice(0, 200)}" came`); };
const bytesOf = name => page.bytesOfText(files[name]).bytes;
const lines = text => text.split("\n").filter(line => line !== "" && !line.startsWith("#") && !line.startsWith("atoms:"));
// A paper about an atom has the book's name and a word more, one that there is no reading the book's name alone.
const bookOf = paper => [paper.replace(/\.paper$/, ".book"), paper.replace(/-[^-]*$/, ".book")].find(name => files[name] !== undefined);

for (const [name, text] of Object.entries(page.FILES)) {
  const due = files[name];
  same(`the example ${name} of the page`, due, due === undefined || name.endsWith(".names") ? text : text.replace(/\s/g, ""));
}

// As .steps has them: what is indented under a split holds with its rule on.
function stepLines({ steps, branches, witness, claim }) {
  const indents = [];
  for (const branch of branches) indents.push(branch.number === 0 ? 0 : indents[branch.parent] + (branch.side === "on" ? 1 : 0));
  const words = { 0x41: "on", 0x42: "off", 0x55: "unfounded", 0x53: "split", 0x45: "end" };
  const told = steps.map(step => "    ".repeat(indents[step.branch]) + [words[step.code], ...step.rules].join(" "));
  const last = claim.kind.bare ? "none" : `${claim.kind.word === "certain" ? "claim" : "clear"} ${claim.atom}`;
  const listed = witness ? witness.rows.map(row => row.rule) : [];
  return [...told, ["witness", ...listed].join(" "), last];
}

// The parts of a body are a set; a book has them in the order of their numbers.
function sortedRule(line) {
  const [head, body] = line.split(" if ");
  return body === undefined ? head : `${head} if ${body.split(" and ").sort().join(" and ")}`;
}

let papers = 0, rules = 0;
for (const name of Object.keys(files).filter(name => name.endsWith(".paper"))) {
  papers++;
  const found = page.check(bytesOf(bookOf(name)), bytesOf(name));
  const due = lines(files[name.replace(".paper", ".steps")]);
  same(name, due.join("\n"), found.told.word === "refused" ? page.tell(found.told) : stepLines(found).join("\n"));
  same(`${name}, told`, due[due.length - 1].replace("claim", "certain"), page.answer(found.told));
}
const isImported = name => files[name.replace(".book", ".text")] !== undefined;
for (const name of Object.keys(files).filter(name => name.endsWith(".book") && !isImported(name))) {
  const book = page.readBook(bytesOf(name));
  const { names } = page.readNames(new TextEncoder().encode(files[name.replace(".book", ".names")]), book.A);
  const words = lines(files[name.replace(".book", ".words")]);
  same(`${name}, rules`, words.length, book.R);
  book.rules.forEach((rule, r) => {
    rules++;
    const named = page.textOf(page.ruleWords(rule), a => names[a]);
    const numbered = page.textOf(page.ruleWords(rule), a => `<${a}>`).replace(/<(\d+)>/g, (_, a) => names[a]);
    same(`${name}, rule ${r}`, sortedRule(words[r]), sortedRule(named));
    same(`${name}, rule ${r}, by numbers`, named, numbered);
  });
}
return { wrong, note: `${papers} papers and ${rules} rules of examples/ read as their words, and the page's examples are those files` };
