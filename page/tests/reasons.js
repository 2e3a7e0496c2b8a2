// reasons(asked): at every step of every stored case, what the page says is so. A rule said to be on is on and has the head it is said to
// have; "all rules with that head" are all of them; and a step holds if and only if nothing is said against it.
const [asked] = arguments;
const bytesOf = word => (word === "-" ? new Uint8Array(0) : page.bytesOfText(word).bytes);
const wrong = [], seen = new Set();
let steps = 0;

// Every claim, checked here from the rules and the colours alone.
function truths(book, colours, step) {
  const rules = book.rules;
  const on = q => page.isOn(colours, q) === 1, off = q => page.isOff(colours, q) === 1;
  const heads = (a, list) => rules.every((rule, q) => (rule.head === a) === list.includes(q));
  const own = rules[step.rules[0]];
  const spent = q => off(q) || step.rules.includes(q);
  return {
    "no condition": () => own.positives.length + own.negatives.length === 0,
    "head of on": g => own.positives.includes(g.atom) && on(g.rule) && rules[g.rule].head === g.atom,
    "all off": g => own.negatives.includes(g.atom) && heads(g.atom, g.rules) && g.rules.every(off),
    "none on": g => own.positives.includes(g.atom) && heads(g.atom, g.rules) && !g.rules.some(on),
    "not off": g => own.negatives.includes(g.atom) && rules[g.rule].head === g.atom && !off(g.rule),
    "blocked": g => own.negatives.includes(g.atom) && on(g.rule) && rules[g.rule].head === g.atom,
    "not blocked": () => own.negatives.length > 0 && !rules.some((rule, q) => on(q) && own.negatives.includes(rule.head)),
    "no negative": () => own.negatives.length === 0,
    "unfounded": g => rules[g.of].positives.includes(g.atom) && heads(g.atom, g.rules) && g.rules.every(spent),
    "no positive": g => rules[g.of].positives.length === 0,
    "founded": g => rules[g.of].positives.length === g.by.length && g.by.every(({ atom, rule }) => rules[rule].head === atom && !spent(rule)),
    "in neither": g => g.rule === step.rules[0] && !on(g.rule) && !off(g.rule),
    "coloured": g => g.rule === step.rules[0] && on(g.rule) === (g.side !== "off") && off(g.rule) === (g.side !== "on"),
    "clash": g => on(g.rule) && off(g.rule),
    "claimed on": g => on(g.rule) && rules[g.rule].head === g.atom,
    "claimed off": g => heads(g.atom, g.rules) && g.rules.every(off),
    "claimed not on": g => !rules.some((rule, q) => on(q) && (off(q) || rule.head === g.atom)),
    "no clash": () => !rules.some((rule, q) => on(q) && off(q)),
    "claimed not off": g => rules[g.rule].head === g.atom && !off(g.rule) && !rules.some((rule, q) => on(q) && off(q)),
  };
}

// How many grounds a step has to give.
function due(book, step) {
  const own = book.rules[step.rules[0]];
  if (step.code === 0x41) return Math.max(1, own.positives.length + own.negatives.length);
  return step.code === 0x55 ? step.rules.length : 1;
}

function look(command, { book, claim, steps: made, kept, told }) {
  made.forEach((step, i) => {
    steps++;
    const colours = kept.before(i);
    const { holds, grounds } = page.condition(book, claim, step, colours);
    const truth = truths(book, colours, step);
    const fails = told.number === 25 && i === made.length - 1;
    const said = page.reasons(grounds, colours).map(parts => page.textOf(parts));
    grounds.forEach(ground => seen.add(ground.is));
    const good = grounds.length === due(book, step) && grounds.every(ground => truth[ground.is](ground)) && holds === !fails
      && said.length > 0 && said.every(text => !/undefined|NaN|object/.test(text));
    if (!good && wrong.length < 20) wrong.push(`${command.slice(0, 120)}: step at byte ${step.at}: ${said.join("; ")}`);
  });
}

for (const command of asked.split("\n")) {
  const words = /^check ([0-9a-fA-F]+|-) ([0-9a-fA-F]+|-)$/.exec(command);
  if (!words || words[1].length % 2 + words[2].length % 2 > 0) continue;
  const found = page.check(bytesOf(words[1]), bytesOf(words[2]));
  if (found.steps) look(command, found);
}
return { wrong, seen: [...seen], note: `at ${steps} steps every reason given is so` };
