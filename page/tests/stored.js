// stored(asked, answered): every stored case. Of a `check` line the answer is compared; of the commands that end in a book, whether it is read
// or refused, and where.
const [asked, answered] = arguments;
const bytesOf = word => (word === "-" ? new Uint8Array(0) : page.bytesOfText(word).bytes);
const commands = asked.split("\n"), answers = answered.split("\n");
const wrong = [], seen = new Set();
let checks = 0, books = 0;

function compare(command, came, due) {
  seen.add(came.replace(/^(refused \d+|certain|clear) .*/, "$1"));
  if (came !== due) wrong.push(`${command.slice(0, 120)}: ${due} is due, ${came} came`);
}

commands.forEach((command, i) => {
  const words = command.split(" ");
  if (answers[i] === undefined || answers[i] === "" || answers[i] === "bad line") return;
  if (words[0] === "check") {
    checks++;
    compare(command, page.answer(page.check(bytesOf(words[1]), bytesOf(words[2])).told), answers[i]);
  } else if (["find", "name", "clear", "contradict", "readings"].includes(words[0])) {
    books++;
    const { refusal } = page.readBook(bytesOf(words[words.length - 1]));
    const [due] = /^refused [1-7] \d+/.exec(answers[i]) || ["read"];
    compare(command, refusal ? page.answer(refusal) : "read", due);
  }
});
return { wrong, seen: [...seen], note: `${checks} papers and ${books} books are answered as stored` };
