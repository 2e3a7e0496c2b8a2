// manual(pages): the pages of docs/manual, by name, for a book or a paper that is refused. On each example the page tells the line that people are told,
// and what next.
const wrong = [];
const pages = Object.entries(arguments[0]);
for (const [name, text] of pages) {
  const [, ...words] = /^    (check|readings) (\S+)(?: (\S+))?$/m.exec(text) || [];
  const [line] = /^    refused \d+ at \d+: .*$/m.exec(text) || [];
  const [, next] = /\*\*What next\.\*\* (.*)$/m.exec(text) || [];
  const [book, paper] = words.slice(1).map(word => (word && word !== "-" ? page.bytesOfText(word).bytes : new Uint8Array(0)));
  const { told } = page.check(book, paper);
  const came = [page.tell(told), page.whatNext(told)], due = [line.trim(), next];
  due.forEach((sentence, i) => {
    if (came[i] !== sentence) wrong.push(`${name}: "${sentence}" is due, "${came[i]}" came`);
  });
}
return { wrong, note: `the page says what ${pages.length} pages of the manual say` };
