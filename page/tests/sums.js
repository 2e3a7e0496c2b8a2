// sums(files, sums): the checksum of each file, in hexadecimal, is what sha256sum printed of it.
const [files, sums] = arguments;
const wrong = [];
const lines = sums.trim().split("\n").map(line => line.split(/  .*\//));
for (const [due, name] of lines) {
  const came = page.sha256(files[name] === "" ? new Uint8Array(0) : page.bytesOfText(files[name]).bytes);
  if (came !== due) wrong.push(`${name}: ${due} is due, ${came} came`);
}
return { wrong, note: `${lines.length} checksums are those of sha256sum` };
