// policy(done): what the page may not do, tried from a timer, since the driver's own scripts stand above the policy. Nothing of it comes to pass.
const done = arguments[arguments.length - 1];
const wrong = [];
const thrown = (what, action) => {
  try {
    action();
    wrong.push(`${what} was allowed`);
  } catch (error) {
    if (!(error instanceof TypeError || error instanceof EvalError)) wrong.push(`${what}: ${error}`);
  }
};
globalThis.broken = () => wrong.push("an inline script ran");
setTimeout(async () => {
  thrown("innerHTML", () => { document.createElement("p")["inner" + "HTML"] = "<b>x</b>"; });
  thrown("eval", () => (0, eval)("1"));
  thrown("a script's text", () => { document.body.append(Object.assign(document.createElement("script"), { text: "broken()" })); });
  await fetch(document.URL).then(() => wrong.push("fetch was allowed"), () => {});
  const picture = document.createElement("img");
  const ended = new Promise(resolve => { picture.onload = () => resolve("loaded"); picture.onerror = () => resolve("stopped"); });
  picture.src = "data:image/gif;base64,R0lGODlhAQABAAAAACwAAAAAAQABAAA=";
  if (await ended !== "stopped") wrong.push("a picture was loaded");
  setTimeout(() => done({ wrong }), 100);
}, 0);
