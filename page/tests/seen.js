// seen(line): waits up to 20 seconds until the answer is this line, then tells what the page shows, one `key: value` a line.
const [due, done] = arguments;
const one = selector => document.querySelector(selector);
const text = selector => one(selector)?.textContent ?? "";
const line = () => one("#told .line")?.textContent ?? text("#told");
const labels = selector => [...document.querySelectorAll(selector)].map(node => node.getAttribute("aria-label")).join(", ");
const texts = selector => [...document.querySelectorAll(selector)].map(node => node.textContent).join(", ");

function tell() {
  const shown = {
    line: line(), head: text("#told .head"), means: text("#told .means"), names: document.querySelectorAll("#told bdi").length,
    place: labels(".bytes .place"), also: labels(".bytes .also"), notes: texts(".bytes .note"),
    lists: text("#lists-title"), chosen: text("[aria-pressed=true]"), cases: document.querySelectorAll("details.case[open]").length,
    steps: text("#steps-count"), told: text("#steps-message"), aside: texts("#steps .aside"), reading: text("#witness > p"),
    dropped: text("#dropped"), focus: document.activeElement.id, elements: document.querySelectorAll("*").length,
    pictures: document.querySelectorAll("img, svg, iframe, object").length,
  };
  for (const kind of ["book", "paper", "names"]) {
    shown[`${kind} told`] = text(`#${kind}-told`);
    shown[`${kind} message`] = text(`#${kind}-message`);
  }
  done(Object.entries(shown).map(([key, value]) => `${key}: ${value}`).join("\n"));
}

const until = Date.now() + 20000;
(function look() {
  if (line() === due || Date.now() > until) tell();
  else setTimeout(look, 10);
})();
