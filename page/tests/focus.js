// focus(): from now on each stop of the focus is noted in `tabStops`, with whether a ring of 3 px is seen there. The ring of a file input is on its
// label.
globalThis.tabStops = [];
addEventListener("focusin", ({ target }) => {
  const seen = target.matches("input.unseen") ? target.nextElementSibling : target;
  const { outlineStyle, outlineWidth } = getComputedStyle(seen);
  const { width, height } = seen.getBoundingClientRect();
  const name = target.getAttribute("aria-label") || target.textContent.slice(0, 40) || target.id;
  tabStops.push({ name, ring: outlineStyle === "solid" && outlineWidth === "3px" && width > 8 && height > 8 });
});
