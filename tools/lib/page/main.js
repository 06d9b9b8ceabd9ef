// Ties the page together: what is done where somebody clicks, types, turns the wheel, or comes by an address.
function onPicture(event) {
  const copy = event.target.closest("[data-copy]"), row = event.target.closest("[data-n]");
  if (copy) tellCopy(copy.dataset.copy);
  else if (row && row.dataset.n === "fold") change({ setUp: true });
  else if (row && row.dataset.n !== "foot") choose(Number(row.dataset.n));
}

function onDetail(event) {
  const link = event.target.closest("a");
  if (!link) return;
  if (link.dataset.to) choose(Number(link.dataset.to));
  else if (link.dataset.toCopy) tellCopy(link.dataset.toCopy);
  else change({ [link.dataset.kind]: link.dataset.name });
}

function onWheel(event) {
  if (!event.ctrlKey) return;
  event.preventDefault();
  zoom(event.deltaY < 0 ? 1.15 : 1 / 1.15);
}

function showLegend() {
  const [shapes, width, height] = data.legend, box = document.getElementById("legend");
  box.setAttribute("viewBox", `0 0 ${width} ${height}`);
  box.style.cssText = `width:${width}px;height:${height}px`;
  box.innerHTML = shapes;
}

function open() {
  readState();
  change({});
  if (state.chosen !== null) choose(state.chosen);
  else if (state.copy in data.copies) tellCopy(state.copy);
  else detail.innerHTML = "<p>A click on a row shows its line, and what it took, put and ended; a click on a copy its way.</p>";
}

rows.addEventListener("click", onPicture);
words.addEventListener("click", onPicture);
detail.addEventListener("click", onDetail);
view.addEventListener("scroll", () => requestAnimationFrame(() => draw(false)));
view.addEventListener("wheel", onWheel, { passive: false });
window.addEventListener("resize", () => draw(true));
KINDS.forEach(kind => field(kind).addEventListener("change", event => change({ [kind]: event.target.value.replace(/[[\] ]/g, "") })));
document.getElementById("set-up").addEventListener("change", event => change({ setUp: event.target.checked }));
document.getElementById("clear").addEventListener("click", clearFilter);
document.getElementById("smaller").addEventListener("click", () => zoom(1 / 1.25));
document.getElementById("larger").addEventListener("click", () => zoom(1.25));
document.getElementById("to-entry").addEventListener("change", event => {
  const number = Number(event.target.value);
  if (Number.isInteger(number) && number >= 0 && number < count) choose(number);
});
window.addEventListener("hashchange", open);
showLegend();
fillChoices();
open();
