// What is shown: by node, connection, channel and copy, with or without the set-up, and how large.
const SMALLEST = 0.1, LARGEST = 4;

function field(kind) {
  return document.getElementById("by-" + kind);
}

function fillChoices() {
  KINDS.slice(0, 3).forEach((kind, place) => {
    const found = [...new Set(data.tags.flatMap(tags => tags[place]))].sort((one, other) => BigInt(one) < BigInt(other) ? -1 : 1);
    field(kind).replaceChildren(...["", ...found].map(name => new Option(name === "" ? "any" : name, name)));
  });
  document.getElementById("for-set-up").hidden = !data.setUp;
}

// Brings what the fields say in line with the state, and the address of the page too, so that it can be handed on.
function tellState() {
  KINDS.forEach(kind => { field(kind).value = state[kind]; });
  document.getElementById("set-up").checked = state.setUp;
  const said = new URLSearchParams();
  KINDS.forEach(kind => { if (state[kind] !== "") said.set(kind, state[kind]); });
  if (state.setUp && data.setUp) said.set("set-up", "1");
  if (state.chosen !== null) said.set("entry", state.chosen);
  history.replaceState(null, "", "#" + said);
}

function readState() {
  const said = new URLSearchParams(location.hash.slice(1)), entry = Number(said.get("entry"));
  KINDS.forEach(kind => { state[kind] = said.get(kind) || ""; });
  state.setUp = !data.setUp || said.has("set-up");
  state.chosen = said.has("entry") && Number.isInteger(entry) && entry >= 0 && entry < count ? entry : null;
  if (state.chosen !== null && state.chosen < data.setUp) state.setUp = true;
}

function change(what) {
  Object.assign(state, what);
  tellState();
  drawAll();
  const first = layout.items.find(item => typeof item.number === "number");
  if (state.chosen !== null && isShown(state.chosen)) reveal(state.chosen);
  else if (isFiltered() && first) reveal(first.number);
}

function clearFilter() {
  change({ node: "", connection: "", channel: "", copy: "" });
}

// What is in the middle of the view stays there.
function zoom(factor) {
  const old = state.scale, middle = view.clientHeight / 2;
  state.scale = Math.min(LARGEST, Math.max(SMALLEST, old * factor));
  const at = (view.scrollTop + middle) / old;
  drawAll();
  view.scrollTop = at * state.scale - middle;
  draw(true);
}
