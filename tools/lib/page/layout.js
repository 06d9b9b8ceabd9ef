// Where each row is: which entries are shown, one below the other, with a gap where time jumps.
const data = JSON.parse(document.getElementById("data").textContent);
const count = data.rows.length;
const state = { node: "", connection: "", channel: "", copy: "", setUp: !data.setUp, chosen: null, chosenCopy: null, scale: 1 };
const layout = { items: [], heights: new Float64Array(count + 1), bottom: 0 };
const KINDS = ["node", "connection", "channel", "copy"];

function isFiltered() {
  return KINDS.some(kind => state[kind] !== "");
}

function isShown(number) {
  if (number < data.setUp && !state.setUp) return false;
  return KINDS.every((kind, place) => state[kind] === "" || data.tags[number][place].includes(state[kind]));
}

// Seconds without the noughts at their end; where there are few, nanoseconds. The digits may be more than a number holds.
function durationText(digits) {
  const nanoseconds = BigInt(digits), second = 1000000000n;
  if (nanoseconds > 0n && nanoseconds < 1000000n) return Number(nanoseconds).toLocaleString("en") + " ns";
  const rest = String(nanoseconds % second).padStart(9, "0").replace(/0+$/, "");
  return nanoseconds / second + (rest ? "." + rest : "") + " s";
}

function lay() {
  layout.items = [];
  let y = 4, moment = null;
  const place = (number, [shapes, height, at, words]) => {
    const item = { number, shapes, words, at: null, gap: null };
    if (at !== null && moment !== null && at !== moment) {
      item.gap = { y, words: durationText(BigInt(at) - BigInt(moment)) + " later" };
      y += data.jump[0];
    }
    if (at !== null && at !== moment) item.at = durationText(at);
    if (at !== null) moment = at;
    Object.assign(item, { top: y, y: y + data.row / 2, height, isTimed: at !== null });
    y += height;
    layout.items.push(item);
    return item.y;
  };
  if (data.fold && !state.setUp) place("fold", data.fold);
  for (let number = 0; number < count; number++) {
    layout.heights[number] = isShown(number) ? place(number, data.rows[number]) : y;
  }
  layout.heights[count] = data.foot[0] && !isFiltered() ? place("foot", data.foot) : y + data.row / 2;
  layout.bottom = y + data.row;
}

// The first item whose foot is below this height.
function itemAt(height) {
  let low = 0, high = layout.items.length;
  while (low < high) {
    const middle = (low + high) >> 1;
    if (layout.items[middle].top + layout.items[middle].height < height) low = middle + 1; else high = middle;
  }
  return low;
}
