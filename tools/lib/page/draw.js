// The picture: the rows that are in sight, and what goes across them. The shapes of a row are those of the picture in SVG.
const view = document.getElementById("view"), rows = document.getElementById("rows"), words = document.getElementById("words");
let drawn = null;

function plain(words) {
  return String(words).replace(/[&<>"]/g, mark => "&#" + mark.charCodeAt(0) + ";");
}

function line(x1, y1, x2, y2, colour, width, dash) {
  const dashes = dash ? ` stroke-dasharray="${dash}"` : "";
  return `<line x1="${x1}" y1="${y1}" x2="${x2}" y2="${y2}" stroke="${colour}" stroke-width="${width}"${dashes}/>`;
}

function arrow(x1, y1, x2, y2, colour, dash) {
  const length = Math.max(1, Math.hypot(x2 - x1, y2 - y1)), ux = (x2 - x1) / length, uy = (y2 - y1) / length;
  const points = [[x2, y2], [x2 - 9 * ux - 4 * uy, y2 - 9 * uy + 4 * ux], [x2 - 9 * ux + 4 * uy, y2 - 9 * uy - 4 * ux]];
  return line(x1, y1, x2, y2, colour, 1.8, dash) + `<polygon points="${points.join(" ")}" fill="${colour}"/>`;
}

function moved(y, shapes) {
  return `<g transform="translate(0,${y})">${shapes}</g>`;
}

// What a click and the pointer meet where nothing else is.
function plate(item, width) {
  const chosen = item.number === state.chosen ? ' class="chosen"' : "";
  return `<rect data-n="${item.number}"${chosen} x="0" y="${item.top}" width="${width}" height="${item.height}"/>`;
}

function groundOf(item) {
  const band = item.gap ? moved(item.gap.y, data.jump[1]) : "";
  return band + plate(item, data.width) + line(data.left, item.y, data.width - 10, item.y, "#f0f0f0", 1);
}

function row(item, shapes) {
  const title = item.number === "fold" ? "A click opens the set-up." : data.lines[item.number] || "";
  return `<g data-n="${item.number}" transform="translate(0,${item.y})"><title>${plain(title)}</title>${shapes}</g>`;
}

// The margin, which stays where the picture is moved sideways: the line of time, the moments and the words of the rows.
function marginOf(item) {
  const gap = item.gap ? moved(item.gap.y, data.jump[1] + data.jump[2].replace(data.mark, item.gap.words)) : "";
  const moment = item.at ? `<text x="${data.axis - 8}" y="4" class="moment" text-anchor="end">${item.at}</text>` : "";
  const axis = item.isTimed ? line(data.axis, item.top, data.axis, item.top + item.height, "#8a93a0", 1.2) : "";
  const tick = item.isTimed ? line(data.axis - 3, 0, data.axis + 3, 0, "#8a93a0", 1) : "";
  return gap + plate(item, data.left) + axis + row(item, tick + moment + item.words);
}

function legOf([kind, x1, first, x2, last], colour, top, bottom) {
  const y1 = layout.heights[first], y2 = layout.heights[last];
  if (y2 < top || y1 > bottom) return "";
  return kind === "stand" ? line(x1, y1, x2, y2, colour, 2.6) : arrow(x1, y1, x2, y2, colour, kind === "lost" ? "4,3" : "");
}

function isWayShown([name, , legs]) {
  if (state.copy !== "" && state.copy !== name) return false;
  return !isFiltered() || legs.some(([, , first, , last]) => isShown(first) || (last < count && isShown(last)));
}

function waysBetween(top, bottom) {
  return data.ways.filter(isWayShown).map(([name, colour, legs, title]) => {
    const shapes = legs.map(leg => legOf(leg, colour, top, bottom)).join("");
    return shapes && `<g data-copy="${name}"><title>${plain(title)}</title>${shapes}</g>`;
  }).join("");
}

// Draws what is in sight and as much above and below, so that a short way can be scrolled before it is drawn again.
function draw(isForced) {
  const height = view.clientHeight / state.scale, at = view.scrollTop / state.scale;
  const isAbove = drawn && (drawn.top === 0 || at >= drawn.top + height / 4);
  const isBelow = drawn && (drawn.isLast || at + height * 1.25 <= drawn.bottom);
  if (!isForced && isAbove && isBelow) return;
  const top = Math.max(0, at - height), bottom = Math.min(layout.bottom, at + 2 * height);
  drawn = { top, bottom, isLast: bottom === layout.bottom };
  const seen = [];
  for (let place = itemAt(top); place < layout.items.length && layout.items[place].top < bottom; place++) seen.push(layout.items[place]);
  const nodes = Object.values(data.nodes).map(x => line(x, top, x, Math.max(top, bottom - 8), "#888", 1.2)).join("");
  show(rows, data.width, seen.map(groundOf).join("") + nodes + waysBetween(top, bottom) + seen.map(item => row(item, item.shapes)).join(""));
  show(words, data.left, seen.map(marginOf).join(""));
}

// Fills a picture with what is between the two heights that are drawn.
function show(picture, width, shapes) {
  const { top, bottom } = drawn, scale = state.scale;
  picture.setAttribute("viewBox", `0 ${top} ${width} ${bottom - top}`);
  picture.style.cssText = `top:${top * scale}px;width:${width * scale}px;height:${(bottom - top) * scale}px`;
  picture.innerHTML = shapes;
}

function drawAll() {
  lay();
  const heads = document.getElementById("heads"), space = document.getElementById("space");
  const [names, height] = data.head;
  heads.setAttribute("viewBox", `0 0 ${data.width} ${height - 14}`);
  heads.style.cssText = `width:${data.width * state.scale}px;height:${(height - 14) * state.scale}px`;
  heads.innerHTML = `<g transform="translate(0,18)">${names}</g>`;
  document.getElementById("margin").style.width = data.left * state.scale + "px";
  space.style.cssText = `width:${data.width * state.scale}px;height:${layout.bottom * state.scale}px`;
  document.getElementById("scale").textContent = Math.round(state.scale * 100) + " %";
  const shown = layout.items.filter(item => typeof item.number === "number").length;
  document.getElementById("count").textContent = `${shown.toLocaleString("en")} of ${count.toLocaleString("en")} entries`;
  draw(true);
}

// Brings an entry into the middle of what is in sight, if it is not there already, and its nodes beside the margin.
function reveal(number) {
  const y = layout.heights[number] * state.scale, margin = data.left * state.scale;
  if (y < view.scrollTop + 60 || y > view.scrollTop + view.clientHeight - 60) view.scrollTop = y - view.clientHeight / 2;
  const places = data.tags[number][0].map(node => data.nodes[node] * state.scale).filter(Number.isFinite);
  const from = Math.min(...places) - 90 * state.scale, to = Math.max(...places) + 200 * state.scale;
  if (places.length && (from < view.scrollLeft + margin || to > view.scrollLeft + view.clientWidth)) view.scrollLeft = from - margin;
  draw(true);
}
