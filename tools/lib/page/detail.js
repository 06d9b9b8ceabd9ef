// What is beside the picture: the line of an entry or of a copy, with links to what it took, put and ended.
const detail = document.getElementById("detail");
let goneAt = null;

// Numbers beyond what a browser counts keep their digits, between two marks, until they are written.
function read(text) {
  try {
    return JSON.parse(text.replace(/([[:,])(\d{16,})(?=[,\]}])/g, '$1"#$2#"'));
  } catch {
    return JSON.parse(text);
  }
}

function write(value) {
  return JSON.stringify(value).replace(/"#(\d+)#"/g, "$1");
}

// For each item that was taken or ended by which entry it was, once it is asked for.
function whereGone(name) {
  if (goneAt === null) {
    goneAt = new Map();
    data.lines.forEach((text, number) => {
      const said = read(text);
      said.take.forEach(one => goneAt.set(one.join(), ["taken", number]));
      said.end.forEach(one => { if (one[0] === "item") goneAt.set(one.slice(1, 3).join(), ["ended", number]); });
    });
  }
  return goneAt.get(name);
}

function toEntry(number) {
  return `<a data-to="${number}">entry ${number}</a>`;
}

function toCopy(name) {
  return `<a data-to-copy="${plain(name)}">copy [${plain(name)}]</a>`;
}

function item(name) {
  const [queue, value] = read(data.lines[name[0]]).put[name[1]];
  return `<code>${plain(queue)}</code> <code>${plain(write(value))}</code>`;
}

function part(title, found) {
  return `<h3>${title}</h3>` + (found.length ? `<ul>${found.map(one => `<li>${one}</li>`).join("")}</ul>` : "nothing");
}

function putText(number, place) {
  const gone = whereGone([number, place].join());
  return `${item([number, place])}: ${gone ? `${gone[0]} by ${toEntry(gone[1])}` : "it stays there"}`;
}

function endText(end) {
  if (end[0] === "item") return `${item(end.slice(1, 3))}, put by ${toEntry(end[1])}`;
  return `${toCopy(end.slice(1, 3).join())}: ${plain(end[3])}`;
}

function tagText(number) {
  const links = KINDS.slice(0, 3).map((kind, place) => data.tags[number][place].map(name => toOnly(kind, name)));
  return links.flat().join(", ");
}

function toOnly(kind, name) {
  return `<a data-kind="${kind}" data-name="${plain(name)}">${kind} ${plain(name)}</a>`;
}

function carries(value, name) {
  if (value === null || typeof value !== "object") return false;
  if (Array.isArray(value.copy)) return value.copy.join() === name;
  return Boolean(value.content) && name.startsWith(value.content.send + ",");
}

// What an entry did with a copy: into which queue it went there, how it ended, or that it was only taken.
function stepText(number, name) {
  const said = read(data.lines[number]);
  const into = said.put.filter(([, value]) => carries(value, name)).map(([queue]) => `into <code>${plain(queue)}</code>`);
  const ended = said.end.filter(end => end[0] === "copy" && end.slice(1, 3).join() === name).map(end => plain(end[3]));
  return `${toEntry(number)}: ${[...into, ...ended].join(", ") || plain(write(said.reply))}`;
}

function tellEntry(number) {
  const said = read(data.lines[number]), at = data.rows[number][2];
  const before = number > 0 ? toEntry(number - 1) : "", after = number + 1 < count ? toEntry(number + 1) : "";
  detail.innerHTML = `<h2>Entry ${number}</h2><div>${[before, after].filter(Boolean).join(" · ")}</div>`
    + (at === null ? "" : `<div>at ${durationText(at)}</div>`) + `<pre>${plain(data.lines[number])}</pre>`
    + part("It took", said.take.map(name => `${item(name)}, put by ${toEntry(name[0])}`))
    + part("It put", said.put.map((_, place) => putText(number, place)))
    + part("It ended", said.end.map(endText))
    + part("Its copies", data.tags[number][3].map(toCopy))
    + `<h3>Show only</h3>${tagText(number) || "nothing"}`;
}

function tellCopy(name) {
  const way = [];
  data.tags.forEach((tags, number) => { if (tags[3].includes(name)) way.push(stepText(number, name)); });
  detail.innerHTML = `<h2>Copy [${plain(name)}]</h2><pre>${plain(data.copies[name])}</pre>` + part("Its way", way)
    + `<h3>Show only</h3>${toOnly("copy", name)}`;
}

function choose(number) {
  const what = { chosen: number };
  if (number < data.setUp) what.setUp = true;
  if (!isShown(number) && !(number < data.setUp && !isFiltered())) Object.assign(what, { node: "", connection: "", channel: "", copy: "" });
  const isLaid = what.setUp === undefined && what.node === undefined;
  Object.assign(state, what);
  tellState();
  if (!isLaid) drawAll();
  reveal(number);
  tellEntry(number);
}
