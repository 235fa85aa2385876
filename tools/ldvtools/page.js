
"use strict";
// The page of a package. All text comes by textContent; nothing of the data is taken for HTML.
const D = JSON.parse(document.getElementById("data").textContent);
const ROWS = 100, SHOWN = 20000, SVG = "http://www.w3.org/2000/svg", LAST = 10000000, DRAWN = 150;
const RULES = "LHKPC";

// ---- elements

function el(name, given, ...children) {
  const made = document.createElement(name);
  for (const [key, value] of Object.entries(given || {})) {
    if (key.startsWith("on")) made.addEventListener(key.slice(2), value);
    else if (value !== null && value !== undefined && value !== false) {
      made.setAttribute(key, value === true ? "" : value);
    }
  }
  put(made, children);
  return made;
}

function put(target, children) {
  for (const child of children.flat(Infinity)) {
    if (child === null || child === undefined || child === false) continue;
    target.append(child instanceof Node ? child : document.createTextNode(String(child)));
  }
}

function svg(name, given, ...children) {
  const made = document.createElementNS(SVG, name);
  for (const [key, value] of Object.entries(given || {})) {
    if (key.startsWith("on")) made.addEventListener(key.slice(2), value);
    else made.setAttribute(key, value);
  }
  put(made, children);
  return made;
}

const counted = (n, one, many) => n.toLocaleString("en") + " " + (n === 1 ? one : many || one + "s");
const section = (id, title, ...children) => el("section", {id}, el("h2", {}, title), children);
const digits = value => value !== null && typeof value === "object" ? value.i : value;

function cell(value) {
  if (value === null) return el("td", {class: "null"}, "NULL");
  if (value === "") return el("td", {}, el("span", {class: "soft"}, "(empty)"));
  // Dates and other short texts aren't broken over two lines, nor are numbers.
  if (typeof value === "string") return el("td", {class: value.length <= 24 ? "short" : ""}, value);
  return el("td", {class: "number"}, String(digits(value)));
}

// A list in pages of so many rows, each made when it is shown.
function paged(heads, rows, make, perPage = ROWS) {
  const body = el("tbody"), place = el("span", {class: "soft"}), holder = el("div");
  let page = 0;
  const pages = () => Math.max(1, Math.ceil(rows.length / perPage));
  const step = (by, text) => el("button", {"aria-label": by < 0 ? "page before" : "next page",
    onclick: () => { page = Math.min(pages() - 1, Math.max(0, page + by)); show(); }}, text);
  const back = step(-1, "‹"), on = step(1, "›");
  const goto = el("input", {type: "number", min: 1, size: 6, "aria-label": "page", onchange: event => {
    page = Math.min(pages() - 1, Math.max(0, Number(event.target.value) - 1 || 0)); show(); }});
  const bar = el("div", {class: "bar pager"}, back, place, on, goto);
  function show() {
    body.replaceChildren(...rows.slice(page * perPage, (page + 1) * perPage).map(make));
    const [first, last, all] = [page * perPage + 1, Math.min(rows.length, (page + 1) * perPage), rows.length]
      .map(number => number.toLocaleString("en"));
    place.textContent = `${first} to ${last} of ${all}`;
    back.disabled = page === 0;
    on.disabled = page >= pages() - 1;
    goto.value = page + 1;
    bar.hidden = rows.length <= perPage;
  }
  put(holder, [bar, el("div", {class: "wide"}, el("table", {}, el("thead", {}, el("tr", {}, heads.map(head =>
    el("th", {scope: "col"}, head)))), body))]);
  show();
  holder.use = found => { rows = found; page = 0; show(); };
  holder.refresh = show;
  holder.to = index => { page = Math.floor(index / perPage); show(); };
  return holder;
}

// ---- saving

function save(name, part) {
  const href = URL.createObjectURL(new Blob([part]));
  const link = el("a", {href, download: name.split("/").pop() || "file"});
  link.click();
  setTimeout(() => URL.revokeObjectURL(link.href), 10000);
}

function bytes(content) {
  if (content.text !== undefined) return content.text;
  return Uint8Array.from(atob(content.base64), c => c.charCodeAt(0));
}

function field(value) {
  if (value === null) return "";
  const text = String(digits(value));
  const isQuoted = typeof value === "string" && (text === "" || /[",\r\n]/.test(text));
  return isQuoted ? '"' + text.replaceAll('"', '""') + '"' : text;
}

const csv = rows => rows.map(row => row.map(field).join(",") + "\r\n").join("");

function contentOf(path, content) {
  if (content === null) return null;
  const text = content.text !== undefined ? content.text : hex(content.base64);
  const shown = el("pre", {}, text.slice(0, SHOWN));
  return el("details", {}, el("summary", {"aria-label": "content of " + path}, "content"), shown,
    text.length > SHOWN && el("button",
      {onclick: event => { shown.textContent = text; event.target.remove(); }},
      `show all ${counted(text.length, "character")}`),
    el("button", {"aria-label": "save " + path, onclick: () => save(path, bytes(content))}, "save"));
}

function hex(base64) {
  return [...atob(base64.slice(0, 8000))].map(c => c.charCodeAt(0).toString(16).padStart(2, "0")).join(" ") +
    (base64.length > 8000 ? " .." : "");
}

// ---- what it is

function verdictBadge() {
  if (!D.verdict) return el("span", {class: "badge"}, "not audited");
  const name = D.verdict === "sound" ? "good" : "bad";
  return el("span", {class: "badge " + name, id: "verdict"}, "audit: " + D.verdict);
}

function head() {
  const fact = (name, value) => el("span", {}, name + " ", el("b", {}, String(value)));
  const known = D.replies > 0 || D.replayed;
  return el("header", {}, el("h1", {}, D.name), el("div", {class: "facts"},
    fact("kind", D.kind === "included" ? "with the needed rows" : "with recorded replies"),
    fact("format version", D.version), fact("bytes", D.size.toLocaleString("en")),
    fact("start", D.start.join(" ")), fact("seed", D.seed),
    fact("steps", D.steps.toLocaleString("en")), fact("events", D.events.toLocaleString("en")),
    fact("statements", D.statements.length.toLocaleString("en"))),
    el("div", {class: "facts"},
      D.fileDigest && fact("SHA-256 of the file, as sha256sum writes it", D.fileDigest),
      fact("digest within it, of the bytes before its end", D.digest)),
    D.notes.map(note => el("p", {class: "red"}, note)),
    verdictBadge(),
    D.refused > 0 && el("span", {class: "badge bad", id: "refused"},
      `${D.refused} of ${counted(D.replies, "statement")} ${D.refused === 1 ? "was" : "were"} refused`),
    D.misused > 0 && el("span", {class: "badge bad", id: "misused"},
      `${counted(D.misused, "process", "processes")} ended by misuse`),
    !known && D.statements.length > 0 && el("span", {class: "badge"},
      "not replayed: the page has no replies (page.py --ldv ./ldv makes one that has)"));
}

// ---- the outcome

function processCard(process) {
  const status = process.status === null ? "unknown" : process.status;
  const isBad = process.misuse || process.status !== 0;
  const ended = `status ${status}` + (process.misuse ? `: ${process.misuse}` : "");
  return el("div", {"data-process": process.name}, el("h3", {}, "process " + process.name),
    el("div", {class: "facts"},
      el("span", {}, "script ", el("b", {}, process.script)),
      el("span", {}, `steps ${process.first} to ${process.last}`),
      el("span", {class: isBad ? "red" : ""}, ended),
      process.statements !== null && el("span", {}, counted(process.statements, "statement"))),
    process.printed ? el("pre", {}, process.printed.slice(0, SHOWN)) :
      process.printed === "" && el("div", {class: "soft"}, "it printed nothing"));
}

function wayOf(way) {
  const [process, told, first, last] = way;
  return `process ${process} ${told}, step ${first}` + (last !== first ? ` to ${last}` : "");
}

function touchedRow(file) {
  const size = file.content ? counted(file.content.size, "byte") : file.known ? "removed" : "not replayed";
  return el("tr", {"data-file": file.path},
    el("td", {}, el("a", {href: "#came", onclick: () => choosePath(file.path)}, file.path)),
    el("td", {}, size), el("td", {}, file.by.map(way => el("div", {}, wayOf(way)))),
    el("td", {}, contentOf(file.path, file.content)));
}

function outcomeSection() {
  const cards = el("div");
  const note = !D.replayed && el("p", {class: "soft"}, "What the processes printed and what the files " +
    "became is in the replay: page.py --ldv ./ldv replays the package for the page.");
  let shown = 0;
  const more = el("button", {onclick: () => add()}, "more processes");
  function add() {
    put(cards, D.processes.slice(shown, shown + 20).map(processCard));
    shown += 20;
    more.hidden = shown >= D.processes.length;
  }
  add();
  return section("outcome", "Outcome", note, cards, more, el("h3", {}, "Files that it wrote or removed"),
    D.touched.length ? paged(["file", "size", "by", "content"], D.touched, touchedRow)
      : el("p", {class: "soft"}, "none"));
}

// ---- statements

let chosen = null;
const needsOf = new Map();   // "table row" -> [[statement, rule], ..]
function noteNeed(number, table, [row, , rule]) {
  const name = table + " " + row;
  if (!needsOf.has(name)) needsOf.set(name, []);
  needsOf.get(name).push([number, rule]);
}

D.statements.forEach((statement, number) => statement.needs.forEach(([table, rows]) =>
  rows.forEach(need => noteNeed(number, table, need))));
const placesOf = table => new Map(table.rows.map((row, place) => [row[0], place]));
const packed = new Map(D.tables.map(table => [table.name, placesOf(table)]));

function statementRow(number) {
  const statement = D.statements[number];
  const isRefused = statement.reply && statement.reply.kind === "refused";
  const count = statement.needs.reduce((sum, [, rows]) => sum + rows.length, 0);
  const tables = "tables: " + (statement.tables.join(", ") || "none");
  const chosenClass = number === chosen ? "chosen" : "";
  // A click anywhere in the row; for the keyboard and for a screen reader the button in it.
  const onclick = event => { choose(number); if (event.target.closest("button")) focusOn(number); };
  const button = el("button", {class: "plain", "aria-label": `statement ${number}`,
    "aria-expanded": String(number === chosen)}, number);
  return el("tr", {"data-statement": number, class: chosenClass, onclick},
    el("td", {class: "number"}, button), el("td", {}, statement.process),
    el("td", {class: "number"}, statement.step),
    el("td", {}, statement.text === null ? writtenTexts(statement) || el("span", {class: "soft"}, tables)
      : el("code", {}, statement.text.slice(0, 300)),
      statement.params.length > 0 && el("div", {class: "soft params"},
        "with " + statement.params.join(", "))),
    el("td", {class: isRefused ? "reply red" : "reply"}, statement.reply ? statement.reply.title : "",
      preview(statement)),
    el("td", {class: "number"}, count));
}

function focusOn(number) {
  const row = document.querySelector(`tr[data-statement="${number}"]`);
  if (row) row.querySelector("button").focus();
}

// Without a replay: the statements of its script that it may be, with their parameters as they are written.
function writtenTexts(statement) {
  const found = statement.written.map(place => D.written[place]);
  return found.length > 0 && found.map(([path, line, text, params], place) => el("div", {class: "written"},
    place > 0 && el("div", {class: "soft"}, "or"),
    el("code", {}, text === null ? "a text that the script computes" : text.slice(0, 300)),
    params.length > 0 && el("div", {class: "soft params"}, "with " + params.join(", ")),
    el("div", {class: "soft"}, `as written in ${path}, line ${line}`)));
}

// The first rows of a reply, in the list of statements.
const FIRST_ROWS = 3, FIRST_COLUMNS = 6;
function preview(statement) {
  const rows = statement.reply ? statement.reply.rows : [];
  if (!rows.length) return null;
  const width = Math.min(FIRST_COLUMNS, rows[0].length);
  const names = Array.from({length: width}, (_, place) => statement.columns[place] || String(place + 1));
  const more = rows.length > FIRST_ROWS || rows[0].length > FIRST_COLUMNS;
  const short = value => typeof value === "string" && value.length > 40 ? value.slice(0, 39) + "…" : value;
  const heads = names.map(name => el("th", {scope: "col"}, name));
  return [el("table", {class: "preview"}, el("tr", {}, heads),
    rows.slice(0, FIRST_ROWS).map(row => el("tr", {}, row.slice(0, width).map(value => cell(short(value)))))),
    more && el("span", {class: "soft"}, "and more: a click shows all")];
}

function replyOf(statement) {
  if (!statement.reply) return null;
  const rows = statement.reply.rows;
  const isRefused = statement.reply.kind === "refused";
  const title = el("h3", {class: isRefused ? "red" : ""}, "Reply: " + statement.reply.title);
  if (!rows.length) return title;
  const width = Math.max(...rows.slice(0, 1000).map(row => row.length));
  const names = Array.from({length: width}, (_, place) => statement.columns[place] || String(place + 1));
  return [title, paged(names, rows, row => el("tr", {}, row.map(cell)), 50),
    el("button", {onclick: () => save("reply.csv", csv([names, ...rows]))}, "save as CSV")];
}

function needTable(name, rows) {
  const table = D.tables.find(each => each.name === name);
  const heads = ["row", "version", "rule", ...(table ? table.columns.map(column => column[0]) : [])];
  const needRow = ([row, version, rule]) => {
    const place = packed.get(name) && packed.get(name).get(row);
    const values = place === undefined ? [] : table.rows[place].slice(3);
    return el("tr", {class: "needed", "data-need": `${name} ${row} ${rule}`},
      el("td", {class: "number"}, row), el("td", {class: "number"}, version),
      el("td", {title: D.rules[rule]}, rule), values.map(cell),
      place === undefined && el("td", {class: "soft", colspan: 9}, "not packed: the run made it"));
  };
  return [el("h3", {}, `It needed ${counted(rows.length, "row")} of ${name}`),
    paged(heads, rows, needRow, 25)];
}

function detail(number) {
  const statement = D.statements[number];
  const rules = [...new Set(statement.needs.flatMap(([, rows]) => rows.map(row => row[2])))];
  rules.sort((a, b) => RULES.indexOf(a) - RULES.indexOf(b));
  const asked = `which process ${statement.process} asked at step ${statement.step}`;
  return [el("h3", {id: "detail"}, `Statement ${number}, ${asked}`),
    statement.text !== null ? el("pre", {}, statement.text) : writtenTexts(statement),
    statement.params.length > 0 && el("p", {}, "with ", el("code", {}, statement.params.join(", "))),
    replyOf(statement),
    statement.needs.map(([name, rows]) => needTable(name, rows)),
    !statement.needs.length && el("p", {class: "soft"}, "It needed no row."),
    statement.made.map(([name, rows]) =>
      el("p", {}, `It made ${counted(rows.length, "version")} of rows of ${name}.`)),
    el("ul", {}, rules.map(rule =>
      el("li", {"data-rule": rule}, el("b", {}, rule), ": the row " + D.rules[rule])))];
}

const statementPanel = el("div");
let statementList = null, onlyNeeded = null;

function choose(number) {
  chosen = chosen === number ? null : number;
  statementList.refresh();
  statementPanel.replaceChildren();
  if (chosen !== null) put(statementPanel, detail(chosen));
  onlyNeeded.disabled = chosen === null;
  if (chosen === null) onlyNeeded.checked = false;
  if (chosen !== null && D.statements[chosen].needs.length) shownTable = D.statements[chosen].needs[0][0];
  showTable();
}

function statementSection() {
  const numbers = D.statements.map((_, number) => number);
  const heads = ["number", "process", "step", "statement", "reply", "rows needed"];
  statementList = paged(heads, numbers, statementRow, 50);
  const refused = numbers.filter(n => D.statements[n].reply && D.statements[n].reply.kind === "refused");
  const onchange = event => statementList.use(event.target.checked ? refused : numbers);
  const only = el("input", {type: "checkbox", onchange});
  return section("statements", "Statements", el("p", {class: "soft"},
    (D.replies > 0 ? "Each with the first rows of its reply. A click on a statement shows all of it and " :
      "A click on a statement shows it and ") + "marks the rows that it needed."),
    refused.length > 0 && el("label", {class: "bar"}, only, "refused ones alone"),
    statementList, statementPanel);
}

// ---- tables

let shownTable = D.tables.length ? D.tables[0].name : null;
const tablePanel = el("div"), tableTabs = el("div", {class: "bar"});

function neededBy(name, row) {
  const found = needsOf.get(name + " " + row) || [];
  return found.slice(0, 12).map(([number, rule], place) => [place ? ", " : "", el(place ? "span" : "b", {
    title: `statement ${number}: the row ${D.rules[rule]}`}, `${number} ${rule}`)]).concat(
    found.length > 12 ? ` and ${found.length - 12} more` : "");
}

function tableRow(name, row) {
  const needs = needsOf.get(name + " " + row[0]) || [];
  const isNeeded = chosen !== null && needs.some(([number]) => number === chosen);
  return el("tr", {class: isNeeded ? "needed" : "", "data-row": `${name} ${row[0]}`},
    el("td", {class: "number soft"}, row[0]),
    row.slice(3).map(cell), el("td", {}, neededBy(name, row[0])));
}

function showTable() {
  tableTabs.replaceChildren(...D.tables.map(({name}) => el("button", {class: name === shownTable ? "on" : "",
    "data-table": name, onclick: () => { shownTable = name; showTable(); }}, name)));
  tablePanel.replaceChildren();
  const table = D.tables.find(each => each.name === shownTable);
  if (!table) return;
  const needsOfRow = row => needsOf.get(table.name + " " + row[0]) || [];
  const isNeeded = row => needsOfRow(row).some(([number]) => number === chosen);
  const rows = onlyNeeded.checked ? table.rows.filter(isNeeded) : table.rows;
  const columnHeads = table.columns.map(([name, kind]) => [name, el("div", {class: "soft"}, kind)]);
  const list = paged(["row", ...columnHeads, "needed by"], rows, row => tableRow(table.name, row));
  const needs = chosen === null ? [] : D.statements[chosen].needs;
  const needed = needs.filter(([name]) => name === table.name).flatMap(need => need[1]);
  const numbers = new Set(needed.map(need => need[0])), first = rows.findIndex(row => numbers.has(row[0]));
  if (first > 0) list.to(first);
  const count = `${table.rows.length.toLocaleString("en")} of ${counted(table.next, "row")} packed`;
  put(tablePanel, [el("p", {}, el("b", {id: "packed"}, count), ", key ", table.key.join(", ") || "none",
    table.foreign.map(text => "; " + text)),
    list,
    el("button", {onclick: () => save(table.name + ".csv", csv([table.columns.map(column => column[0]),
      ...table.rows.map(row => row.slice(3))]))}, "save as CSV")]);
}

function tableSection() {
  onlyNeeded = el("input", {type: "checkbox", disabled: true, onchange: () => showTable()});
  const only = el("label", {class: "bar"}, onlyNeeded, "only rows that the chosen statement needed");
  const none = D.kind === "excluded" ? "A package of recorded replies has no tables."
    : "The run asked no table.";
  const made = section("tables", "Tables",
    D.tables.length ? [tableTabs, only, tablePanel] : el("p", {class: "soft"}, none));
  showTable();
  return made;
}

// ---- over time

function timeSection() {
  const {columns, steps, lanes} = D.marks, left = 190, height = 22, limit = 120;
  const shown = lanes.slice(0, limit), width = left + columns + 20;
  const x = step => left + step * columns / (steps + 1);
  const picture = svg("svg", {width, height: shown.length * height + 40, id: "time", role: "img",
    "aria-label": "processes and files over the steps of the run"});
  shown.forEach(([kind, name, marks], place) => {
    const y = 20 + place * height;
    put(picture, [svg("text", {x: 0, y: y + 4, "data-lane": `${kind} ${name}`},
      kind === "process" ? "process " + name : name.length > 26 ? name.slice(0, 25) + "…" : name),
      svg("line", {class: "lane", x1: left, x2: left + columns, y1: y, y2: y})]);
    const life = kind === "process" && D.processes.find(process => process.name === name);
    if (life) {
      put(picture, [svg("line", {class: "life", x1: x(life.first), x2: x(life.last) + 1, y1: y, y2: y})]);
    }
    for (const [what, found] of Object.entries(marks)) {
      const half = what === "ask" || what === "change" ? 8 : 5;
      const d = found.map(column => `M${left + column + .5} ${y - half}v${2 * half}`).join("");
      put(picture, [svg("path", {class: "m-" + what, "stroke-width": 1.6, d})]);
    }
  });
  const bottom = shown.length * height + 30;
  put(picture, [0, .25, .5, .75, 1].map(part => svg("text", {x: x(part * steps), y: bottom, class: "axis",
    "text-anchor": part === 1 ? "end" : part === 0 ? "start" : "middle"},
    Math.round(part * steps).toLocaleString("en"))));
  const key = (color, text) => { const mark = el("i"); mark.style.background = color; return [mark, text]; };
  const leftOut = lanes.length - limit;
  return section("steps", "Processes and files over steps",
    el("p", {class: "soft key"}, key("#b9cbe6", "a process is there"), key("#1f5fa8", "an act"),
      key("#c77700", "a statement"), key("#7d9a66", "a file is read or looked for"),
      key("#b3261e", "a file is changed")),
    el("div", {class: "wide"}, picture),
    leftOut > 0 && el("p", {class: "soft"}, `${leftOut} more processes and files aren't drawn.`));
}

// ---- what an output came from

const camePanel = el("div");
let cameSelect = null;

// The nodes from which a way of edges leads to a node, each edge at a time that isn't before that of the one
// before it.
function cameFrom(target) {
  const into = new Map();
  D.graph.edges.forEach((edge, place) => {
    if (!into.has(edge[1])) into.set(edge[1], []);
    into.get(edge[1]).push(place);
  });
  const found = new Map(), due = [];
  const look = (node, time) => (into.get(node) || []).forEach(place => {
    const [source, , first, last] = D.graph.edges[place], latest = Math.min(last, time);
    if (latest >= first && !found.has(source)) push(due, [latest, source]);
  });
  look(target, LAST);
  while (due.length) {
    const [time, node] = pop(due);
    if (!found.has(node)) { found.set(node, time); look(node, time); }
  }
  return found;
}

function push(heap, item) {
  let at = heap.push(item) - 1;
  while (at > 0 && heap[(at - 1) >> 1][0] < heap[at][0]) {
    const up = (at - 1) >> 1;
    [heap[up], heap[at]] = [heap[at], heap[up]];
    at = up;
  }
}

function pop(heap) {
  const top = heap[0], last = heap.pop();
  if (!heap.length) return top;
  heap[0] = last;
  for (let at = 0; ;) {
    const left = 2 * at + 1, right = left + 1;
    let most = at;
    if (left < heap.length && heap[left][0] > heap[most][0]) most = left;
    if (right < heap.length && heap[right][0] > heap[most][0]) most = right;
    if (most === at) return top;
    [heap[most], heap[at]] = [heap[at], heap[most]];
    at = most;
  }
}

const KINDS = ["path", "process", "row", "ask", "reply"];
const made = new Map(D.processes.map((process, place) => [process.name, place]));

// By code points, which is the order of the bytes.
function textOrder(one, other) {
  const a = [...one], b = [...other], place = a.findIndex((char, at) => char !== b[at]);
  if (place < 0) return a.length - b.length;
  return place >= b.length ? 1 : a[place].codePointAt(0) - b[place].codePointAt(0);
}

// Paths by bytes, processes as they were made, rows, asks and replies by their numbers.
function nodeOrder(a, b) {
  const one = D.graph.nodes[a], other = D.graph.nodes[b], kind = one[0];
  if (kind !== other[0]) return KINDS.indexOf(kind) - KINDS.indexOf(other[0]);
  if (kind === "path") return textOrder(one[1], other[1]);
  if (kind === "process") return made.get(one[1]) - made.get(other[1]);
  if (kind === "row") return textOrder(one[1], other[1]) || one[2] - other[2] || one[3] - other[3];
  return one[1] - other[1];
}

function choosePath(path) {
  cameSelect.value = "path:" + path;
  showCame();
}

function showCame() {
  camePanel.replaceChildren();
  const [kind, ...rest] = cameSelect.value.split(":"), wanted = rest.join(":");
  const target = D.graph.nodes.findIndex(node => node[0] === kind && String(node[1]) === wanted);
  if (target < 0) return;
  const found = cameFrom(target);
  // A reply isn't told of itself, though its process may have asked again at the same step.
  const places = [...found.keys()].filter(place => kind === "path" || place !== target).sort(nodeOrder);
  if (!places.length) {
    put(camePanel, [el("p", {id: "came-none"}, "It came from nothing: the run never wrote it.")]);
    return;
  }
  put(camePanel, [el("p", {id: "came-count"}, countOf(places) + " can have had a part in it."),
    drawnGraph(target, found),
    el("details", {}, el("summary", {}, "as a list"),
      el("ul", {class: "columns"}, places.slice(0, 5000).map(nodeItem)))]);
}

// How many files, processes, rows and statements the places are.
function countOf(places) {
  const count = kind => places.filter(place => D.graph.nodes[place][0] === kind).length;
  return `${counted(count("path"), "file")}, ${counted(count("process"), "process", "processes")}, ` +
    `${counted(count("row"), "row")} and ${counted(count("ask"), "statement")}`;
}

function nodeItem(place) {
  const name = D.graph.nodes[place].join(" ");
  return el("li", {"data-node": name}, name);
}

// Statements stand for their replies, and rows are drawn together by table and by the statement that needed
// them first.
function groupOf(place) {
  const node = D.graph.nodes[place];
  if (node[0] === "reply") return "ask " + node[1];
  if (node[0] !== "row") return node.join(" ");
  const needs = needsOf.get(node[1] + " " + node[2]);
  return `row ${node[1]} ${needs ? needs[0][0] : "made"}`;
}

function drawnGraph(target, found) {
  const groups = new Map(), edges = new Map(), shown = new Set([...found.keys(), target]);
  for (const place of shown) {
    const name = groupOf(place);
    if (!groups.has(name)) groups.set(name, {kind: name.split(" ")[0], places: [], time: Infinity});
    groups.get(name).places.push(place);
  }
  for (const [source, end, first, last] of D.graph.edges) {
    if (!shown.has(source) || !shown.has(end)) continue;
    const from = groupOf(source), to = groupOf(end), time = end === target ? LAST : found.get(end);
    for (const name of [from, to]) groups.get(name).time = Math.min(groups.get(name).time, first);
    if (from !== to && first <= time) {
      const name = from + "\n" + to, known = edges.get(name) || {first, last};
      edges.set(name, {from, to, first: Math.min(first, known.first), last: Math.max(last, known.last)});
    }
  }
  if (groups.size > DRAWN) {
    return el("p", {class: "soft"}, `It would be a picture of ${groups.size} boxes; the list has all.`);
  }
  return layout(groups, edges, groupOf(target));
}

const LANES = ["path", "process", "ask", "row"];
function layout(groups, edges, target) {
  const boxWidth = 150, gap = 34, high = 40, laneHigh = 110;
  const laneOf = group => LANES.indexOf(group.kind);
  const ordered = [...groups.entries()].sort(([, a], [, b]) => a.time - b.time || laneOf(a) - laneOf(b));
  const next = {}, spots = new Map();
  let column = 0;
  for (const [name, group] of ordered) {
    column = Math.max(column, next[group.kind] || 0);
    spots.set(name, {x: 10 + column * (boxWidth + gap), y: 10 + laneOf(group) * laneHigh});
    next[group.kind] = column + 1;
    if (group.kind === "path" || group.kind === "row") column = Math.max(0, column);
  }
  const width = 20 + (Math.max(...[...spots.values()].map(spot => spot.x)) + boxWidth);
  const tip = svg("marker", {id: "tip", viewBox: "0 0 8 8", refX: 7, refY: 4, markerWidth: 7, markerHeight: 7,
    orient: "auto"}, svg("path", {d: "M0 0L8 4L0 8z", fill: "#7c8995"}));
  const picture = svg("svg", {width, height: 4 * laneHigh - 30, id: "graph", role: "group",
    "aria-label": "what had a part in it, as a picture; the list below has the same"},
    svg("defs", {}, tip));
  for (const edge of edges.values()) put(picture, [drawnEdge(edge, spots, boxWidth, high)]);
  for (const [name, group] of groups) {
    put(picture, [drawnBox(name, group, spots.get(name), boxWidth, high, target)]);
  }
  return el("div", {class: "wide"}, picture);
}

function drawnEdge({from, to, first, last}, spots, boxWidth, high) {
  const a = spots.get(from), b = spots.get(to), isDown = b.y > a.y, isLevel = a.y === b.y;
  const x1 = a.x + boxWidth / 2 + (isLevel ? 0 : 8), x2 = b.x + boxWidth / 2 - (isLevel ? 0 : 8);
  const y1 = isLevel ? a.y : isDown ? a.y + high : a.y, y2 = isLevel ? b.y : isDown ? b.y : b.y + high;
  const bend = isLevel ? -38 : 0, middle = (y1 + y2) / 2;
  const d = isLevel ? `M${x1} ${y1}C${x1} ${y1 + bend} ${x2} ${y2 + bend} ${x2} ${y2}` :
    `M${x1} ${y1}C${x1} ${middle} ${x2} ${middle} ${x2} ${y2}`;
  const title = `${from} to ${to}: step ${first}` + (last > first ? ` to ${last}` : "");
  return svg("path", {class: "edge", d, "marker-end": "url(#tip)"}, svg("title", {}, title));
}

// The lines of the text in a group's box.
function linesOf(name, group) {
  const [kind, ...rest] = name.split(" ");
  if (kind === "path") return [name.slice(5)];
  if (kind === "ask") return ["statement " + rest[0]];
  if (kind === "process") return ["process " + rest[0]];
  const numbers = group.places.map(place => D.graph.nodes[place][2]).sort((a, b) => a - b);
  return [rest[0], "row " + [...new Set(numbers)].slice(0, 6).join(", ") + (numbers.length > 6 ? " .." : "")];
}

// Shows what a click on a group's box asks for: a file or a statement.
function showGroup(name) {
  const [kind, number] = name.split(" ");
  if (kind === "path") choosePath(name.slice(5));
  if (kind !== "ask") return;
  if (chosen !== Number(number)) choose(Number(number));
  location.hash = "statements";
}

function drawnBox(name, group, {x, y}, boxWidth, high, target) {
  const kind = group.kind, lines = linesOf(name, group);
  const fit = text => text.length > 22 ? text.slice(0, 21) + "…" : text;
  const middle = x + boxWidth / 2, top = y + high / 2 + 4 - (lines.length - 1) / 2 * 15;
  // A click shows a file or a statement; processes and rows have nothing more to show.
  const isButton = kind === "path" || kind === "ask";
  const box = svg("g", {class: `node ${kind}${name === target ? " target" : ""}`, "data-box": name,
    ...(isButton ? {role: "button", tabindex: 0} : {role: "img"}), "aria-label": lines.join(": ")},
    svg("rect", {x, y, width: boxWidth, height: high, rx: kind === "path" ? 18 : kind === "ask" ? 9 : 2}),
    lines.map((line, place) =>
      svg("text", {x: middle, y: top + place * 15, "text-anchor": "middle"}, fit(line))),
    svg("title", {}, lines.join(": ")));
  if (!isButton) return box;
  box.addEventListener("click", () => showGroup(name));
  box.addEventListener("keydown", event => { if (event.key === "Enter" || event.key === " ") {
    event.preventDefault();
    showGroup(name);
    if (kind === "path") cameSelect.focus(); else focusOn(Number(name.split(" ")[1]));
  } });
  return box;
}

function cameSection() {
  cameSelect = el("select", {id: "came-path", onchange: showCame});
  if (!D.graph.nodes) return section("came", "What a file came from", el("p", {class: "soft"},
    `The trace has ${counted(D.graph.edges, "edge")}, and a page shows up to ${D.graph.limit}: ` +
    "ldv inspect depends answers it."));
  const paths = D.graph.nodes.filter(node => node[0] === "path").map(node => node[1]);
  const wrote = new Set(D.touched.map(file => file.path));
  const option = (kind, name, text) => el("option", {value: `${kind}:${name}`}, text);
  const asked = D.graph.nodes.filter(node => node[0] === "reply").map(node => node[1]);
  const textOf = ({text, written}) => text || written.length === 1 && D.written[written[0]][2] || "";
  const told = number => `reply ${number}: ${textOf(D.statements[number]).slice(0, 60)}`;
  const others = paths.filter(path => !wrote.has(path) && !path.startsWith("ldv-world/"));
  const written = paths.filter(path => wrote.has(path));
  put(cameSelect, [written.map(path => option("path", path, path + " (written)")),
    asked.sort((a, b) => a - b).map(number => option("reply", number, told(number))),
    others.map(path => option("path", path, path))]);
  showCame();
  return section("came", "What a file or a reply came from", el("p", {class: "soft"},
    "All that can have had a part in what the file is at the end, or in the reply. A click on a file in " +
    "the picture asks for that one, a click on a statement shows it."),
    el("label", {class: "bar"}, "file or reply", cameSelect), camePanel);
}

// ---- files

function fileSection() {
  const sizeOf = content => content === null ? "only present" : counted(content.size, "byte");
  const fileRow = file => el("tr", {}, el("td", {}, file.path), el("td", {}, sizeOf(file.content)),
    el("td", {}, contentOf(file.path, file.content)));
  return section("files", "Files of the package", paged(["file", "size", "content"], D.files, fileRow));
}

// ---- the page

function page() {
  const titles = {outcome: "Outcome", statements: "Statements", tables: "Tables", steps: "Over steps",
    came: "What a file or a reply came from", files: "Files"};
  onlyNeeded = el("input", {type: "checkbox"});
  const sections = [outcomeSection(), statementSection(), tableSection(), timeSection(), null, fileSection()];
  sections[4] = cameSection();
  const links = Object.entries(titles).map(([id, title]) => el("a", {href: "#" + id}, title));
  const nav = el("nav", {"aria-label": "parts of the page"}, links);
  put(document.body, [head(), nav, el("main", {}, sections)]);
}

page();
document.body.dataset.ready = "yes";
