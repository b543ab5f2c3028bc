// Draws what the module reads, and filters it. What comes from the input is written as text, never as HTML.

const ROW_HEIGHT = 26, NARROW_ROW_HEIGHT = 48;
const MOST_LIST_HEIGHT = 8e6, TURN_MILLISECONDS = 80, SLICE = 1_048_576;
const HEX_BYTES = 16, HEX_LINES = 48;
// Of a longer line of JSON no value is tied to its bytes.
const MOST_TIED = 200_000;
const MOST_LIFELINES = 8, LIFELINE_GAP = 24, MOST_SAMPLED = 5000, NANOSECONDS = 1_000_000_000n;
// As many cells as the line of a row has at least, and the width of one.
const LEAST_CELLS = 100, CELL_WIDTH = 8.5;
const COLUMNS = ["number", "time", "sender", "destination", "arrow", "info", "size"];
// What stands in them, as a line of `list` has it.
const PARTS = /^ *(?<number>\d+) ((?<time>\S+:\S+) )? *(?<size>\d+) (?<sender>\S+) +> (?<destination>\S+) +(?<info>.+)/s;

const find = (id) => document.getElementById(id);
const state = { module: null, readers: [], rows: null, shown: [], active: -1, run: 0, isReading: false, lifelines: [] };

// ---- Reading

// What reads a file, once all of it is in the module's memory. One that begins as gzip does is unpacked first.
async function opened(file) {
  const isGzip = `${new Uint8Array(await file.slice(0, 2).arrayBuffer())}` === "31,139";
  const unzipped = () => new Response(file.stream().pipeThrough(new DecompressionStream("gzip"))).blob();
  const body = isGzip ? await unzipped() : file, reader = new Reader(state.module, body.size);
  for (let at = 0; at < body.size; at += SLICE) {
    tell(`Opening ${file.name}: ${percent(at, body.size)}`);
    reader.bytes.set(new Uint8Array(await body.slice(at, at + SLICE).arrayBuffer()), reader.text + at);
  }
  if (!reader.open()) {
    throw new Error(`${file.name} begins as one side of a connection, but its handshake is at fault`);
  }
  return Object.assign(reader, { name: file.name, isGzip });
}

// Reads a file, or two, which are the sides of a connection: the client's comes first.
async function read(files) {
  const run = (state.run += 1), name = files.map((it) => it.name).join(" and "), readers = [];
  state.isReading = true;
  try {
    for (const file of files) {
      readers.push(await opened(file));
    }
    const place = ({ side }) => ["client", "", "server"].indexOf(side);
    readers.sort((a, b) => place(a) - place(b));
    if (readers.length > 2 || (readers[0].side && readers[0].side === readers[1]?.side)) {
      throw new Error("of more than one file each has to be one side of a connection");
    }
    if (run === state.run) {
      await readAll(run, name, readers);
    }
  } catch (error) {
    state.isReading = run !== state.run;
    tell(`${name} was not read: ${error.message}`);
  }
}

async function readAll(run, name, readers) {
  const rows = new Rows(readers);
  const far = (what, part, all) => tell(`${what} ${name}: ${percent(part, all)}, ${rows.count} messages`);
  Object.assign(state, { readers, name, rows, shown: [], active: -1, lifelines: [], opened: null });
  find("details").replaceChildren(...readers.filter((it) => it.skipped).flatMap(({ side, handshake }) => [
    element("h2", `Handshake: what the ${side} sent`), element("pre", handshake, { tabindex: 0 }),
  ]));
  draw();
  const show = ({ row }) => state.shown.push(row);
  const tellRead = (it) => far("Reading", it.offset + it.length, it.reader.length);
  // The list is there; then its lines get what other messages tell.
  const tellJoined = (row) => far("Joining calls and replies of", row, rows.count);
  const isRead = await inTurns(run, rows.adding(), show, tellRead);
  if (isRead && (await inTurns(run, rows.learning(), rows.learn, tellJoined))) {
    state.isReading = false;
    state.lifelines = lifelines();
    tellEnd();
    showDiagram();
    await filter();
  }
}

const percent = (part, all) => `${Math.floor((100 * part) / all)} %`;

// Hands each item on, and between them tells how far it is and draws. It stops once another run has begun.
async function inTurns(run, items, take, tellItem) {
  let end = performance.now() + TURN_MILLISECONDS;
  for (const item of items) {
    take(item);
    if (performance.now() > end) {
      tellItem(item);
      draw(true);
      await new Promise((resume) => setTimeout(resume));
      if (run !== state.run) {
        return false;
      }
      end = performance.now() + TURN_MILLISECONDS;
    }
  }
  draw();
  return true;
}

// What dbus-wire writes of a row: the line of `list` of so many cells, or that of a refusal.
function listed(row, said, cells = 0) {
  if (row.isWhole) {
    return state.rows.line(row.index, said, cells).slice(0, -1);
  }
  const { number, offset, reader } = row, at = offset + reader.next(offset).at;
  return `refused at ${at}: ${reader.reason(offset)} in message ${number} at ${offset}`;
}

function tellEnd() {
  const { bad, count, passed } = state.rows, { readers, name } = state;
  const sum = (what) => readers.reduce((all, it) => all + it[what], 0);
  const fault = readers.find((it) => it.fileFault !== null)?.fileFault;
  const parts = [
    `${name}: ${count - bad} messages, ${sum("length")} bytes`,
    sum("skipped") && `after a handshake of ${sum("skipped")} bytes`,
    bad && `${bad} refused or cut off, ${passed} bytes passed over`,
    fault !== undefined && `the capture file is at fault at byte ${fault}`,
    count === 0 && "to record some, run dbus-monitor --session --pcap > FILE, and end it by Ctrl+C",
  ];
  tell(parts.filter((it) => it).join("; "));
}

// ---- Filtering

// Which rows each choice shows, if the words and the rule select them, or one that they select is their call or reply.
const CHOICES = {
  "": () => true,
  pairs: () => true,
  slow: (it) => it.isCall && took(it) > 0n,
  open: ({ isCall, pair }) => isCall && pair < 0,
  errors: ({ isCall, pair }) => isCall && pair >= 0 && state.rows.at(pair).isError,
};
// How `calls` names them.
const CALLS = { slow: "--slower 0", open: "--unanswered", errors: "--errors" };

// All words have to be in the line of JSON of a message, and the rule has to match it; or in an explanation.
async function filter() {
  readFilters();
  if (state.isReading) {
    // All of it is filtered once it is read.
    return;
  }
  const run = (state.run += 1), count = countRows(), only = find("only").value;
  Object.assign(state, { shown: [], active: -1 });
  draw();
  let looked = 0;
  const isDone = await inTurns(run, state.rows?.ordered() ?? [], (row) => {
    const it = state.rows.at(row);
    looked += 1;
    const isJoined = () => only === "pairs" && it.pair >= 0 && isWanted(state.rows.at(it.pair));
    if (CHOICES[only](it) && (isWanted(it) || isJoined())) {
      state.shown.push(row);
    }
  }, () => tellShown(`, ${percent(looked, count)} looked at`));
  if (isDone && only === "slow") {
    const times = new Map(state.shown.map((it) => [it, Number(took(state.rows.at(it)))]));
    state.shown.sort((a, b) => times.get(b) - times.get(a));
    draw();
  }
  if (isDone) {
    tellShown("");
  }
}

const countRows = () => state.rows?.count ?? 0;
const tellShown = (more) => (find("count").textContent = `${state.shown.length} of ${countRows()} shown${more}`);

// A rule that is at fault is told, and selects nothing out.
function readFilters() {
  state.words = find("words").value.toLowerCase().split(/\s+/).filter((it) => it);
  state.rule = null;
  find("rule-fault").textContent = "";
  try {
    state.rule = readRule(find("rule").value);
  } catch (fault) {
    find("rule-fault").textContent = `rule ${fault.message}`;
  }
  find("rule").setAttribute("aria-invalid", state.rule === null);
}

function isWanted(row) {
  const isMatch = !state.rule?.length || !row.isWhole || matchesRule(state.rule, state.rows, row);
  const text = isMatch && state.words.length ? textOf(row).toLowerCase() : "";
  return isMatch && state.words.every((it) => text.includes(it));
}

const textOf = (row) => (row.isWhole ? state.rows.json(row.index) : row.reader.explain(row.number, row.offset));

// ---- The list

// On a narrow screen a row has two lines.
const rowHeight = () => (matchMedia("(max-width: 40em)").matches ? NARROW_ROW_HEIGHT : ROW_HEIGHT);

// The browser bounds the height of an element, so that many rows share it.
const listHeight = () => Math.min(state.shown.length * rowHeight(), MOST_LIST_HEIGHT);

// How much of the list is seen below its head.
const viewHeight = () => Math.max(0, find("list").clientHeight - find("head").offsetHeight);
const wholeRows = () => Math.max(1, Math.floor(viewHeight() / rowHeight()));

// The last row that may be the first one that is seen.
const lastTop = () => Math.max(0, state.shown.length - wholeRows());

function firstRow() {
  const way = listHeight() - viewHeight();
  return way <= 0 ? 0 : Math.min(lastTop(), Math.round((find("list").scrollTop / way) * lastTop()));
}

// If rows came behind those that were shown, these are drawn anew only if there is room.
function draw(hasMore) {
  const list = find("list"), first = firstRow();
  find("space").style.height = `${listHeight()}px`;
  if (hasMore === true && find("seen").children.length > wholeRows()) {
    return;
  }
  const rows = state.shown.slice(first, first + wholeRows() + 1).map((row, at) => rowElement(seenOf(row), first + at));
  const top = Math.min(list.scrollTop, Math.max(0, listHeight() - rows.length * rowHeight()));
  find("seen").style.transform = `translateY(${top}px)`;
  find("seen").replaceChildren(...rows);
  list.setAttribute("aria-rowcount", state.shown.length + 1);
  list.setAttribute("aria-activedescendant", find(`row-${state.active}`)?.id ?? "");
}

function element(tag, text, attributes = {}, made = document.createElement(tag)) {
  made.textContent = text;
  for (const [name, value] of Object.entries(attributes)) {
    made.setAttribute(name, value);
  }
  return made;
}

// What is read of a row when it is seen.
function seenOf(index) {
  const row = state.rows.at(index);
  if (!row.isWhole) {
    return { ...row, kind: row.isPartial ? "cut off" : "refused" };
  }
  const said = state.rows.said(index);
  return { ...row, said, kind: said.type, time: said.time, sender: said.sender, destination: said.destination };
}

// What the cells of a row have. The diagram has a line for the names that come most, and others are told; on a narrow
// screen all are.
function cellsOf(row) {
  if (!row.isWhole) {
    return { number: row.label, info: listed(row) };
  }
  const width = Math.max(LEAST_CELLS, Math.floor(find("list").clientWidth / CELL_WIDTH));
  // Long names leave no room for the rest.
  const parts = (PARTS.exec(listed(row, row.said, width)) ?? PARTS.exec(listed(row, row.said))).groups;
  const isDrawn = [row.sender, row.destination].every((it) => !it || state.lifelines.includes(it));
  const isNarrow = rowHeight() === NARROW_ROW_HEIGHT;
  const names = find("diagram").checked && (isNarrow || !isDrawn) ? `${parts.sender} > ${parts.destination} ` : "";
  const time = find("only").value && row.isCall ? took(row) : null;
  const lasted = time === null ? "" : `${milliseconds(time)} ms  `;
  return { ...parts, number: row.label, info: `${lasted}${names}${parts.info}` };
}

function rowElement(row, place) {
  const how = `row ${row.isWhole ? row.kind : "refused"}`, cells = cellsOf(row);
  const made = element("div", "", { role: "row", class: how, id: `row-${place}`, "aria-rowindex": place + 2, "aria-selected": place === state.active });
  for (const name of COLUMNS) {
    const cell = element("span", cells[name] ?? "", { role: "gridcell", class: name });
    if (name === "arrow" && find("diagram").checked) {
      cell.append(arrowElement(row));
    }
    made.append(cell);
  }
  made.addEventListener("click", () => choose(place));
  return made;
}

function choose(place) {
  if (place in state.shown) {
    state.active = place;
    scrollTo(place);
    draw();
    openRow(state.shown[place]);
  }
}

function scrollTo(place) {
  const first = firstRow(), count = wholeRows();
  const top = place < first ? place : place >= first + count ? place - count + 1 : first;
  if (top !== first) {
    find("list").scrollTop = (top / lastTop()) * (listHeight() - viewHeight());
  }
}

function pressKey(event) {
  const page = wholeRows(), last = state.shown.length - 1;
  const steps = { ArrowDown: 1, ArrowUp: -1, PageDown: page, PageUp: -page, Home: -Infinity, End: Infinity };
  if (event.key in steps) {
    event.preventDefault();
    choose(Math.max(0, Math.min(last, state.active + steps[event.key])));
  } else if (event.key === "Enter" && state.active >= 0) {
    find("details").focus();
  }
}

// From the details too, n and N choose the next message and the one before, b and B mark the next value or the one
// before, and Escape goes back to the list.
function pressAnyKey({ key }) {
  const way = key === key.toLowerCase() ? 1 : -1;
  if (key === "Escape") {
    find("list").focus();
  } else if (key === "n" || key === "N") {
    choose(state.active + way);
  } else if ((key === "b" || key === "B") && state.opened) {
    let leaf = state.opened.marked + way;
    while (state.opened.leaves[leaf] === null) {
      leaf += way;
    }
    mark(leaf);
  }
}

// ---- Members

// With three digits behind the point, as `calls` has them.
const milliseconds = (time) => {
  const digits = String((time < 0n ? -time : time) / 1000n).padStart(4, "0");
  return `${time < 0n ? "-" : ""}${digits.slice(0, -3)}.${digits.slice(-3)}`;
};

// Hands each row on, and then shows the lines that are made of them.
async function showTable(title, rows, take, linesOf) {
  if (state.rows && (await inTurns(state.run, rows, take, () => tell("Counting …")))) {
    state.opened = null;
    find("details").replaceChildren(element("h2", title), element("pre", linesOf().join(""), { tabindex: 0 }));
    tellEnd();
  }
}

const compare = (a, b) => Number(a > b) - Number(a < b);
const memberOf = ({ interface: its, member }) => (its && member ? `${its}.${member}` : member);
function* shownRows(isWanted) {
  for (const row of state.shown) {
    const it = state.rows.at(row);
    if (isWanted(it)) {
      yield it;
    }
  }
}

// The tables of `count` of the messages shown.
function counts() {
  const words = ["type", "sender", "destination", "interface", "member", "error"], sums = new Map();
  const take = ({ index, length }) => {
    const said = state.rows.said(index), type = Number.isInteger(said.type) ? `kind${said.type}` : said.type;
    const names = { ...said, type, member: memberOf(said), error: said.error_name };
    words.filter((it) => names[it] !== undefined).forEach((word) => {
      const key = `${word} ${names[word]}`, { messages, bytes } = sums.get(key) ?? { messages: 0, bytes: 0 };
      sums.set(key, { at: words.indexOf(word), key, messages: messages + 1, bytes: bytes + length });
    });
  };
  const order = (a, b) => a.at - b.at || b.messages - a.messages || compare(a.key, b.key);
  const line = ({ key, messages, bytes }) => `${messages} messages ${bytes} bytes ${key}\n`;
  const lines = () => [...sums.values()].sort(order).map(line);
  return showTable("Messages shown, by name", shownRows((it) => it.isWhole), take, lines);
}

// The table of `calls --members` of the calls shown.
function members() {
  const sums = new Map(), calls = shownRows((it) => it.isCall || it.isUnwanted);
  const take = (row) => {
    const name = memberOf(state.rows.said(row.index));
    const sum = sums.get(name) ?? { name, calls: 0, replies: 0, errors: 0, open: 0, unwanted: 0, times: [] };
    const answered = row.pair < 0 ? "open" : state.rows.at(row.pair).isError ? "errors" : "replies";
    const time = answered === "replies" ? took(row) : null;
    sum.calls += 1;
    sum[row.isUnwanted ? "unwanted" : answered] += 1;
    sum.times.push(...(time === null ? [] : [time > 0n ? time : 0n]));
    sums.set(name, sum);
  };
  const lines = () => {
    const rows = [...sums.values()].map((it) => ({ ...it, total: it.times.reduce((a, b) => a + b, 0n) }));
    rows.sort((a, b) => compare(b.total, a.total) || b.calls - a.calls || compare(a.name, b.name));
    return rows.map(({ name, calls, replies, errors, open, total, times }) => {
      const each = [["total", total], ["mean", total / BigInt(times.length || 1)], ["longest", times.sort(compare).at(-1)]];
      const lasted = times.length ? each.map(([word, it]) => `${milliseconds(it)} ms ${word} `).join("") : "";
      return `${calls} calls ${replies} replies ${errors} errors ${open} no reply ${lasted}${name}\n`;
    });
  };
  return showTable("Calls shown, by member", calls, take, lines);
}

// ---- Taking away what is shown

// The command that writes the messages shown as JSON, or lists the calls.
function command() {
  const quoted = (text) => `'${text.replaceAll("'", "'\\''")}'`;
  const rule = state.rule?.length ? quoted(find("rule").value) : "";
  const [{ isRaw, isGzip, name, side }, other] = state.readers, goesOn = isRaw ? " --resync" : " --keep-going";
  const how = `${state.rows.bad ? goesOn : ""}${side && ` --handshake ${side}`}`;
  const words = state.words.map((it) => ` | grep -iF -e ${quoted(it)}`).join(""), only = find("only").value;
  if (other || only === "pairs" || (only && (rule || words))) {
    return "# no command of dbus-wire selects these";
  }
  const [first, then] = only ? [`calls ${CALLS[only]}`, ""] : rule ? [`filter ${rule}`, " | dbus-wire json"] : ["json", ""];
  const [from, to] = isGzip ? [`gzip -dc < ${quoted(name)} | `, ""] : ["", ` < ${quoted(name)}`];
  return `${from}dbus-wire ${first}${how}${to}${then}${words}`;
}

// The messages shown as a pcap file, with times in nanoseconds: 0 of those that have none.
function pcap() {
  const parts = [Uint32Array.of(0xa1b23c4d, 0x00040002, 0, 0, 0x08000000, 231)];
  for (const { index, offset, length, reader } of shownRows((it) => it.isWhole)) {
    const time = state.rows.time(index) ?? 0n;
    const head = [Number(time / NANOSECONDS), Number(time % NANOSECONDS), length, length];
    parts.push(Uint32Array.from(head), reader.part(offset, offset + length));
  }
  return new Blob(parts);
}

const save = () => element("a", "", { href: URL.createObjectURL(pcap()), download: "shown.pcap" }).click();

function buttonOf(title, press) {
  const button = element("button", title, { type: "button" });
  button.addEventListener("click", () => press(button));
  return button;
}

function copyButton(title, text) {
  return buttonOf(title, async (button) => {
    const said = await navigator.clipboard.writeText(text()).then(() => "done", (error) => error.message);
    button.textContent = `${title}: ${said}`;
  });
}

// ---- The diagram

function showDiagram() {
  find("list").classList.toggle("with-arrows", find("diagram").checked);
  find("heads").replaceChildren(...state.lifelines.map((name, at) => {
    const head = element("b", name.length > 14 ? `…${name.slice(-13)}` : name, { title: name });
    head.style.left = `${(at + 1) * LIFELINE_GAP}px`;
    return head;
  }));
  draw();
}

// The names that come most, in a sample, have a line each. What has no destination goes to everyone, at the right.
function lifelines() {
  const peers = new Map(), { count } = state.rows;
  for (let row = 0; row < count; row += Math.ceil(count / MOST_SAMPLED)) {
    const { sender, destination } = seenOf(row);
    [sender, destination].filter((it) => it).forEach((it) => peers.set(it, (peers.get(it) ?? 0) + 1));
  }
  const names = [...peers].sort((a, b) => b[1] - a[1]).slice(0, MOST_LIFELINES);
  return names.map(([name]) => name).sort();
}

const SVG = "http://www.w3.org/2000/svg";
const shape = (tag, attributes, text = "") => element(tag, text, attributes, document.createElementNS(SVG, tag));

function arrowElement(row) {
  const names = state.lifelines, gap = LIFELINE_GAP, middle = ROW_HEIGHT / 2, all = (MOST_LIFELINES + 1) * gap;
  const label = row.isWhole ? `from ${row.sender || "no one named"} to ${row.destination || "everyone"}` : "no message";
  const picture = shape("svg", { width: all + gap, height: ROW_HEIGHT, role: "img", "aria-label": label });
  names.forEach((name, at) => {
    const line = shape("line", { x1: (at + 1) * gap, x2: (at + 1) * gap, y1: 0, y2: ROW_HEIGHT, class: "lifeline" });
    line.append(shape("title", {}, name));
    picture.append(line);
  });
  const at = (name, other) => (names.includes(name) ? (names.indexOf(name) + 1) * gap : other);
  const from = at(row.sender, gap / 4), to = at(row.destination, row.destination ? gap / 4 : all);
  if (row.isWhole && from !== to) {
    const back = to > from ? -6 : 6;
    picture.append(shape("line", { x1: from, x2: to, y1: middle, y2: middle, class: `shaft ${row.kind}` }));
    picture.append(shape("path", { d: `M${to} ${middle}l${back} -4v8z`, class: `tip ${row.kind}` }));
  }
  return picture;
}

// ---- The details

function openRow(index) {
  const row = seenOf(index), { reader } = row, at = row.isWhole ? -1 : reader.next(row.offset).at;
  const title = row.isWhole ? `Message ${row.label}` : `No message: number ${row.label}, ${row.kind}`;
  const what = row.isWhole ? "bytes" : "bytes passed over", captured = row.time ? `, captured ${fullTime(row.time)}` : "";
  const where = `${row.length} ${what} at offset ${row.offset}${captured}`;
  const line = element("p", listed(row, row.said), { class: "line" }), text = textOf(row);
  const parts = [element("h2", title), element("p", where), line];
  const buttons = [row.pair >= 0 && pairButton(row), row.isWhole && copyButton("Copy as JSON", () => text)];
  parts.push(...buttons.filter((it) => it));
  const end = row.isWhole ? row.length : Math.max(row.length, at + HEX_BYTES * 4);
  const isTied = row.isWhole && text.length < MOST_TIED;
  const leaves = isTied ? leavesOfLine(reader.items(row.offset, row.length), Boolean(row.time)) : [];
  state.opened = { reader, offset: row.offset, end, fault: at, leaves, marked: -1 };
  const said = row.isWhole ? valuesElement(text, isTied) : element("pre", text, { tabindex: 0 });
  const how = isTied ? "A value marks its bytes, and a byte its value: press one, or b and B." : "";
  parts.push(element("h3", row.isWhole ? "Values" : "Why"), said);
  parts.push(element("h3", "Bytes"), element("p", how, { id: "marked", role: "status" }));
  find("details").replaceChildren(...parts, hexElement());
}

// A time in UTC, with nine digits behind the point.
function fullTime(time) {
  const [seconds, fraction] = time.split(".");
  return `${new Date(Number(seconds) * 1000).toISOString().slice(0, 19).replace("T", " ")}.${fraction} UTC`;
}

// Nanoseconds from a call to its reply, or null.
function took({ index, pair }) {
  const [from, to] = [Math.min(index, pair), Math.max(index, pair)].map((it) => (pair < 0 ? null : state.rows.time(it)));
  return from === null || to === null ? null : to - from;
}

function pairButton({ isCall, index, pair }) {
  const time = took({ index, pair }), lasted = time === null ? "" : `, ${Number(time) / 1e6} ms`;
  return buttonOf(`To the ${isCall ? "reply" : "call"}, message ${state.rows.at(pair).label}${lasted}`, () => {
    choose(state.shown.indexOf(pair));
    openRow(pair);
    find("details").focus();
  });
}

// JSON on several lines. Numbers stay as they are written, since some are above 2^53.
function valuesElement(line, isTied) {
  const box = element("pre", "", { tabindex: 0, class: "values" });
  let depth = 0, leaf = 0;
  for (const [token, isKey] of line.trimEnd().matchAll(/"(?:[^"\\]|\\.)*"(:)?|\[\]|[[{\]},]|[^",:[\]{}]+/g)) {
    depth += { "[": 1, "{": 1, "]": -1, "}": -1 }[token] ?? 0;
    const isEnd = "]}".includes(token), isStart = "[{,".includes(token);
    const broken = `\n${"  ".repeat(depth)}`;
    const isValue = isTied && !isEnd && !isStart && !isKey && token !== "[]";
    const told = isEnd ? broken + token : isStart ? token + broken : isKey ? `${token} ` : token;
    box.append(isValue ? element("span", told, { "data-leaf": leaf++ }) : told);
  }
  return box;
}

// Marks a value and its bytes, and says which these are.
function mark(leaf) {
  const { leaves } = state.opened, details = find("details");
  if (!leaves[leaf]) {
    return;
  }
  const [start, end] = leaves[leaf], value = details.querySelector(`[data-leaf="${leaf}"]`);
  const isOf = ({ dataset: { at } }) => (at ? at >= start && at < end : false);
  if (start < end && !details.querySelector(`[data-at="${start}"]`)) {
    details.lastChild.replaceWith(hexElement(start));
  }
  state.opened.marked = leaf;
  const all = details.querySelectorAll("[data-leaf], [data-at]");
  all.forEach((it) => it.classList.toggle("marked", it === value || isOf(it)));
  [value, details.querySelector(`[data-at="${start}"]`)].forEach((it) => it?.scrollIntoView({ block: "nearest" }));
  find("marked").textContent = start < end ? `Bytes ${start} to ${end - 1}: ${value.textContent}` : "A text without bytes.";
}

function pressDetails({ target: { dataset } }) {
  if (!dataset.at && !dataset.leaf) {
    return;
  }
  const { at, leaf } = dataset, of = leaf ?? state.opened.leaves.findIndex((it) => it && it[0] <= at && at < it[1]);
  if (of < 0) {
    find("marked").textContent = `Byte ${at} is of no value: of a length, a type, padding or the end of a text.`;
  }
  mark(Number(of));
}

// The bytes from some lines before the place of a fault on, or before another place, or from the first.
function hexElement(from = state.opened.fault) {
  const { reader, offset, end, fault } = state.opened;
  const label = fault < 0 ? "bytes of the message" : `bytes, the fault is at byte ${fault}`;
  const box = element("pre", "", { tabindex: 0, "aria-label": label });
  let next = Math.max(0, Math.floor((from - 8 * HEX_BYTES) / HEX_BYTES) * HEX_BYTES);
  const extend = (more) => {
    more?.remove();
    for (const last = Math.min(end, next + HEX_LINES * HEX_BYTES); next < last; next += HEX_BYTES) {
      box.append(...hexLine(next, Math.min(end, next + HEX_BYTES)));
    }
    if (next < end && offset + next < reader.length) {
      box.append(buttonOf("More bytes", extend));
    }
  };
  extend();
  return box;
}

function hexLine(start, end) {
  const { reader, offset, fault } = state.opened, bytes = reader.part(offset + start, offset + end);
  const cells = Array.from({ length: HEX_BYTES }, (_, at) => {
    const isAtFault = start + at === fault;
    const text = at < bytes.length ? bytes[at].toString(16).padStart(2, "0") : isAtFault ? "[]" : "  ";
    return [" ", element(isAtFault ? "mark" : "span", text, at < bytes.length ? { "data-at": start + at } : {})];
  });
  const letters = [...bytes].map((it) => (it > 31 && it < 127 ? String.fromCharCode(it) : ".")).join("");
  return [`${start.toString(16).padStart(8, "0")} `, ...cells.flat(), `  ${letters}\n`];
}

// ---- The page

const tell = (text) => (find("status").textContent = text);

function readHex() {
  const digits = find("hex").value.replace(/0x|[\s,:]/gi, "");
  if (digits.length === 0 || digits.length % 2 || /[^0-9a-f]/i.test(digits)) {
    tell("The pasted text is no pairs of hexadecimal digits.");
    return;
  }
  read([new File([Uint8Array.from(digits.match(/../g), (it) => parseInt(it, 16))], "pasted bytes")]);
}

const bytesOf = (base64) => Uint8Array.from(atob(base64), (it) => it.charCodeAt(0));

let typed = 0;
const typeFilter = () => [clearTimeout(typed), (typed = setTimeout(filter, 200))];

async function begin() {
  try {
    state.module = await WebAssembly.compile(bytesOf(MODULE));
  } catch (error) {
    tell(`This browser does not run WebAssembly with memory of 64 bits: ${error.message}`);
    return;
  }
  const take = ({ files }) => files[0] && read([...files]);
  const sample = () => read([new File([bytesOf(SAMPLE)], "calls.pcap")]);
  const acts = { "read-hex": readHex, sample, members, counts, save };
  Object.entries(acts).forEach(([id, act]) => find(id).addEventListener("click", act));
  find("file").addEventListener("change", (event) => take(event.target));
  ["words", "rule"].forEach((id) => find(id).addEventListener("input", typeFilter));
  find("only").addEventListener("change", filter);
  find("diagram").addEventListener("change", showDiagram);
  find("list").addEventListener("scroll", draw);
  find("list").addEventListener("keydown", pressKey);
  document.querySelector("main").addEventListener("keydown", pressAnyKey);
  find("details").addEventListener("click", pressDetails);
  find("save").before(copyButton("Copy command", command));
  document.addEventListener("dragover", (event) => event.preventDefault());
  document.addEventListener("drop", (event) => [event.preventDefault(), take(event.dataTransfer)]);
  new ResizeObserver(draw).observe(find("list"));
  tell("Ready. Nothing leaves this page.");
}

begin();
