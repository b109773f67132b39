"use strict";

// What the relay sends: `types` and `colours` once; `sessions`, the list; and of the session that is watched its lists of
// rectangles, each left, bottom, right, top, left, .. in squares: `own N`, `cell N NAME`, `marks`, `unchecked`, `rule N`.

const WORLD = 1048576;

// In pixels: the least side of a mark, the most of a square, how far the scale bar goes, how far an arrow moves.
const LEAST_MARK = 6, MOST_SCALE = 80, LONGEST_BAR = 160, STEP = 80;

// In milliseconds: how long nothing may come from the relay, and the pauses between tries.
const SILENCE = 30000, PAUSES = [500, 1000, 2000, 5000];

const MOST_ROWS = 300, RED = "#b00000", GREY = "#555";

const part = (id) => document.getElementById(id);
const canvas = part("drawing"), pen = canvas.getContext("2d");

let types = [], colours = [], sessions = [], chosen = null, view = null, dirty = false, pointer = null, current = null;
const views = new Map(), hidden = new Set();
const NOTHING = { session: null, version: 0, lists: new Map(), uses: [], rules: {}, unknown: null, bounds: null, share: 0, near: null };
const scene = { ...NOTHING };

// ---- elements

function element(tag, values = {}, ...children) {
  const made = Object.assign(document.createElement(tag), values);
  made.append(...children);
  return made;
}

// Has a list show these elements in this order, and touches none that is where it should be: the focus stays.
function arrange(list, elements) {
  for (const each of [...list.children]) if (!elements.includes(each)) each.remove();
  elements.forEach((each, place) => { if (list.children[place] !== each) list.insertBefore(each, list.children[place] ?? null); });
}

function setText(target, text) { if (target.textContent !== text) target.textContent = text; }

const counted = (count, word) => `${count} ${word}${count === 1 ? "" : "s"}`;

// ---- the connection

const address = new URL(location);
const token = address.searchParams.get("token") ?? sessionStorage.getItem("token");
if (token !== null) sessionStorage.setItem("token", token);
history.replaceState(null, "", address.pathname + address.hash);
const protocols = location.protocol === "http:" && token !== null ? ["kolasieve", token] : ["kolasieve"];
let socket = null, tries = 0, silence = 0, asking = 0;

function connect() {
  const made = socket = new WebSocket(`${location.origin.replace("http", "ws")}/watch`, protocols);
  made.onopen = () => { tries = 0; setTrouble(""); if (chosen !== null) watch(chosen); };
  made.onmessage = (event) => { expectMore(); take(JSON.parse(event.data)); };
  made.onclose = () => { if (socket === made) lose(); };
  expectMore();
}

function expectMore() {
  clearTimeout(silence);
  silence = setTimeout(() => { const silent = socket; lose(); silent.close(); }, SILENCE);
}

function lose() {
  clearTimeout(silence);
  socket = null;
  if (tries > 0 || scene.session !== null) setTrouble("The connection to the relay is lost. What is shown may be old. It is tried again.");
  setTimeout(reconnect, PAUSES[Math.min(tries++, PAUSES.length - 1)]);
}

// A browser doesn't say why a connection is refused, so the token is tried first.
async function reconnect() {
  try {
    const headers = token === null ? {} : { Authorization: `Bearer ${token}` };
    const reply = await fetch("/token", { headers });
    if (reply.status === 403) {
      setTrouble("The relay has another token now. Open the page by the address that the relay's messages have.");
      return;
    }
    connect();
  } catch {
    lose();
  }
}

function setTrouble(text) {
  part("trouble").hidden = text === "";
  setText(part("trouble"), text);
}

function take(message) {
  if (message.types) { types = message.types; colours = message.colours; }
  if (message.sessions) takeSessions(message.sessions);
  if (message.session === chosen && message.session !== undefined) takeScene(message);
}

// ---- sessions

function takeSessions(found) {
  const rank = (row) => [row.state === "here" ? 0 : 1, -(row.marks ?? 0)];
  sessions = found.sort((one, other) => {
    const [here, marks] = rank(one), [there, others] = rank(other);
    return here - there || marks - others || (one.title < other.title ? -1 : 1);
  });
  if (chosen === null) {
    const wanted = new URLSearchParams(location.hash.slice(1)).get("session");
    const first = sessions.find((row) => row.title === wanted) ?? sessions.find((row) => row.state === "here");
    if (first) watch(first.title);
  }
  showSessions();
  showFacts();
}

function watch(title) {
  if (chosen !== title) {
    chosen = title;
    view = views.get(title) ?? null;
    Object.assign(scene, NOTHING);
    current = null;
    history.replaceState(null, "", `${location.pathname}#session=${encodeURIComponent(title)}`);
    showAll();
  }
  if (socket?.readyState === WebSocket.OPEN) socket.send(JSON.stringify({ watch: title }));
}

const nameOf = (row) => (sessions.some((other) => other.owner !== row.owner) ? row.title : row.name);

function showSessions() {
  const known = new Map([...part("sessions").children].map((item) => [item.dataset.title, item]));
  arrange(part("sessions"), sessions.map((row) => {
    const item = known.get(row.title) ?? element("li");
    item.dataset.title = row.title;
    if (row.state === "here") showLive(item, row);
    else showAway(item, row);
    return item;
  }));
}

function showLive(item, row) {
  let button = item.querySelector("button");
  if (!button) {
    button = element("button", { onclick: () => { watch(row.title); showSessions(); } }, element("span"), element("span"));
    item.className = "";
    item.replaceChildren(button);
  }
  const [name, marks] = button.children;
  setText(name, nameOf(row));
  setText(marks, row.marks === undefined || row.marks === null ? "" : counted(row.marks, "mark"));
  button.className = `${row.marks > 0 ? "is-marked" : ""} ${row.areas ? "is-unchecked" : ""}`;
  button.title = row.areas ? "some of it is unchecked" : "";
  button.setAttribute("aria-current", String(row.title === chosen));
}

function showAway(item, row) {
  item.className = "away";
  const how = row.state === "left" ? ["left; who owns it resumes it by", element("code", { textContent: `@resume ${row.name}` })] : [row.state];
  item.replaceChildren(`${nameOf(row)}: `, ...how);
}

// ---- the scene

function takeScene(message) {
  if (message.fault !== undefined) {
    setTrouble(`This session can't be drawn: ${message.fault}`);
    return;
  }
  if (message.near !== undefined) {
    scene.near = { rules: message.rules, unknown: message.unknown, lists: new Map(Object.entries(message.lists)) };
    showAll();
    return;
  }
  if (message.since === undefined) scene.lists = new Map(Object.entries(message.lists));
  else if (scene.session !== message.session || scene.version !== message.since) return watch(chosen);
  else for (const [name, change] of Object.entries(message.lists)) changeList(name, change);
  for (const key of ["session", "version", "uses", "rules", "unknown", "bounds", "share"]) if (key in message) scene[key] = message[key];
  setTrouble("");
  if (view === null) fit();
  askNear();
  showAll();
}

// Where all rules forbid more than can be told at once, what they forbid of what is seen is asked.
function askNear() {
  clearTimeout(asking);
  if (scene.unknown === null) { scene.near = null; return; }
  asking = setTimeout(() => {
    const [column, bottom] = squareAt(0, canvas.clientHeight), [right, row] = squareAt(canvas.clientWidth, 0);
    const cut = (number) => within(-WORLD, number, WORLD), near = [cut(column), cut(bottom), cut(right + 1), cut(row + 1)];
    if (socket?.readyState === WebSocket.OPEN) socket.send(JSON.stringify({ near }));
  }, 300);
}

function changeList(name, change) {
  if (change === null) { scene.lists.delete(name); return; }
  const gone = new Set(change.gone), before = scene.lists.get(name) ?? [];
  const kept = before.filter((_, place) => !gone.has(place >> 2));
  scene.lists.set(name, kept.concat(change.new));
}

const list = (name) => scene.lists.get(name) ?? [];

function* rectangles(flat) {
  for (let i = 0; i < flat.length; i += 4) yield [flat[i], flat[i + 1], flat[i + 2], flat[i + 3]];
}

const rulesNow = () => scene.near ?? scene;
const ruleNumbers = () => Object.keys(rulesNow().rules).sort((one, other) => one - other);
const textOf = (rule) => rulesNow().rules[rule] || `rule ${rule}`;

// ---- the view: the square in the middle, and how many pixels a square has

const leastScale = () => (Math.min(canvas.clientWidth, canvas.clientHeight) * 0.9) / (2 * WORLD);
const within = (least, number, most) => Math.min(Math.max(number, least), most);

function setView(x, y, scale) {
  view = { x: within(-WORLD, x, WORLD), y: within(-WORLD, y, WORLD), scale: within(leastScale(), scale, MOST_SCALE) };
  if (chosen !== null) views.set(chosen, view);
  if (scene.unknown !== null) askNear();
  redraw();
}

function fitTo([left, bottom, right, top], share) {
  const scale = share * Math.min(canvas.clientWidth / (right - left), canvas.clientHeight / (top - bottom));
  setView((left + right) / 2, (bottom + top) / 2, scale);
}

function fit() { fitTo(scene.bounds ?? [-50, -50, 50, 50], 0.85); }

function zoomAt(x, y, by) {
  const right = x - canvas.clientWidth / 2, up = canvas.clientHeight / 2 - y;
  const scale = within(leastScale(), view.scale * by, MOST_SCALE);
  setView(view.x + right / view.scale - right / scale, view.y + up / view.scale - up / scale, scale);
}

function zoomInMiddle(by) { zoomAt(canvas.clientWidth / 2, canvas.clientHeight / 2, by); }

function move(right, down) { setView(view.x - right / view.scale, view.y + down / view.scale, view.scale); }

// Returns left, top, right and bottom in pixels, cut a little beyond the drawing; nothing where none of it is seen.
function pixels(left, bottom, right, top, least) {
  const width = canvas.clientWidth, height = canvas.clientHeight;
  let x = (left - view.x) * view.scale + width / 2, toX = (right - view.x) * view.scale + width / 2;
  let y = height / 2 - (top - view.y) * view.scale, toY = height / 2 - (bottom - view.y) * view.scale;
  if (toX - x < least) { x = (x + toX - least) / 2; toX = x + least; }
  if (toY - y < least) { y = (y + toY - least) / 2; toY = y + least; }
  if (toX < 0 || x > width || toY < 0 || y > height) return null;
  const snapped = (number, most) => Math.round(within(-9, number, most + 9));
  x = snapped(x, width); y = snapped(y, height);
  return [x, y, Math.max(snapped(toX, width), x + 1), Math.max(snapped(toY, height), y + 1)];
}

// ---- drawing

const planes = [], fills = new Map(), TILE = 8;

function tile(draw) {
  const made = element("canvas", { width: TILE, height: TILE });
  draw(made.getContext("2d"));
  return pen.createPattern(made, "repeat");
}

function slant(brush, colour, width) {
  brush.strokeStyle = colour;
  brush.lineWidth = width;
  brush.beginPath();
  for (const start of [-TILE, 0, TILE]) { brush.moveTo(start, TILE); brush.lineTo(start + TILE, 0); }
  brush.stroke();
}

// The patterns of the types after the eight, the sixteen and so on that have each colour before.
const PATTERNS = [
  (brush, colour) => slant(brush, colour, 2),
  (brush, colour) => { brush.setTransform(-1, 0, 0, 1, TILE, 0); slant(brush, colour, 2); },
  (brush) => brush.fillRect(0, 0, TILE, 3),
  (brush) => brush.fillRect(0, 0, 3, TILE),
  (brush) => { brush.fillRect(0, 0, TILE, 2); brush.fillRect(0, 0, 2, TILE); },
  (brush) => { brush.fillRect(0, 0, 3, 3); brush.fillRect(4, 4, 3, 3); },
  (brush) => { brush.fillRect(0, 0, TILE, TILE); brush.clearRect(2, 2, 4, 4); brush.globalAlpha = 0.1; brush.fillRect(2, 2, 4, 4); },
];

function fillOf(number) {
  if (!fills.has(number)) {
    const colour = colours[(number - 1) % colours.length], pattern = Math.floor((number - 1) / colours.length);
    fills.set(number, pattern === 0 ? colour : tile((brush) => {
      brush.fillStyle = "#fff";
      brush.fillRect(0, 0, TILE, TILE);
      brush.fillStyle = colour;
      brush.globalAlpha = 0.25;
      brush.fillRect(0, 0, TILE, TILE);
      brush.globalAlpha = 1;
      PATTERNS[(pattern - 1) % PATTERNS.length](brush, colour);
    }));
  }
  return fills.get(number);
}

const hatch = tile((brush) => slant(brush, RED, 2));

function redraw() {
  if (!dirty) requestAnimationFrame(draw);
  dirty = true;
}

function draw() {
  dirty = false;
  const width = canvas.clientWidth, height = canvas.clientHeight;
  if (!width || !height) return;
  const ratio = window.devicePixelRatio || 1;
  sized(canvas, pen, ratio);
  pen.fillStyle = "#eee";
  pen.fillRect(0, 0, width, height);
  if (view === null) return;
  const world = pixels(-WORLD, -WORLD, WORLD, WORLD, 0);
  pen.fillStyle = "#fff";
  if (world) fillBox(pen, world);
  drawPlanes(ratio);
  drawUnchecked();
  drawMarks();
  showMeasure();
}

function sized(target, brush, ratio) {
  const width = Math.round(canvas.clientWidth * ratio), height = Math.round(canvas.clientHeight * ratio);
  if (target.width !== width) target.width = width;
  if (target.height !== height) target.height = height;
  brush.setTransform(ratio, 0, 0, ratio, 0, 0);
}

function fillBox(brush, [x, y, toX, toY]) { brush.fillRect(x, y, toX - x, toY - y); }

// What is in front on a plane hides what is behind it there, also where it isn't shown; planes shine through each other.
function drawPlanes(ratio) {
  const count = 1 + Math.max(0, ...types.map((type) => type.plane));
  while (planes.length < count) planes.push(element("canvas").getContext("2d"));
  const shown = [...scene.lists.keys()].filter((name) => /^(own|cell) /.test(name)).map((name) => [name, ...name.split(" ")]);
  for (let plane = 0; plane < count; plane++) {
    const brush = planes[plane];
    sized(brush.canvas, brush, ratio);
    brush.clearRect(0, 0, canvas.clientWidth, canvas.clientHeight);
    const here = shown.filter(([, , number]) => types[number - 1].plane === plane);
    for (const [cell, right, up] of scene.uses) {
      for (const [name, what, number, of] of here) if (what === "cell" && of === cell) fillAll(brush, name, number, right, up);
    }
    for (const [name, what, number] of here) if (what === "own") fillAll(brush, name, number, 0, 0);
    pen.globalAlpha = 0.7;
    pen.drawImage(brush.canvas, 0, 0, canvas.clientWidth, canvas.clientHeight);
    pen.globalAlpha = 1;
  }
}

function fillAll(brush, name, number, right, up) {
  const flat = list(name), fill = fillOf(Number(number)), isHidden = hidden.has(`type ${number}`);
  // A pattern moves with the layout.
  fill.setTransform?.(new DOMMatrix().translate(Math.round(-view.x * view.scale) % TILE, Math.round(view.y * view.scale) % TILE));
  brush.fillStyle = fill;
  for (let i = 0; i < flat.length; i += 4) {
    const box = pixels(flat[i] + right, flat[i + 1] + up, flat[i + 2] + right, flat[i + 3] + up, 1);
    if (box && isHidden) brush.clearRect(box[0], box[1], box[2] - box[0], box[3] - box[1]);
    else if (box) fillBox(brush, box);
  }
}

function drawUnchecked() {
  if (hidden.has("unchecked")) return;
  pen.strokeStyle = GREY;
  pen.lineWidth = 1.5;
  pen.setLineDash([6, 4]);
  for (const rect of rectangles(list("unchecked"))) strokeBox(pixels(...rect, LEAST_MARK));
  pen.setLineDash([]);
}

function strokeBox(box, beyond = 0) {
  if (box) pen.strokeRect(box[0] - beyond + 0.5, box[1] - beyond + 0.5, box[2] - box[0] + 2 * beyond - 1, box[3] - box[1] + 2 * beyond - 1);
}

function drawMarks() {
  if (hidden.has("marks")) return;
  pen.fillStyle = hatch;
  pen.strokeStyle = RED;
  pen.lineWidth = 1;
  for (const rect of rectangles(list("marks"))) {
    const box = pixels(...rect, LEAST_MARK);
    if (box) { fillBox(pen, box); strokeBox(box); }
  }
  if (current === null) return;
  pen.strokeStyle = "#000";
  pen.lineWidth = 2;
  strokeBox(pixels(...current.rect, LEAST_MARK), 4);
}

// ---- beside the drawing

function showAll() {
  if (current && ![...rectangles(rectsOf(current.rule))].some((rect) => String(rect) === String(current.rect))) current = null;
  showLegend();
  showRules();
  showTable();
  showFacts();
  redraw();
}

function showFacts() {
  const row = sessions.find((each) => each.title === chosen), facts = [];
  const name = row ? nameOf(row) : chosen ?? "Kolasieve";
  setText(part("name"), name);
  document.title = name;
  const fact = (text, className = "") => facts.push(element("span", { textContent: text, className }));
  if (chosen !== null && !row) fact("not there; what is shown is old");
  else if (!row) fact(sessions.length ? "no session is in use" : "there are no sessions yet");
  else if (row.state !== "here") fact(row.state === "left" ? `left; what is shown is old; @resume ${row.name} resumes it` : row.state);
  if (scene.session !== null) {
    const marks = list("marks").length / 4;
    fact(counted(marks, "mark"), marks ? "marks" : "");
    if (scene.share > 0) fact(`${scene.share / 10} % unchecked`);
    else fact("all checked", "checked");
    if (row?.entries !== undefined) fact(`${row.entries} of ${row.most} entries`);
  }
  if (part("facts").textContent !== facts.map((each) => each.textContent).join("")) part("facts").replaceChildren(...facts);
  canvas.setAttribute("aria-label", scene.session === null ? "No layout" : `Layout of ${name}: ${facts.map((each) => each.textContent).join(", ")}`);
}

function showLegend() {
  const numbers = new Set([...scene.lists.keys()].filter((name) => /^(own|cell) /.test(name)).map((name) => Number(name.split(" ")[1])));
  const entries = [...numbers].sort((one, other) => one - other).map((number) => [`type ${number}`, types[number - 1].name]);
  entries.push(["marks", "marks"], ["unchecked", "unchecked"]);
  const known = new Map([...part("layers").children].map((item) => [item.dataset.key, item]));
  arrange(part("layers"), entries.map(([key, name]) => known.get(key) ?? legendEntry(key, name)));
}

function legendEntry(key, name) {
  const box = element("input", { type: "checkbox", checked: !hidden.has(key), onchange: () => {
    if (box.checked) hidden.delete(key);
    else hidden.add(key);
    redraw();
  } });
  const swatch = element("canvas", { width: 24, height: 14 }), brush = swatch.getContext("2d");
  if (key === "unchecked") {
    brush.setLineDash([4, 3]);
    brush.strokeStyle = GREY;
    brush.strokeRect(1.5, 1.5, 21, 11);
  } else {
    if (key === "marks") brush.fillStyle = hatch;
    else { brush.globalAlpha = 0.7; brush.fillStyle = fillOf(Number(key.split(" ")[1])); }
    brush.fillRect(0, 0, 24, 14);
  }
  const item = element("li", {}, element("label", {}, box, swatch, element("span", { textContent: name })));
  item.dataset.key = key;
  return item;
}

function showMeasure() {
  let squares = 1;
  for (let power = 1; power * view.scale <= LONGEST_BAR; power *= 10) {
    for (const digit of [1, 2, 5]) if (digit * power * view.scale <= LONGEST_BAR) squares = digit * power;
  }
  part("bar").style.width = `${Math.round(squares * view.scale)}px`;
  setText(part("length"), counted(squares, "square"));
  const at = pointer && squareAt(...pointer);
  setText(part("place"), at ? `${at[0]} ${at[1]}` : "");
}

function squareAt(x, y) {
  return [Math.floor(view.x + (x - canvas.clientWidth / 2) / view.scale), Math.floor(view.y + (canvas.clientHeight / 2 - y) / view.scale)];
}

// ---- marks

const rectsOf = (rule) => (rule === null ? list("marks") : rulesNow().lists.get(`rule ${rule}`) ?? []);

function showRules() {
  const known = new Map([...part("rules").children].map((item) => [item.dataset.key, item]));
  const entries = [[null, "all"], ...ruleNumbers().map((number) => [number, textOf(number)])];
  arrange(part("rules"), entries.filter(([rule]) => rectsOf(rule).length).map(([rule, text]) => {
    const key = String(rule);
    const item = known.get(key) ?? element("li", {}, element("button", { onclick: () => goOn(rule, 1) }, element("span"), element("span")));
    item.dataset.key = key;
    setText(item.firstChild.firstChild, text);
    setText(item.firstChild.lastChild, String(rectsOf(rule).length / 4));
    return item;
  }));
  part("unknown").hidden = scene.unknown === null;
  setText(part("unknown"), scene.near && !scene.near.unknown ? "These are of what is seen: there are too many." : "Zoom in to see which rules forbid these squares: there are too many.");
}

// Goes to the next mark of a rule, or of all, after the one that was gone to last.
function goOn(rule, by) {
  const flat = rectsOf(rule), count = flat.length / 4;
  if (!count) return;
  const before = current?.rule === rule ? current.place : by > 0 ? -1 : 0;
  const place = (before + by + count) % count;
  goTo(rule, place, flat.slice(4 * place, 4 * place + 4));
}

function goTo(rule, place, rect) {
  current = { rule, place, rect };
  const [left, bottom, right, top] = rect, side = Math.max(right - left, top - bottom);
  const seen = side * view.scale;
  if (seen < LEAST_MARK || seen > Math.min(canvas.clientWidth, canvas.clientHeight)) fitTo(rect, 0.3);
  else setView((left + right) / 2, (bottom + top) / 2, view.scale);
  for (const item of part("rules").children) item.firstChild.setAttribute("aria-current", String(item.dataset.key === String(rule)));
  pointer = [canvas.clientWidth / 2, canvas.clientHeight / 2];
  showTooltip();
}

function showTable() {
  if (!part("table").open) return;
  const named = ruleNumbers().flatMap((rule) => [...rectangles(rectsOf(rule))].map((rect, place) => [rule, place, rect]));
  const all = named.length ? named : [...rectangles(list("marks"))].map((rect, place) => [null, place, rect]);
  const rows = all.slice(0, MOST_ROWS).map(([rule, place, rect]) => {
    const button = element("button", { textContent: rule === null ? "mark" : textOf(rule), onclick: () => goTo(rule, place, rect) });
    return element("tr", {}, element("td", {}, button), ...rect.map((number) => element("td", { textContent: number })));
  });
  if (all.length > MOST_ROWS) rows.push(element("tr", {}, element("td", { colSpan: 5, textContent: `and ${all.length - MOST_ROWS} more` })));
  part("rows").replaceChildren(...rows);
}

const covers = (box, x, y) => box !== null && box[0] <= x && x < box[2] && box[1] <= y && y < box[3];
const isOver = (flat, x, y) => [...rectangles(flat)].some((rect) => covers(pixels(...rect, LEAST_MARK), x, y));

function showTooltip() {
  const tip = part("tooltip"), lines = [];
  if (pointer && view && !held.size && !hidden.has("marks") && isOver(list("marks"), ...pointer)) {
    lines.push(...ruleNumbers().filter((rule) => isOver(rectsOf(rule), ...pointer)).map(textOf));
    if (!lines.length) lines.push("forbidden");
    const [column, row] = squareAt(...pointer);
    const waits = [...rectangles(list("unchecked"))].some(([l, b, r, t]) => l <= column && column < r && b <= row && row < t);
    if (waits) lines.push("(unchecked: this may have changed)");
  }
  tip.hidden = !lines.length;
  if (!lines.length) return;
  setText(tip, lines.join("\n"));
  const beyond = (at, size, room) => (at + 14 + size > room ? Math.max(0, at - 10 - size) : at + 14);
  tip.style.left = `${beyond(pointer[0], tip.offsetWidth, canvas.clientWidth)}px`;
  tip.style.top = `${beyond(pointer[1], tip.offsetHeight, canvas.clientHeight)}px`;
}

// ---- hands and keys

const held = new Map(), apart = ([x, y], [toX, toY]) => Math.hypot(toX - x, toY - y);

function placeOf(event) {
  const frame = canvas.getBoundingClientRect();
  return [event.clientX - frame.left, event.clientY - frame.top];
}

canvas.addEventListener("wheel", (event) => {
  event.preventDefault();
  if (view === null) return;
  const lines = event.deltaMode === 0 ? 1 : 30;
  zoomAt(...placeOf(event), Math.exp(-within(-300, event.deltaY * lines, 300) / 400));
  showTooltip();
}, { passive: false });

canvas.addEventListener("pointerdown", (event) => {
  canvas.setPointerCapture(event.pointerId);
  held.set(event.pointerId, placeOf(event));
});

canvas.addEventListener("pointermove", (event) => {
  const now = pointer = placeOf(event), before = held.get(event.pointerId);
  if (view === null) return;
  if (before) {
    const other = [...held].find(([id]) => id !== event.pointerId)?.[1], share = other ? 0.5 : 1;
    move(share * (now[0] - before[0]), share * (now[1] - before[1]));
    if (other) zoomAt((now[0] + other[0]) / 2, (now[1] + other[1]) / 2, apart(now, other) / Math.max(1, apart(before, other)));
    held.set(event.pointerId, now);
  }
  showMeasure();
  showTooltip();
});

for (const kind of ["pointerup", "pointercancel"]) {
  canvas.addEventListener(kind, (event) => { held.delete(event.pointerId); pointer = placeOf(event); if (view) showTooltip(); });
}

canvas.addEventListener("pointerleave", () => { pointer = null; if (view) { showMeasure(); showTooltip(); } });

const KEYS = {
  f: fit, "+": () => zoomInMiddle(1.5), "=": () => zoomInMiddle(1.5), "-": () => zoomInMiddle(1 / 1.5),
  n: () => goOn(current?.rule ?? null, 1), p: () => goOn(current?.rule ?? null, -1),
  ArrowLeft: () => move(STEP, 0), ArrowRight: () => move(-STEP, 0), ArrowUp: () => move(0, STEP), ArrowDown: () => move(0, -STEP),
};

document.addEventListener("keydown", (event) => {
  const key = event.key.length === 1 ? event.key.toLowerCase() : event.key;
  if (event.ctrlKey || event.metaKey || event.altKey || view === null || !Object.hasOwn(KEYS, key)) return;
  // Where a list is scrolled by arrows they stay its own.
  if (key.startsWith("Arrow") && event.target.closest("nav, aside, #legend")) return;
  event.preventDefault();
  KEYS[key]();
});

for (const [id, key] of [["fit", "f"], ["closer", "+"], ["farther", "-"]]) part(id).onclick = () => { if (view) KEYS[key](); };
part("table").addEventListener("toggle", showTable);
part("legend").open = window.innerWidth > 760;
new ResizeObserver(redraw).observe(canvas);

if (location.protocol === "http:" && token === null) setTrouble("Open the page by the address that the relay's messages have: it ends in a token.");
else reconnect();
