// What the reader does: points, clicks, searches, and keys.

const ladder = document.getElementById("ladder"), sheet = document.getElementById("sheet");
const state = {on: -1, lit: new Set(), sorts: new Set(sorts), matches: null, at: null};
const byRequest = new Map(), byExchange = new Map(), byFirst = new Map();

function index() {
  const add = (map, key, place) => map.has(key) ? map.get(key).push(place) : map.set(key, [place]);
  rows.forEach((row, place) => {
    if (row[REQUEST]) add(byRequest, row[REQUEST], place);
    if (row[EXCHANGE]) add(byExchange, row[EXCHANGE], place);
    if (row[FIRST] >= 0) add(byFirst, row[FIRST], place);
  });
}

// All that belongs to a row: to a request its own rows, what goes to the origin for it, and the request that it joined;
// to a row of an origin all of the exchange; to a hit the answer that was kept.
function belonging(place) {
  const row = rows[place], out = new Set([place, ...(byFirst.get(place) || [])]);
  if (row[FIRST] >= 0) [row[FIRST], ...byFirst.get(row[FIRST])].forEach(it => out.add(it));
  (byRequest.get(row[REQUEST]) || []).forEach(it => out.add(it));
  const all = byExchange.get(row[EXCHANGE]) || [];
  all.filter(it => !row[REQUEST] || !rows[it][REQUEST]).forEach(it => out.add(it));
  if (all.length) out.add(all[0]);
  for (const it of [...out]) {
    const kept = rows[it][SOURCE] ? byExchange.get(rows[it][SOURCE]) || [] : [];
    kept.filter(other => partOf(other, WORDS).endsWith(" kept")).forEach(other => out.add(other));
  }
  return out;
}

// ---- drawing

function ties(from, to) {
  const out = new Map();
  const want = (first, again) => {
    const ends = {order: orderOf(first), later: orderOf(again)};
    if (ends.order >= 0 && ends.later >= 0) out.set(again, tie(ends, again, state.at));
  };
  for (let order = from; order < to; order++) {
    const place = view.shown[order], row = rows[place];
    if (row[FIRST] >= 0) want(row[FIRST], place);
    const later = byFirst.get(place);
    if (later) want(place, later[later.length - 1]);
  }
  return [...out.values()];
}

function draw() {
  const top = Math.max(0, ladder.scrollTop - 60), height = ladder.clientHeight + 120;
  const from = Math.max(0, firstFrom(view.shown.length, n => view.tops[n] + view.step < top));
  const to = firstFrom(view.shown.length, n => view.tops[n] <= top + height);
  const low = Math.max(0, Math.floor(top)), high = Math.min(view.height, top + height);
  const svg = make("svg", {width: state.at.all, height: Math.max(1, high - low),
    viewBox: `0 ${low} ${state.at.all} ${Math.max(1, high - low)}`, role: "presentation"});
  svg.style.top = `${low}px`;
  for (let order = from; order < to; order++) {
    if (state.lit.has(view.shown[order])) svg.append(shade(order, state.at));
  }
  svg.append(...lifelines(low, high, state.at), ...ties(from, to));
  for (let order = from; order < to; order++) svg.append(drawnRow(view.shown[order], order, state.at, state));
  sheet.replaceChildren(svg);
  if (state.on >= 0) ladder.setAttribute("aria-activedescendant", `row-${state.on}`);
  else ladder.removeAttribute("aria-activedescendant");
}

let waits = false;

function drawSoon() {
  if (waits) return;
  waits = true;
  requestAnimationFrame(() => {
    waits = false;
    draw();
  });
}

// The strip beside the ladder: where something went wrong, and what is lit.
function drawRuler() {
  const ruler = document.getElementById("ruler"), height = ladder.clientHeight, context = ruler.getContext("2d");
  ruler.height = height;
  ruler.style.height = `${height}px`;
  const colour = name => getComputedStyle(document.documentElement).getPropertyValue(name);
  const mark = (place, width) => {
    const order = orderOf(place);
    if (order >= 0) context.fillRect((14 - width) / 2, view.tops[order] / view.height * height, width, 2);
  };
  context.fillStyle = colour("--error");
  troubles.all.forEach(place => mark(place, 8));
  context.fillStyle = colour("--miss");
  state.lit.forEach(place => mark(place, 14));
}

// Places and draws all anew, and keeps what stands in the middle where it is.
function layOut() {
  const middle = view.shown[firstFrom(view.shown.length, n => view.tops[n] < ladder.scrollTop)];
  const keep = state.on >= 0 ? state.on : middle;
  view.shown = [];
  rows.forEach((row, place) => {
    if (state.sorts.has(sorts[row[SORT]]) && (!state.matches || state.matches.has(place))) view.shown.push(place);
  });
  state.at = lanePlaces(ladder.clientWidth);
  view.step = state.at.narrow ? 56 : 44;
  placeRows();
  sheet.style.height = `${view.height}px`;
  sheet.style.width = `${state.at.all}px`;
  document.getElementById("heads").replaceChildren(laneHeads(state.at));
  if (keep !== undefined && orderOf(keep) >= 0) ladder.scrollTop = view.tops[orderOf(keep)] - ladder.clientHeight / 3;
  draw();
  drawRuler();
}

// ---- choosing rows

function reveal(place) {
  const order = orderOf(place), top = view.tops[order], low = ladder.scrollTop, room = ladder.clientHeight - 60;
  if (order < 0) return;
  if (top < low + 8 || top + view.step > low + room) ladder.scrollTop = top - room / 3;
}

// Makes a row the chosen one. One that isn't shown is shown again.
function choose(place, light) {
  if (place < 0) return;
  state.on = place;
  if (light) state.lit = belonging(place);
  if (orderOf(place) < 0) showAll();
  reveal(place);
  draw();
  drawRuler();
  showDatagram(place);
  showTroubles(lightUp, place);
  document.getElementById("said").textContent = sentence(place);
  history.replaceState(null, "", `#${place + 1}`);
}

function lightUp(place) {
  choose(place, true);
}

function putOut() {
  state.lit = new Set();
  state.on = -1;
  history.replaceState(null, "", "#");
  showAll();
  showDatagram(-1);
  showTroubles(lightUp, -1);
}

// Leaves only what is lit to be seen, or shows all again.
function toggleLit() {
  if (state.matches || !state.lit.size) showAll();
  else {
    state.matches = new Set(state.lit);
    layOut();
  }
  showDatagram(state.on);
}

function showAll() {
  sorts.forEach(sort => state.sorts.add(sort));
  state.matches = null;
  document.getElementById("only").checked = false;
  showSorts();
  layOut();
}

function step(count) {
  const order = state.on < 0 ? firstFrom(view.shown.length, n => view.tops[n] < ladder.scrollTop) - (count > 0 ? 1 : 0)
    : orderOf(state.on);
  const next = Math.min(view.shown.length - 1, Math.max(0, order + count));
  choose(view.shown[next] === undefined ? -1 : view.shown[next], false);
}

// The next of some rows, which are in order, after the chosen one; after the last comes the first.
function stepAmong(places, forward) {
  if (!places.length) return;
  const next = forward ? places.find(it => it > state.on) : [...places].reverse().find(it => it < state.on);
  choose(next === undefined ? places[forward ? 0 : places.length - 1] : next, places === troubles.all);
}

// ---- search

function matchesOf(text) {
  const words = text.toLowerCase().split(/\s+/).filter(word => word);
  if (!words.length) return [];
  const lower = strings.map(it => it.toLowerCase()), names = lanes.map(lane => `${lane[0]}\t${lane[1]}`.toLowerCase());
  const hits = words.map(word => [lower.map(it => it.includes(word)), names.map(it => it.includes(word))]);
  const parts = [HEAD, DETAIL, NOTE, TROUBLE, TARGET, WORDS];
  const has = (row, [texts, peers]) => row[LANE] >= 0 && peers[row[LANE]] || parts.some(part => texts[row[part]])
    || row[FIELDS].some(field => texts[field]);
  const out = [];
  rows.forEach((row, place) => {
    if (hits.every(hit => has(row, hit))) out.push(place);
  });
  return out;
}

const search = {text: "", places: []};

function look() {
  const text = document.getElementById("words").value, only = document.getElementById("only").checked;
  if (text !== search.text) {
    search.text = text;
    search.places = matchesOf(text);
    troubles.found = text.trim() ? new Set(search.places) : null;
    groupTroubles();
    showTroubles(lightUp, state.on);
  }
  const found = search.places;
  document.getElementById("found").textContent = text.trim() ? `${found.length.toLocaleString("en")} found` : "";
  const wanted = only && text.trim() ? new Set() : null;
  if (wanted) found.forEach(place => belonging(place).forEach(it => wanted.add(it)));
  if (wanted || state.matches) {
    state.matches = wanted;
    layOut();
  }
}

// ---- the buttons above

function showSorts() {
  const box = document.getElementById("sorts");
  const texts = {hit: ["Hit", "from the cache"], miss: ["Miss", "asked of the origin"],
    validation: ["Validated", "at the origin"], error: ["Error", "went wrong"], plain: ["Other", ""]};
  const counts = new Map(sorts.map(sort => [sort, 0]));
  rows.forEach(row => counts.set(sorts[row[SORT]], counts.get(sorts[row[SORT]]) + 1));
  box.replaceChildren(...Object.keys(texts).filter(sort => counts.get(sort)).map(sort => {
    const button = html("button", "", signAlone(sort), html("span", "long", texts[sort][0]),
      html("b", "", counts.get(sort).toLocaleString("en")));
    button.type = "button";
    button.title = `${texts[sort].join(" ").trim()}: shown or not`;
    button.setAttribute("aria-label", `${texts[sort].join(" ").trim()}: ${counts.get(sort)} datagrams`);
    button.setAttribute("aria-pressed", state.sorts.has(sort));
    button.addEventListener("click", () => {
      if (!state.sorts.delete(sort)) state.sorts.add(sort);
      showSorts();
      layOut();
    });
    return button;
  }));
}

function toggleScale() {
  view.scaled = !view.scaled;
  document.getElementById("scale").setAttribute("aria-pressed", view.scaled);
  layOut();
}

function zoom(factor) {
  view.perSecond = Math.min(1e5, Math.max(0.01, view.perSecond * factor));
  if (!view.scaled) toggleScale();
  else layOut();
}

const KEYS = {
  ArrowDown: () => step(1), j: () => step(1), ArrowUp: () => step(-1), k: () => step(-1),
  PageDown: () => step(10), PageUp: () => step(-10), Home: () => choose(view.shown.length ? view.shown[0] : -1),
  End: () => choose(view.shown.length ? view.shown[view.shown.length - 1] : -1),
  Enter: () => choose(state.on, true), " ": () => choose(state.on, true),
  "]": () => stepAmong([...state.lit].sort((one, other) => one - other), true),
  "[": () => stepAmong([...state.lit].sort((one, other) => one - other), false),
  e: () => stepAmong(troubles.all, true), E: () => stepAmong(troubles.all, false),
  o: toggleLit, s: toggleScale, "+": () => zoom(2), "-": () => zoom(0.5), Escape: putOut,
  "/": () => document.getElementById("words").focus(), "?": () => document.getElementById("keys").showModal(),
};

function onKey(event) {
  const isText = event.target.matches("input[type=search]"), isButton = event.target.matches("button,input,dialog *");
  if (event.ctrlKey || event.metaKey || event.altKey || document.getElementById("keys").open) return;
  if (isText && event.key === "Escape") {
    event.target.blur();
    ladder.focus();
  }
  if (isText || isButton && [" ", "Enter"].includes(event.key) || !(event.key in KEYS)) return;
  event.preventDefault();
  KEYS[event.key]();
}

function placeAt(event) {
  const row = event.target.closest && event.target.closest(".row");
  return row ? Number(row.dataset.place) : -1;
}

function listen() {
  const on = (id, name, act) => document.getElementById(id).addEventListener(name, act);
  ladder.addEventListener("scroll", drawSoon, {passive: true});
  sheet.addEventListener("pointerover", event => {
    const place = placeAt(event);
    if (place >= 0 && event.pointerType === "mouse") showDatagram(place);
  });
  sheet.addEventListener("pointerleave", () => showDatagram(state.on));
  sheet.addEventListener("click", event => {
    lightUp(placeAt(event));
    if (state.at.narrow) document.getElementById("datagram").scrollIntoView({block: "nearest", inline: "start"});
  });
  on("words", "input", look);
  on("only", "change", look);
  on("search", "submit", event => {
    event.preventDefault();
    look();
    stepAmong(search.places, true);
  });
  on("scale", "click", toggleScale);
  on("more", "click", () => zoom(2));
  on("less", "click", () => zoom(0.5));
  on("help", "click", () => document.getElementById("keys").showModal());
  on("ruler", "click", event => {
    ladder.scrollTop = event.offsetY / ladder.clientHeight * view.height - ladder.clientHeight / 2;
  });
  document.addEventListener("keydown", onKey);
  new ResizeObserver(layOut).observe(ladder);
  matchMedia("(prefers-color-scheme: dark)").addEventListener("change", drawRuler);
}

index();
findTroubles();
showSorts();
showDatagram(-1);
showTroubles(lightUp, -1);
layOut();
listen();
if (/^#\d+$/.test(location.hash)) lightUp(Math.min(rows.length, Number(location.hash.slice(1))) - 1);
