// What is drawn: rows with their arrows, lifelines, cuts, and the lines to what is repeated. What peers chose gets into
// the page as text alone.

const SVG = "http://www.w3.org/2000/svg";

function make(name, attributes, text) {
  const it = document.createElementNS(SVG, name);
  for (const key in attributes) it.setAttribute(key, attributes[key]);
  if (text !== undefined) it.textContent = text;
  return it;
}

const ruleOfText = document.createElement("canvas").getContext("2d");
const widths = new Map();

function widthOf(text, font) {
  const key = font + text;
  if (!widths.has(key)) {
    if (widths.size > 20000) widths.clear();
    ruleOfText.font = font;
    widths.set(key, ruleOfText.measureText(text).width);
  }
  return widths.get(key);
}

const FAMILY = 'system-ui,-apple-system,"Segoe UI",Roboto,"DejaVu Sans",sans-serif';
const fonts = {head: `13px ${FAMILY}`, small: `11.5px ${FAMILY}`, note: `600 13px ${FAMILY}`};

// A text that is cut so that it fits. A mark of direction whose end was cut off is ended.
function fit(text, room, font) {
  if (widthOf(text, font) <= room) return text;
  const count = firstFrom(text.length, end => widthOf(text.slice(0, end + 1) + "…", font) <= room);
  const cut = text.slice(0, count).replace(/[\ud800-\udbff]$/, "");
  const open = cut.split("\u2068").length > cut.split("\u2069").length;
  return cut + (open ? "\u2069" : "") + "…";
}

// The shape of a sort: a full circle, a ring, a ring that is half full, a cross, or a dot.
function sign(x, y, sort) {
  const here = `M${x} ${y}`, ring = here + "m-5 0a5 5 0 1 0 10 0a5 5 0 1 0 -10 0z";
  if (sort === "hit") return [make("path", {class: "full", d: ring})];
  if (sort === "error") return [make("path", {class: "cross", d: here + "m-4.5 -4.5l9 9m-9 0l9 -9"})];
  if (sort === "plain") return [make("path", {class: "full", d: here + "m-3 0a3 3 0 1 0 6 0a3 3 0 1 0 -6 0z"})];
  const out = [make("path", {class: "ring", d: ring})];
  if (sort === "validation") out.push(make("path", {class: "full", d: here + "m0 -5a5 5 0 0 1 0 10z"}));
  return out;
}

// A sign by itself, in a page.
function signAlone(sort) {
  const it = make("svg", {class: "sign " + sort, viewBox: "-7 -7 14 14", "aria-hidden": "true"});
  it.append(...sign(0, 0, sort));
  return it;
}

function isLeft(place, at) {
  return at.x[rows[place][LANE]] < at.proxy;
}

// What is missing at the end of an arrow.
function lostText(row) {
  return row[LOST] ? row[INWARD] ? "no answer" : "no reply" : "";
}

function arrow(place, y, at) {
  const row = rows[place], peer = at.x[row[LANE]], noted = row[NOTE] !== 0;
  const [start, end] = row[INWARD] ? [peer, at.proxy] : [at.proxy, peer];
  const to = end > start ? 1 : -1, tip = end - to * (row[INWARD] && noted ? 9 : 2);
  const way = make("path", {class: row[EMPTY] ? "way thin" : "way", d: `M${start + to * 3} ${y}H${tip - to * 4}`});
  const out = [way, make("path", {class: "head", d: `M${tip} ${y}l${-to * 8.75} -3.9v7.8z`})];
  if (row[LOST] && !row[INWARD]) {
    const cross = make("g", {class: "error"});
    cross.append(...sign(end + to * (at.narrow ? 9 : 10), y, "error"));
    out.push(cross);
  }
  return out;
}

// What stands at an arrow: in the middle of it, or, where there is little room, at its side of the page.
function labels(place, y, at) {
  const row = rows[place], left = isLeft(place, at), lost = lostText(row);
  const middle = left ? (at.left + at.proxy) / 2 : (at.right + at.proxy) / 2;
  const x = at.narrow ? (left ? at.first : at.right) : middle;
  const anchor = at.narrow ? (left ? "start" : "end") : "middle";
  const room = at.narrow ? at.right - at.first - 64 : at.room - 24;
  const head = fit(strings[row[HEAD]], room, fonts.head);
  const out = [make("text", {x, y: y - 7, class: "halo", "text-anchor": anchor}, head)];
  const detailRoom = (at.narrow ? (row[NOTE] ? at.room - 8 : room) : at.room - 18) - (lost ? 62 : 0);
  const detail = fit(strings[row[DETAIL]], detailRoom, fonts.small);
  const below = make("text", {x, y: y + 15, class: "small halo", "text-anchor": anchor}, detail);
  if (lost) {
    if (detail) below.append(" · ");
    below.append(make("tspan", {class: "lost"}, lost));
  }
  if (detail || lost) out.push(below);
  return out;
}

function note(place, y, at) {
  const row = rows[place];
  if (!row[NOTE]) return [];
  const free = row[LANE] < 0 || isLeft(place, at) ? 1 : -1;
  const sort = row[FIRST] >= 0 && row[INWARD] ? "plain" : sorts[row[SORT]];
  const room = free > 0 ? at.all - at.proxy : at.proxy - at.first;
  const words = fit(strings[row[NOTE]], room - (at.narrow ? 24 : 32), fonts.note);
  const lower = at.narrow ? 15 : 4.5;
  return [...sign(at.proxy, y, sort), make("text", {x: at.proxy + free * (at.narrow ? 10 : 14), y: y + lower,
    class: "note halo", "text-anchor": free > 0 ? "start" : "end"}, words)];
}

// The time of a row, where it isn't that of the row above, and the names of peers where lanes have none.
function edges(place, above, y, at) {
  const row = rows[place], out = [], peer = row[LANE] < 0 ? null : lanes[row[LANE]];
  if (above < 0 || rows[above][MOMENT] !== row[MOMENT]) {
    const x = at.narrow ? (peer && peer[2] ? at.first : at.right) : at.times - 8;
    const anchor = at.narrow && peer && peer[2] ? "start" : "end";
    const height = y - (at.narrow ? 8 : -4);
    out.push(make("text", {x, y: height, class: "time", "text-anchor": anchor}, timeText(row[MOMENT])));
  }
  if (!peer || at.narrow) return out;
  if (!peer[2] && !at.namedClients) {
    const name = fit(peer[0], at.times - 14, fonts.small);
    out.push(make("text", {x: at.times - 8, y: y + 18, class: "small", "text-anchor": "end"}, name));
  }
  if (peer[2] && !at.namedOrigins) {
    const name = fit(peer[0], 112, fonts.small);
    out.push(make("text", {x: at.all - 10, y: y + 4, class: "small", "text-anchor": "end"}, name));
  }
  return out;
}

function sentence(place) {
  const row = rows[place], peer = row[LANE] < 0 ? "" : laneOf(place)[0];
  const way = row[LANE] < 0 ? "the proxy" : row[INWARD] ? `${peer} to the proxy` : `the proxy to ${peer}`;
  const parts = [strings[row[HEAD]], strings[row[DETAIL]], strings[row[NOTE]], lostText(row)];
  const again = row[FIRST] >= 0 ? "again, " : "";
  return `${timeText(row[MOMENT])}: ${again}${way}: ${parts.filter(part => part).join("; ")}`;
}

// A row as it is drawn, and, for who can't see it, as a sentence.
function drawnRow(place, order, at, state) {
  const row = rows[place], top = view.tops[order], y = top + view.step / 2 + (at.narrow ? 3 : 0);
  const lit = state.lit.size > 0, names = ["row", sorts[row[SORT]]];
  if (row[FIRST] >= 0) names.push("again");
  if (lit) names.push(state.lit.has(place) ? "lit" : "dim");
  if (state.on === place) names.push("on");
  const it = make("g", {class: names.join(" "), id: `row-${place}`, role: "option", "data-place": place,
    "aria-label": sentence(place), "aria-posinset": order + 1, "aria-setsize": view.shown.length,
    "aria-selected": state.on === place});
  it.append(make("rect", {class: "ground", x: 4, y: top + 1, width: at.all - 8, height: view.step - 2, rx: 6}));
  if (row[BYTES]) it.append(...arrow(place, y, at), ...labels(place, y, at));
  it.append(...note(place, y, at), ...edges(place, order ? view.shown[order - 1] : -1, y, at));
  return it;
}

// What is lit, below the lifelines.
function shade(order, at) {
  return make("rect", {class: "shade", x: 4, y: view.tops[order] + 1, width: at.all - 8, height: view.step - 2, rx: 6});
}

// The kind and the place of each lifeline. Of those that would touch each other some are left out.
function livesOf(at) {
  let before = -10;
  const out = [["life proxy", at.proxy]];
  for (const x of at.sides.flat().map(lane => at.x[lane]).sort((one, other) => one - other)) {
    if (x - before < 3) continue;
    out.push([x - before < 14 ? "life close" : "life", x]);
    before = x;
  }
  return out;
}

// The lines of all lanes between two heights, dotted where time is cut.
function lifelines(from, to, at) {
  const inside = view.cuts.slice(firstFrom(view.cuts.length, n => view.cuts[n][0] + BREAK < from),
    firstFrom(view.cuts.length, n => view.cuts[n][0] <= to));
  const out = inside.map(([top]) => make("rect", {class: "band", x: 0, y: top + 4, width: at.all, height: BREAK - 8}));
  const starts = [from, ...inside.map(([top]) => top + BREAK)], ends = [...inside.map(([top]) => top), to];
  for (const [kind, x] of livesOf(at)) {
    const parts = starts.map((start, n) => `M${x} ${start}V${Math.max(start, ends[n])}`);
    out.push(make("path", {class: kind, d: parts.join("")}));
    if (inside.length) {
      out.push(make("path", {class: kind + " cut", d: inside.map(([top]) => `M${x} ${top}v${BREAK}`).join("")}));
    }
  }
  for (const [top, idle] of inside) {
    const middle = at.narrow ? at.first : 18;
    out.push(make("text", {x: middle, y: top + BREAK / 2 + 4, class: "small halo"}, `${lengthText(idle)} later`));
  }
  return out;
}

// A thin line beside the sender's lifeline, from what is sent again to the first.
function tie(first, again, at) {
  const row = rows[again], x = row[INWARD] ? at.x[row[LANE]] : at.proxy;
  const top = view.tops[first.order] + view.step / 2, y = view.tops[first.later] + view.step / 2;
  const out = isLeft(again, at) === Boolean(row[INWARD]) ? -9 : 9;
  return make("path", {class: "tie " + sorts[row[SORT]],
    d: `M${x} ${top}q${out} 0 ${out} 9V${y - 9}q0 9 ${-out} 9`});
}

// What stands above the lanes of one side: a name for each, or how many there are.
function sideHeads(at, origin, put) {
  const here = at.sides[origin].map(place => [lanes[place], place]);
  const role = origin ? "origin" : "client", named = origin ? at.namedOrigins : at.namedClients;
  const edge = origin ? (at.narrow ? at.all - 14 : at.right - 20) : at.narrow ? 8 : at.first - 6;
  const anchor = origin && at.narrow ? "end" : "start";
  if (!here.length) return;
  if (!named) {
    put(edge, anchor, 130, `${here.length} ${role}s`, at.narrow ? "tap a row for its name" : "named at the edge");
    return;
  }
  const room = here.length > 1 ? (origin ? at.originGap : at.gap) - 4 : at.narrow ? 120 : 134;
  here.forEach(([lane, place]) => {
    const below = lane[0] === lane[1] ? role : at.narrow && here.length > 1 ? role : lane[1];
    if (at.narrow) put(origin ? edge : at.x[place] - 6, anchor, room, lane[0], below);
    else put(at.x[place], "middle", Math.max(130, room), lane[0], below);
  });
}

function laneHeads(at) {
  const it = make("svg", {width: at.all, height: 52});
  const put = (x, anchor, room, name, below) => {
    it.append(make("text", {x, y: 22, class: "name", "text-anchor": anchor}, fit(name, room, fonts.note)),
      make("text", {x, y: 39, class: "small", "text-anchor": anchor}, fit(below, room, fonts.small)));
  };
  sideHeads(at, 0, put);
  put(at.proxy, "middle", 130, at.narrow ? "proxy" : "coap-proxyd", at.narrow ? "" : "proxy");
  sideHeads(at, 1, put);
  return it;
}
