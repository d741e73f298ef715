"use strict";
// The data of the page, and where its rows and lanes are.

const data = JSON.parse(document.getElementById("data").textContent);
const {rows, strings, lanes} = data;
const sorts = ["plain", "hit", "miss", "validation", "error"];
// The parts of a row, in their order.
const [MOMENT, LANE, INWARD, SORT, HEAD, DETAIL, NOTE, LOST, FIRST, REQUEST, EXCHANGE, TROUBLE, TARGET, BYTES, FIELDS,
  SOURCE, EMPTY, WORDS] = Array(18).keys();
const IDLE = 1000, BREAK = 36, PAUSE = 8, MOST_HEIGHT = 15e6;

// What is shown: the rows by their places among all, where each is, and the idle times that are cut.
const view = {shown: [], tops: new Float64Array(0), cuts: [], height: 0, scaled: false, perSecond: 20, step: 44};

function partOf(place, name) {
  return strings[rows[place][name]];
}

function laneOf(place) {
  return lanes[rows[place][LANE]];
}

function lengthText(milliseconds) {
  if (milliseconds < 1000) return `${milliseconds} ms`;
  if (milliseconds < 60000) return `${+(milliseconds / 1000).toFixed(3)} s`;
  const all = Math.floor(milliseconds / 1000);
  const parts = [[Math.floor(all / 86400), "d"], [Math.floor(all / 3600) % 24, "h"], [Math.floor(all / 60) % 60, "min"],
    [all % 60, "s"]];
  return parts.filter(([count]) => count).map(([count, unit]) => `${count} ${unit}`).join(" ");
}

function timeText(moment) {
  if (data.since === null) return (moment / 1000).toFixed(3);
  return new Date(data.since + moment).toISOString().slice(11, 23);
}

// Places all rows that are shown, one below the other: idle times are cut, or time is to scale where rows have room.
function placeRows() {
  const {shown, step} = view;
  view.tops = new Float64Array(shown.length);
  view.cuts = [];
  if (!shown.length) {
    view.height = step;
    return;
  }
  const start = rows[shown[0]][MOMENT], span = rows[shown[shown.length - 1]][MOMENT] - start;
  const perSecond = Math.min(view.perSecond, MOST_HEIGHT / Math.max(1, span / 1000));
  let at = 10, before = start;
  shown.forEach((place, order) => {
    const moment = rows[place][MOMENT], idle = moment - before;
    if (view.scaled) at = Math.max(at, 10 + (moment - start) / 1000 * perSecond);
    else if (idle >= IDLE) {
      view.cuts.push([at, idle]);
      at += BREAK;
    } else if (idle > 20) at += PAUSE;
    view.tops[order] = at;
    at += step;
    before = moment;
  });
  view.height = at + 24;
}

// The first place in a sorted list whose value isn't below some value.
function firstFrom(count, isBelow) {
  let low = 0, high = count;
  while (low < high) {
    const middle = (low + high) >> 1;
    if (isBelow(middle)) low = middle + 1;
    else high = middle;
  }
  return low;
}

function orderOf(place) {
  const order = firstFrom(view.shown.length, middle => view.shown[middle] < place);
  return view.shown[order] === place ? order : -1;
}

function longestName() {
  return Math.max(0, ...lanes.slice(0, 8).map(lane => widthOf(lane[0], fonts.note)));
}

// The distance between the lanes of one side, and whether they have names: where these have no room, all are close.
function laneGap(count, narrow) {
  const longest = longestName();
  const spread = narrow ? Math.min(76, Math.max(56, longest + 8)) : Math.min(190, Math.max(118, longest + 18));
  const named = count < 2 || spread * (count - 1) <= (narrow ? 112 : 420);
  const most = narrow ? 40 : 90;
  return {named, gap: count < 2 ? 0 : named ? spread : Math.min(14, most / (count - 1))};
}

// The lanes of the rows that are shown: those of clients, and those of origins.
function shownLanes() {
  const all = new Set(view.shown.map(place => rows[place][LANE]));
  const places = [...lanes.keys()].filter(lane => all.has(lane));
  return [places.filter(lane => !lanes[lane][2]), places.filter(lane => lanes[lane][2])];
}

// Where the lanes are. Where they stand too close for names, each row has its peer's name at the edge.
function lanePlaces(width) {
  const sides = shownLanes(), [clients, origins] = sides.map(side => side.length);
  const narrow = width < 700, own = laneGap(clients, narrow), other = laneGap(origins, narrow);
  const it = {narrow, width, sides, gap: own.gap, originGap: other.gap, namedClients: own.named,
    namedOrigins: other.named, x: []};
  it.times = narrow ? 0 : own.named ? 92 : 160;
  const end = narrow ? 28 : other.named ? 66 : 126;
  it.first = it.times + (narrow ? 14 : own.named ? 66 : 12);
  it.left = it.first + Math.max(0, clients - 1) * own.gap;
  const after = Math.max(0, origins - 1) * other.gap + end;
  it.right = Math.max(it.left + (narrow ? 200 : 480), width - after);
  if (!narrow) it.right = Math.min(it.right, it.left + 900);
  it.proxy = (it.left + it.right) / 2;
  it.room = it.proxy - it.left;
  it.all = Math.max(width, it.right + after);
  sides[0].forEach((lane, place) => it.x[lane] = it.first + place * own.gap);
  sides[1].forEach((lane, place) => it.x[lane] = it.right + place * other.gap);
  return it;
}
