// The panel beside the ladder: one datagram decoded whole, and what went wrong.

function html(name, className, ...content) {
  const it = document.createElement(name);
  if (className) it.className = className;
  it.append(...content);
  return it;
}

// Bytes as lines of an offset, hexadecimal digits, and what prints.
function dump(hex) {
  const lines = [];
  for (let at = 0; at < hex.length; at += 16) {
    const pairs = hex.slice(at, at + 16).match(/../g) || [];
    const shown = pairs.map(pair => {
      const code = parseInt(pair, 16);
      return code > 32 && code < 127 ? String.fromCharCode(code) : "·";
    });
    lines.push(`${(at / 2).toString(16).padStart(4, "0")}  ${pairs.join(" ").padEnd(24)} ${shown.join("")}`);
  }
  return lines.join("\n");
}

function definitions(pairs) {
  const list = html("dl", "parts");
  for (const [name, value] of pairs) list.append(html("dt", "", name), html("dd", "", value));
  return list;
}

// What a row is of: its request, its exchange, and what it repeats.
function relations(place) {
  const row = rows[place], pairs = [];
  const at = moment => timeText(moment) + (data.since === null ? " s" : "");
  if (row[TARGET]) pairs.push(["Target", strings[row[TARGET]]]);
  if (row[WORDS]) pairs.push(["The proxy", strings[row[WORDS]]]);
  if (row[FIRST] >= 0) pairs.push(["Again", `as at ${at(rows[row[FIRST]][MOMENT])}`]);
  const missing = "none is in this file before it was sent again, or at all";
  if (row[LOST]) pairs.push([row[INWARD] ? "No answer" : "No reply", missing]);
  const kept = (byExchange.get(row[SOURCE]) || []).find(it => partOf(it, WORDS).endsWith(" kept"));
  if (kept === undefined) return pairs;
  pairs.push(["From", `the answer that was kept last for this target, at ${at(rows[kept][MOMENT])}`]);
  return pairs;
}

function datagramCard(place) {
  const row = rows[place], size = strings[row[BYTES]].length / 2;
  const peer = row[LANE] < 0 ? "" : [...new Set(laneOf(place).slice(0, 2))].join(", ");
  const way = row[LANE] < 0 ? "The proxy" : row[INWARD] ? `${peer} → proxy` : `proxy → ${peer}`;
  const time = timeText(row[MOMENT]) + (data.since === null ? " s" : " UTC");
  const lead = html("p", "lead", html("span", "badge", signAlone(sorts[row[SORT]]), way), html("br"), time);
  const out = [lead, definitions(relations(place))];
  if (row[BYTES]) {
    const fields = row[FIELDS].map(field => strings[field].split("\t"));
    out.push(html("h3", "", "Decoded"), definitions(fields));
    out.push(html("h3", "", `${size} bytes`), html("pre", "", dump(strings[row[BYTES]])));
  }
  return out;
}

// A button that leaves only what is lit to be seen.
function litButton() {
  if (!state.lit.size) return [];
  const button = html("button", "only", state.matches ? "Show all again" : `Show only what is lit (${state.lit.size})`);
  button.type = "button";
  button.addEventListener("click", toggleLit);
  return [button];
}

function showDatagram(place) {
  const panel = document.getElementById("datagram"), head = html("h2", "", "Datagram");
  if (place < 0) {
    const hint = html("p", "hint", "Point at a datagram to see it decoded. Click it to light up all that belongs to ",
      "it: what it opened or joined, the answer, and what was sent again. Keys: ?");
    panel.replaceChildren(head, hint);
    return;
  }
  panel.replaceChildren(head, ...datagramCard(place), ...litButton());
  panel.scrollTop = 0;
}

// What went wrong: the kinds of it, and each case with its client and its target.
const SEVERITY = [/^5\./, /^no answer/, /^gave up/, /^dropped/, /^not ack/, /^rejected/, /^4\./, /^ignored/];
const troubles = {all: [], kinds: new Map(), groups: [], kind: "", most: 100, found: null};

function severity(kind) {
  const place = SEVERITY.findIndex(pattern => pattern.test(kind));
  return place < 0 ? SEVERITY.length : place;
}

function findTroubles() {
  rows.forEach((row, place) => {
    if (!row[TROUBLE]) return;
    troubles.all.push(place);
    const kind = strings[row[TROUBLE]];
    troubles.kinds.set(kind, (troubles.kinds.get(kind) || 0) + 1);
  });
  groupTroubles();
}

// Why a request was turned away, in the program's words, or what it says at the row itself.
function causeOf(place) {
  const notes = (byRequest.get(rows[place][REQUEST]) || []).map(it => partOf(it, NOTE));
  return notes.find(it => /^(overloaded|refused|no id|no record room)/.test(it)) || partOf(place, NOTE);
}

// Whose trouble it is: the peer's, or, where the proxy gave up, the origin's that it asked.
function whoOf(place) {
  const asked = (byExchange.get(rows[place][EXCHANGE]) || []).find(it => rows[it][LANE] >= 0 && laneOf(it)[2]);
  const peer = rows[place][LANE] >= 0 ? place : asked;
  return peer === undefined ? "the proxy" : laneOf(peer)[0];
}

// Finds the troubles that are listed: those of one kind, peer and cause together, in the order in which they began.
function groupTroubles() {
  const groups = new Map();
  for (const place of troubles.all) {
    if (troubles.found && !troubles.found.has(place)) continue;
    if (troubles.kind && partOf(place, TROUBLE) !== troubles.kind) continue;
    const key = [rows[place][TROUBLE], whoOf(place), causeOf(place)].join("\n");
    if (groups.has(key)) groups.get(key).push(place);
    else groups.set(key, [place]);
  }
  troubles.groups = [...groups.values()];
}

// The target of troubles, or how many they have.
function targetsOf(places) {
  const targets = new Set(places.map(place => rows[place][TARGET]));
  return targets.size > 1 ? `${targets.size.toLocaleString("en")} targets` : strings[rows[places[0]][TARGET]];
}

// A line for such troubles. A click goes to the first, the next one to the next.
function troubleItem(places, choose, on) {
  const place = places[0], row = rows[place], peer = whoOf(place), why = causeOf(place);
  const many = places.length > 1 ? html("b", "many", ` × ${places.length.toLocaleString("en")}`) : "";
  const button = html("button", places.includes(on) ? "on" : "", html("span", "at", timeText(row[MOMENT])),
    html("span", "who", html("b", "", strings[row[TROUBLE]]), ` ${peer}`, many),
    html("span", "what", [targetsOf(places), why].filter(part => part).join(" · ")));
  button.type = "button";
  button.addEventListener("click", () => choose(places[(places.indexOf(on) + 1) % places.length]));
  return html("li", "", button);
}

function showTroubles(choose, on) {
  const panel = document.getElementById("troubles"), kinds = [...troubles.kinds].sort((one, other) =>
    severity(one[0]) - severity(other[0]) || one[0].localeCompare(other[0]));
  const head = html("h2", "", "What went wrong ", html("span", "count", troubles.all.length.toLocaleString("en")));
  const buttons = html("div", "kinds");
  for (const [kind, count] of kinds) {
    const button = html("button", "", `${kind} ${count.toLocaleString("en")}`);
    button.type = "button";
    button.setAttribute("aria-pressed", troubles.kind === kind);
    button.addEventListener("click", () => {
      troubles.kind = troubles.kind === kind ? "" : kind;
      troubles.most = 100;
      groupTroubles();
      showTroubles(choose, on);
    });
    buttons.append(button);
  }
  const chosen = troubles.groups, items = chosen.slice(0, troubles.most).map(places => troubleItem(places, choose, on));
  const nothing = troubles.all.length ? "None of what is found." : "Nothing: each request has its answer.";
  panel.replaceChildren(head, buttons, items.length ? html("ul", "list", ...items) : html("p", "hint", nothing));
  if (chosen.length > troubles.most) {
    const more = html("button", "", `${(chosen.length - troubles.most).toLocaleString("en")} more`);
    more.addEventListener("click", () => {
      troubles.most *= 10;
      showTroubles(choose, on);
    });
    panel.append(more);
  }
}
