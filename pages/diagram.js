"use strict";
// The diagram as SVG text, between two heights of the plan: lifelines, arrows of messages, boxes of turns with the units of threads.

const SIGNS = {
  bind: "M0 -3.6L3.6 0L0 3.6L-3.6 0Z",
  wait: "M-3 -3.4H-.8V3.4H-3ZM.8 -3.4H3V3.4H.8Z",
  line: "M0 -3A3 3 0 1 0 .01 -3Z",
  raise: "M-3.4 -2.2L-2.2 -3.4L0 -1.2L2.2 -3.4L3.4 -2.2L1.2 0L3.4 2.2L2.2 3.4L0 1.2L-2.2 3.4L-3.4 2.2L-1.2 0Z",
  thread: "M-.8 -3.6H.8V-.8H3.6V.8H.8V3.6H-.8V.8H-3.6V-.8H-.8Z",
  swap: "M-3.2 -3.2H3.2V3.2H-3.2ZM-1.6 -1.6V1.6H1.6V-1.6Z",
};

function signOf(entry, unit, u) {
  const effect = unit[3];
  if (entry.lines.some(([k]) => k === u)) return "line";
  if (!effect) return "";
  if (effect.r !== undefined) return "raise";
  if (effect.w || effect.wc || effect.wp) return "wait";
  if (effect.t) return "thread";
  if (effect.x || effect.c || effect.p) return "swap";
  return effect.eq ? "bind" : "";
}

function headsOf(m, plan) {
  let out = "", last = 0;
  for (const lane of plan.lanes) {
    const middle = lane.x + lane.w / 2;
    if (plan.mode === "sites") out += `<text x="${middle}" y="20" text-anchor="middle" font-weight="650" font-size="13">Site ${lane.site}</text>`;
    else {
      if (lane.site !== last) out += `<text x="${lane.x + 6}" y="15" font-weight="650" font-size="12">Site ${lane.site}</text>`;
      out += lane.mail ? `<text x="${middle}" y="31" text-anchor="middle" font-size="11" class="muted">mail</text>` : threadHead(lane, middle);
    }
    last = lane.site;
  }
  return `<text x="8" y="${headHeight(plan) - 10}" font-size="10.5" class="muted">turn</text>${out}`;
}

function threadHead(lane, middle) {
  const name = `<text x="${middle}" y="31" text-anchor="middle" font-size="11" font-weight="650" class="mono" style="fill:var(--on)">`;
  return `<rect x="${middle - 20}" y="19" width="40" height="16" rx="4" fill="${colour(lane.thread)}"/>${name}${lane.thread.name}</text>`;
}

const headHeight = plan => plan.mode === "sites" ? 30 : 40;

function drawing(m, plan, top, bottom) {
  const first = Math.max(0, upper(plan.blocks, top - 300, b => b.y) - 1), past = upper(plan.blocks, bottom, b => b.y);
  const cones = page.cones ? conesOf(m, m.entryOf[page.moment]) : null;
  const faded = e => cones && e !== Infinity && !cones.before.has(e) && !cones.after.has(e) ? " dim" : "";
  const trail = page.follow ? trailOf(m) : null, hot = trail ? trail.mails : new Set(messagesNow(m));
  let lines = trail ? drawTrail(m, plan, trail, top, bottom) : "", arrows = "", boxes = "";
  for (const lane of plan.lanes) lines += lifeline(plan, lane, top, bottom);
  for (const message of m.messages) {
    const from = plan.blocks[plan.blockOf[message.sent]], to = message.come === Infinity ? null : plan.blocks[plan.blockOf[message.come]];
    if (from.y > bottom || (to ? to.y + to.h : from.y + from.h + 30) < top) continue;
    const dim = trail && !hot.has(message) ? " dim" : faded(message.fromEntry) || faded(message.toEntry);
    arrows += arrow(m, plan, message, from, to, { hot: hot.has(message), dim });
  }
  if (plan.mode === "threads") arrows += wakings(m, plan, first, past);
  for (let k = first; k < past; k++) boxes += blockOf(m, plan, plan.blocks[k], faded(plan.blocks[k].e));
  return lines + arrows + boxes;
}

// ---- lines

function lifeline(plan, lane, top, bottom) {
  const x = lane.thread ? lane.x + 9 : lane.x + lane.w / 2, foot = plan.height - 8;
  const at = moment => { const b = plan.blocks[plan.blockOf[Math.min(moment, plan.blockOf.length - 1)]]; return b.y + b.h / 2; };
  const part = (from, to, kind) => to <= top || from >= bottom ? ""
    : `<line class="${kind}" x1="${x}" x2="${x}" y1="${Math.max(from, top)}" y2="${Math.min(to, bottom)}"/>`;
  if (!lane.thread) return part(0, foot, "lifeline");
  const thread = lane.thread, end = thread.ended === Infinity ? foot : at(thread.ended);
  let y = at(Math.max(0, Math.min(thread.here === Infinity ? 0 : thread.here, thread.units[0]))), out = "";
  for (const wait of thread.waits) {
    const from = at(wait.from), to = wait.until === Infinity ? end : at(wait.until);
    out += part(y, from, "lifeline") + part(from, to, "asleep");
    y = to;
  }
  return out + part(y, end, "lifeline");
}

const LONGEST = 1500;

// The arrow of a message; a long one is cut to its ends, where it is not selected.
function arrow(m, plan, message, from, to, { hot, dim }) {
  const kind = KINDS[message.kind], atUnit = m.unitOf[message.sent] >= 0, title = `<title>${escape(messageText(m, message))}</title>`;
  const x1 = atUnit ? unitX(from, message.sent) + from.unit / 2 : from.lane.x + 14, y1 = atUnit ? from.unitsAt + BAR : from.y + TEXT;
  if (!to) {
    const line = `<line class="msg ${kind}" x1="${x1}" y1="${y1}" x2="${x1 + 16}" y2="${y1 + 12}"/>`;
    return `<g class="${dim}">${title}${line}<circle cx="${x1 + 18}" cy="${y1 + 14}" r="2.6" class="${kind}" fill="none"/></g>`;
  }
  const isRight = to.lane.x >= from.lane.x, far = plan.mode === "sites" ? to.lane.w - 5 : messageLabel(m, message, 34).length * 6.1 + 14;
  const x2 = to.lane.x + (isRight ? 5 : far), y2 = to.y + 9, length = Math.hypot(x2 - x1, y2 - y1), isCut = length > LONGEST && !hot;
  const dx = (x2 - x1) * 60 / length, dy = (y2 - y1) * 60 / length, turn = Math.atan2(y2 - y1, x2 - x1) * 180 / Math.PI;
  const d = isCut ? `M${x1} ${y1}l${dx} ${dy}M${x2 - dx} ${y2 - dy}l${dx} ${dy}` : `M${x1} ${y1}L${x2} ${y2}`;
  const tip = `<path d="M0 0L-8 -3.4L-8 3.4Z" class="head" style="fill:var(--${kind})" transform="translate(${x2} ${y2}) rotate(${turn})"/>`;
  return `<g class="${dim}" data-to="${message.come}">${title}<path class="msg ${kind}${hot ? " hot" : ""}" d="${d}"/>${tip}</g>`;
}

// Where a binding or a birth lets a thread go on: from the unit that made it to the thread's next one.
function wakings(m, plan, first, past) {
  let out = "";
  for (let k = first; k < past; k++) {
    const block = plan.blocks[k], thread = block.lane.thread;
    if (!thread) continue;
    const wait = thread.waits.find(w => w.next === block.from), made = thread.spawn ? thread.here : thread.made;
    const cause = wait ? wait.until : thread.units[0] === block.from ? made : -1, isBefore = cause >= 0 && cause < block.from;
    const by = isBefore ? plan.blocks[plan.blockOf[cause]] : block;
    if (by.lane !== block.lane) out += waking(m, block, by, cause, wait ? "wake" : "born");
  }
  return out;
}

function waking(m, block, by, cause, kind) {
  const isMail = m.unitOf[cause] < 0, x1 = isMail ? by.lane.x + by.lane.w / 2 : unitX(by, cause) + by.unit / 2;
  const y1 = isMail ? by.y + by.h - 2 : by.unitsAt + BAR;
  const tip = block.unitsAt - .5, x2 = block.lane.x + 9 + Math.min(4, (block.past - block.from) * block.unit / 2);
  const head = `<path d="M${x2} ${tip}L${x2 - 3} ${tip - 6}H${x2 + 3}Z" style="fill:var(--${kind === "wake" ? "vars" : "spawns"})"/>`;
  return `<path class="${kind}" d="M${x1} ${y1}V${tip - 7}H${x2}V${tip - 4}"/>${head}`;
}

// ---- boxes

function wordsWidth(block) {
  const notes = block.notes.map(note => note.text.length * 6.3 + (note.wait ? 16 : 0));
  return Math.max(0, ...notes, ...block.lines.map(line => line.text.length * 7.2 + 16));
}

function blockOf(m, plan, block, dim) {
  const entry = m.trace.entries[block.e], beside = block.beside || 0, isNow = page.moment >= block.from && page.moment < block.past;
  const x = block.lane.x + 4, w = beside ? beside + 12 + wordsWidth(block) : block.lane.w - 8;
  const at = { x, w, left: x + 6 + beside, room: beside ? plan.width - x - 16 - beside : w - 10 };
  const box = `<rect class="box${isNow ? " now" : ""}" x="${x}" y="${block.y}" width="${w}" height="${block.h}" rx="4"/>`;
  let y = block.y, out = beside && !isNow ? "" : box;
  if (block.message) {
    out = mailHead(m, plan, block, entry, isNow, at, out);
    y += TEXT;
  }
  if (block.past - block.from > (block.message ? 1 : 0) && (plan.mode === "sites" || block.lane.thread)) {
    out += bars(m, plan, block, entry);
    if (!beside) y += BAR + 4;
  }
  out += words(block, beside ? y + 1 : y, at);
  const number = `<text x="${GUTTER - 10}" y="${block.y + 12}" text-anchor="end" font-size="10.5" class="mono muted">${block.e}</text>`;
  const ran = [...new Set(entry.u.slice(Math.max(0, m.unitOf[block.from]), m.unitOf[block.past - 1] + 1).map(u => u[0]))].join(", ");
  const title = `<title>turn ${block.e} of site ${entry.s}${ran ? ": " + ran : ""}</title>`;
  const hit = `<rect class="hit" x="${x}" y="${block.y}" width="${w}" height="${block.h}"/>`;
  return `<g class="block${dim}" data-block="${block.number}">${title}${plan.mode === "sites" || block.first ? number : ""}${out}${hit}</g>`;
}

// The message that a turn takes, above its units.
function mailHead(m, plan, block, entry, isNow, at, box) {
  const message = m.messages[entry.m], kind = message ? KINDS[message.kind] : "vars", isDelivery = isNow && m.unitOf[page.moment] < 0;
  const most = plan.mode === "sites" ? Math.floor(at.room / LETTER) : 34;
  const text = message ? messageLabel(m, message, most) : "message " + entry.m;
  const { x, w } = at, y = block.y, isThreads = plan.mode === "threads";
  const own = `<rect class="box now" x="${x}" y="${y}" width="${text.length * 6.4 + 12}" height="${block.h}" rx="4"/>`;
  const wide = isThreads ? text.length * 6.4 + 8 : w - 4;
  const cursor = `<rect class="cursor" x="${x + 2}" y="${y + 1.5}" width="${wide}" height="${TEXT - 1}" rx="3"/>`;
  const label = `<text x="${x + 6}" y="${y + 12}" font-size="11" class="${kind}" font-weight="${isDelivery ? 700 : 500}">${escape(text)}</text>`;
  return (isThreads ? (isNow ? own : "") : box) + label + (isDelivery ? cursor : "");
}

function words(block, y, { left, room }) {
  let out = "";
  for (const line of block.lines) {
    const bad = line.text.startsWith("uncaught") ? " bad" : "", text = escape(cut("▸ " + line.text, Math.floor(room / 7.1)));
    out += `<text x="${left}" y="${y + 11.5}" font-size="11.5" class="mono out${bad}">${text}</text>`;
    y += TEXT;
  }
  for (const note of block.notes) {
    const kind = note.bad ? "bad" : note.wait ? "muted" : "";
    out += `<text x="${left}" y="${y + 11.5}" font-size="11" class="${kind}">${note.wait ? "❙❙ " : ""}${escape(note.text)}</text>`;
    y += TEXT;
  }
  return out;
}

// The units of a block: a strip for each thread that goes on, with marks where others can notice a unit.
function bars(m, plan, block, entry) {
  const u0 = Math.max(0, m.unitOf[block.from]), count = block.past - block.from - (block.message ? 1 : 0), u1 = u0 + count;
  const past = block.lane.x + 9 + count * block.unit, at = block.unitsAt, k = page.moment;
  let strips = "", marks = "";
  for (let u = u0, v = u0; u < u1; u = v) {
    while (v < u1 && entry.u[v][0] === entry.u[u][0]) v += 1;
    const [strip, mark] = stint(m, plan, block, entry, { from: u - u0, past: v - u0, first: u0 });
    strips += strip;
    marks += mark;
  }
  const isCounted = count >= 6 && plan.mode === "sites" && past + 20 < block.lane.x + block.lane.w;
  if (isCounted) marks += `<text x="${past + 4}" y="${at + 10.5}" font-size="9.5" class="muted">${count}</text>`;
  if (k >= block.from && k < block.past && m.unitOf[k] >= 0) {
    const x = unitX(block, k) - 1, w = Math.max(block.unit, 2) + 1.2;
    marks += `<rect class="cursor" x="${x}" y="${at - 2}" width="${w}" height="${BAR + 4}" rx="2"/>`;
  }
  return strips + marks;
}

function stint(m, plan, block, entry, { from, past, first }) {
  const thread = m.threads.get(entry.u[first + from][0]), at = block.unitsAt, left = block.lane.x + 9;
  const x = left + from * block.unit, w = (past - from) * block.unit, wide = thread.name.length * 6.2 + 5;
  const isNamed = plan.mode === "sites" && w > wide;
  const strip = `<rect x="${x}" y="${at}" width="${Math.max(w - .8, .8)}" height="${BAR}" rx="2" fill="${colour(thread)}"/>`;
  let marks = "";
  if (isNamed) {
    marks += `<text x="${x + 3}" y="${at + 10}" font-size="9.5" class="mono" style="fill:var(--on)" font-weight="650">${thread.name}</text>`;
  }
  if (block.unit < 3) return [strip, marks];
  const size = Math.min(1, Math.max(.7, block.unit / 8));
  for (let k = from; k < past; k++) {
    const sign = signOf(entry, entry.u[first + k], first + k), middle = (k + .5) * block.unit;
    if (!sign || middle - from * block.unit < (isNamed ? wide : 0) + 2) continue;
    const where = `translate(${left + Math.min(middle, past * block.unit - 4)} ${at + BAR / 2}) scale(${size})`;
    marks += `<path d="${SIGNS[sign]}" transform="${where}" style="fill:var(--on)"/>`;
  }
  return [strip, marks];
}

// ---- what is selected and followed

function messagesNow(m) {
  const k = page.moment, e = m.entryOf[k], found = m.byEntry[e].filter(x => x.sent === k), taken = m.messages[m.trace.entries[e].m];
  return m.unitOf[k] < 0 && taken ? [...found, taken] : found;
}

const isFollowed = (kind, name) => page.follow !== null && page.follow.kind === kind && page.follow.name === name;

// The messages that carry what is followed, and where it stands at each site: from a moment up to another.
function trailOf(m) {
  const { kind, name } = page.follow;
  return kind === "variable" ? trailOfVariable(m, name) : trailOfHolder(m, kind, name);
}

function trailOfVariable(m, name) {
  const stays = [], knownAt = s => (m.sites[s].known.get(name) || { at: Infinity }).at;
  for (let s = 1; s <= m.trace.sites; s++) if (knownAt(s) !== Infinity) stays.push([s, knownAt(s), m.length]);
  const isOn = x => (KINDS[x.kind] === "vars" && x.about[0] === name) || (x.come !== Infinity && knownAt(x.to) === x.come);
  return { stays, mails: new Set(m.messages.filter(isOn)) };
}

function trailOfHolder(m, kind, name) {
  const holder = (kind === "cell" ? m.cells : m.ports).get(name), log = holder ? holder.log : [], stays = [];
  log.forEach((record, k) => {
    const past = log[k + 1] ? log[k + 1].at : m.length, before = stays[stays.length - 1];
    if (record.site && before && before[0] === record.site && before[2] === record.at) before[2] = past;
    else if (record.site) stays.push([record.site, record.at, past]);
  });
  const kinds = kind === "cell" ? "cells" : "ports";
  return { stays, mails: new Set(m.messages.filter(x => x.holder === name && KINDS[x.kind] === kinds)) };
}

function drawTrail(m, plan, trail, top, bottom) {
  let out = "";
  for (const [s, from, past] of trail.stays) {
    const lane = plan.laneOf.get("s" + s) || plan.laneOf.get("m" + s) || plan.lanes.find(l => l.site === s);
    if (!lane) continue;
    const at = moment => moment >= m.length ? plan.height - 8 : plan.blocks[plan.blockOf[moment]].y + 4;
    const y1 = Math.max(at(from), top), y2 = Math.min(at(past), bottom);
    if (y2 > y1) out += `<rect class="trail" x="${lane.x + 1}" y="${y1}" width="${lane.w - 2}" height="${y2 - y1}" rx="6"/>`;
  }
  return out;
}
