"use strict";
// The plan of the diagram: a lane for each site or each thread, and blocks down the page, one for each turn or each stint of a thread.

const GUTTER = 44, BAR = 13, TEXT = 15, GAP = 9, LETTER = 6.25;

function planOf(m, mode, width) {
  const plan = { mode, lanes: [], laneOf: new Map(), blocks: [], blockOf: new Int32Array(m.length) };
  addLanes(m, plan);
  const least = mode === "sites" ? 92 : 104, shares = plan.lanes.reduce((sum, l) => sum + l.share, 0), most = 420;
  const margin = mode === "sites" ? 8 : 96, share = Math.min(most, Math.max(least, (width - GUTTER - margin) / shares));
  let x = GUTTER, y = 14;
  for (const lane of plan.lanes) {
    Object.assign(lane, { x, w: lane.share * share });
    x += lane.w;
    plan.laneOf.set(lane.key, lane);
  }
  plan.width = Math.max(width, x + margin);
  plan.longest = m.trace.entries.reduce((most, entry) => Math.max(most, entry.u.length), 12);
  plan.room = mode === "sites" ? Math.min(share, 260) - 22 : Math.min(share * .42, 150);
  m.trace.entries.forEach((entry, e) => { y = mode === "sites" ? siteBlock(m, plan, entry, e, y) : threadBlocks(m, plan, entry, e, y); });
  plan.height = y + 26;
  return plan;
}

function addLanes(m, plan) {
  const used = new Set(m.trace.entries.map(e => e.s)), hasMail = m.trace.entries.some(e => e.m !== undefined);
  for (let s = 1; s <= m.trace.sites; s++) {
    const isShown = used.has(s) || (plan.mode === "sites" && m.trace.sites <= 8);
    if (isShown && plan.mode === "sites") plan.lanes.push({ key: "s" + s, site: s, share: 1 });
    if (!isShown || plan.mode === "sites") continue;
    if (hasMail) plan.lanes.push({ key: "m" + s, site: s, mail: true, share: .36 });
    for (const t of m.threads.values()) if (t.site === s && t.units.length) plan.lanes.push({ key: "t" + t.name, site: s, thread: t, share: 1 });
  }
}

// How wide a unit of a block is: so many units take room by their root, so that few can be told apart and many have their place.
const unitWidth = (plan, count) => count ? Math.min(14, plan.room * Math.sqrt(count / plan.longest) / count) : 0;

const unitX = (block, moment) => block.lane.x + 9 + (moment - block.from - (block.message ? 1 : 0)) * block.unit;

function addBlock(plan, block) {
  block.unit = unitWidth(plan, block.past - block.from - (block.message ? 1 : 0));
  block.number = plan.blocks.push(block) - 1;
  for (let k = block.from; k < block.past; k++) plan.blockOf[k] = block.number;
}

function siteBlock(m, plan, entry, e, y) {
  const lane = plan.laneOf.get("s" + entry.s), message = entry.m !== undefined, from = m.start[e], past = m.start[e + 1];
  const lines = linesWithin(m, from, past), notes = notesOf(m, from, past, Math.floor((lane.w - 20) / LETTER), true);
  const bars = entry.u.length ? BAR + 3 : 0, h = (message ? TEXT : 0) + bars + TEXT * (lines.length + notes.length) + (message || bars ? 4 : BAR);
  addBlock(plan, { lane, e, y, h, from, past, message, lines, notes, unitsAt: y + 2 + (message ? TEXT : 0) });
  return y + h + GAP;
}

function threadBlocks(m, plan, entry, e, y) {
  if (entry.m !== undefined || !entry.u.length) {
    const lane = plan.laneOf.get("m" + entry.s) || plan.lanes.find(l => l.site === entry.s), from = m.start[e], message = entry.m !== undefined;
    addBlock(plan, { lane, e, y, h: TEXT + 4, from, past: from + 1, message, lines: [], notes: [], unitsAt: y + 2, first: true });
    y += TEXT + 12;
  }
  for (let u = 0, v = 0; u < entry.u.length; u = v) {
    while (v < entry.u.length && entry.u[v][0] === entry.u[u][0]) v += 1;
    const from = momentOf(m, e, u), past = from + v - u, lane = plan.laneOf.get("t" + entry.u[u][0]), bar = unitWidth(plan, v - u) * (v - u);
    const room = Math.floor((plan.width - lane.x - bar - 30) / LETTER);
    const lines = linesWithin(m, from, past), notes = notesOf(m, from, past, Math.min(52, room), false);
    const h = Math.max(BAR + 4, 4 + TEXT * (lines.length + notes.length)), first = u === 0 && entry.m === undefined;
    addBlock(plan, { lane, e, y, h, from, past, message: false, lines, notes, unitsAt: y + 2, first, beside: bar + 8 });
    y += h + 8;
  }
  return y;
}

// ---- words in a block

// The variables that one `local` made once, but for procedures: those that a teacher names. `others` are the rest.
function mainVariables(m) {
  if (m.once) return m.once;
  const times = new Map();
  for (const b of m.births.values()) if (b.name) times.set(b.row, (times.get(b.row) || 0) + 1);
  const isOnce = b => b.name && times.get(b.row) === m.rows[b.row][3].filter(Boolean).length;
  m.once = [...m.births].filter(([, b]) => isOnce(b)).map(([x]) => x);
  const once = new Set(m.once), named = [...new Map([...m.aliases, ...m.births])].filter(([x]) => birthOf(m, x).name && !once.has(x));
  m.others = named.map(([x]) => x).sort((x, y) => birthOf(m, x).at - birthOf(m, y).at);
  return m.once;
}

// Which of them look otherwise behind some units than before.
function grown(m, site, from, past) {
  if (m.trace.entries.length > 2000) return [];
  const seen = mainVariables(m).slice(0, 24).filter(x => m.births.get(x).at < past && !isProcedure(m, x, past - 1));
  const after = seen.map(x => [x, shortAt(m, site, x, past - 1)]);
  return after.filter(([x, text]) => text !== "_" && text !== shortAt(m, site, x, from - 1));
}

// What a thread waits for, in so many characters: the place goes first where there is no room, then the thread's words.
function waitNote(m, thread, wait, who, most) {
  const what = awaited(m, thread, wait), asks = wait.row === -1 && wait.on.length, name = asks ? nameOf(m, wait.on[0]) : what.name;
  const place = what.place && !asks ? " " + what.place.join(":") : "", said = who + (asks ? "asks owner of " : "waits for ");
  const short = who + (asks ? "asks " : "waits ");
  const forms = [said + name + place, short + name + place, said + name, short + name, who + name];
  return forms.find(text => text.length <= most) || cut(who + name, most);
}

// Short words about what happened in some units: exceptions and waits, and in threads' lanes the last named bindings.
function notesOf(m, from, past, most, withThread) {
  if (most < 8) return [];
  const found = [];
  let small = "", count = 0;
  for (let k = from; k < past; k++) {
    const unit = unitAt(m, k), effect = unit && unit[3];
    if (!effect) continue;
    const thread = m.threads.get(unit[0]), who = withThread ? unit[0] + " " : "", wait = thread.waits.find(w => w.from === k);
    for (const [x, term] of withThread ? [] : effect.eq || []) {
      if (!(birthOf(m, x) || {}).name || (term && term.q)) continue;
      small = nameOf(m, x) + " = " + termText(m, thread.site, term, k);
      count += 1;
    }
    if (effect.r !== undefined) found.push({ text: cut(who + "raises " + textAt(m, thread.site, effect.r, k), most), bad: true });
    if (wait) found.push({ text: waitNote(m, thread, wait, who, most - 3), wait: true });
  }
  const bound = withThread ? [] : grown(m, m.trace.entries[m.entryOf[from]].s, from, past).map(([x, text]) => nameOf(m, x) + " = " + text);
  if (!bound.length && small) bound.push(small + (count > 1 ? "  (+" + (count - 1) + ")" : ""));
  found.unshift(...bound.slice(-2).map(text => ({ text: cut(text, most) })));
  if (found.length > 3) found.splice(2, found.length - 3, { text: "… " + (found.length - 3) + " more" });
  return found;
}
