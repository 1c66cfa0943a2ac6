"use strict";
// The model of a run: all that the page shows, as logs with the moment of each event. A moment is the delivery of a turn or one of its units.
// Moments are numbered from 0 through the run. Nothing here touches the page, so it is tested without a browser.

const KINDS = {
  Spawn: "spawns", Register: "vars", BindReq: "vars", Binding: "vars", Get: "cells", Forward: "cells", Put: "cells",
  PortSend: "ports", PortEnd: "ports", CellMake: "cells", CellAsk: "cells", CellOld: "cells",
};

const isVariable = term => typeof term === "string";

function modelOf(trace) {
  const m = {
    trace, entryOf: [], unitOf: [], start: [], messages: [], byEntry: [], threads: new Map(), sites: [], cells: new Map(), ports: new Map(),
    lines: [], births: new Map(), aliases: new Map(), values: new Map(), rows: trace.rows || [], formals: new Map(), notable: [], asked: new Map(),
  };
  for (let s = 0; s <= trace.sites; s++) m.sites.push({ known: new Map(), moments: [] });
  m.rows.forEach((row, k) => { if (row[0] === "proc") m.formals.set(row[4], k); });
  trace.entries.forEach((entry, e) => numberMoments(m, entry, e));
  m.length = m.entryOf.length;
  m.start.push(m.length);
  readMessages(m);
  readThread(m, "1.0", null, -1, 1);
  trace.entries.forEach((entry, e) => readEntry(m, entry, e));
  for (const thread of m.threads.values()) readWaits(m, thread);
  return m;
}

function numberMoments(m, entry, e) {
  m.start.push(m.entryOf.length);
  if (entry.m !== undefined || !entry.u.length) { m.entryOf.push(e); m.unitOf.push(-1); }
  entry.u.forEach((_, u) => { m.entryOf.push(e); m.unitOf.push(u); });
}

// The moment of a unit of an entry; that of its delivery for -1, or its first.
function momentOf(m, e, u) {
  const first = m.start[e], hasDelivery = m.unitOf[first] === -1;
  return Math.min(first + u + (hasDelivery ? 1 : 0), m.start[e + 1] - 1);
}

// ---- messages

function readMessages(m) {
  m.trace.entries.forEach((entry, e) => {
    let u = entry.m === undefined ? 0 : -1;
    m.byEntry.push((entry.out || []).map(([kind, to, ...about]) => {
      u = Math.max(u, senderOf(entry, kind, about, Math.max(u, 0)));
      const message = {
        number: m.messages.length, kind, to, about, from: entry.s, sent: momentOf(m, e, u), fromEntry: e, come: Infinity, toEntry: Infinity,
      };
      m.messages.push(message);
      return message;
    }));
  });
  m.trace.entries.forEach((entry, e) => {
    const message = m.messages[entry.m];
    if (message) { message.come = m.start[e]; message.toEntry = e; }
  });
}

// The unit of an entry that sent a message of this kind, from one on; -1 where its delivery did.
function senderOf(entry, kind, about, from) {
  for (let u = from; u < entry.u.length; u++) if (isSender(entry, entry.u[u], kind, about)) return u;
  return -1;
}

function isSender(entry, [thread, row, , effect = {}], kind, [a, b, c]) {
  switch (kind) {
    case "Spawn": return effect.t === a;
    case "BindReq": return thread === c && row === -1 && effect.w !== undefined;
    case "Binding": return (effect.eq || []).some(([x]) => x === a);
    case "Get": return effect.wc === a;
    case "Forward": return effect.wc === a && b === entry.s;
    case "CellMake": return effect.c === a;
    case "CellAsk": return effect.wc === a && thread === b;
    case "PortSend": return effect.wp === a && thread === b;
  }
  return false;
}

function send(m, message) {
  const [what, content] = message.about, kind = message.kind;
  if (kind === "PortSend" || kind === "CellAsk") m.asked.set(content, what);
  if (kind === "PortEnd" || kind === "CellOld") message.holder = m.asked.get(what);
  else if (KINDS[kind] === "cells" || KINDS[kind] === "ports") message.holder = what;
  if (kind === "CellMake" && m.cells.has(what)) m.cells.get(what).home = message.to;
  if (kind === "Put" || kind === "CellMake") change(m.cells, what, { at: message.sent, site: 0, message, content }, null);
  if (kind === "PortEnd") change(m.ports, message.holder, { at: message.sent, content: message.about[2] }, m.threads.get(what));
  if (kind === "Spawn") {
    Object.assign(readThread(m, what, null, message.sent, message.to), { site: message.to, here: Infinity, spawn: message });
  }
}

function deliver(m, entry, message, moment) {
  const [what, content, third] = message.about, kind = message.kind, site = entry.s;
  if (kind === "Spawn") m.threads.get(what).here = moment;
  if (kind === "Put") {
    change(m.cells, what, { at: moment, site, message: null, content }, null);
    for (const thread of waitersOf(m, site, what)) {
      const wait = lastOf(thread.waits);
      wakes(thread, moment);
      change(m.cells, what, { at: moment, site, content: wait.vars[2] }, thread);
    }
  }
  if (kind === "CellMake") {
    change(m.cells, what, { at: moment, site, message: null, content }, null);
    for (const thread of waitersOf(m, site, what)) wakes(thread, moment);
    for (const [name, , , { x }] of entry.d || []) change(m.cells, what, { at: moment, content: x[2] }, m.threads.get(name));
  }
  if (kind === "CellAsk") change(m.cells, what, { at: moment, content: third }, m.threads.get(content));
  if (kind === "PortEnd" || kind === "CellOld") wakes(m.threads.get(what), moment);
}

// ---- threads

const lastOf = list => list[list.length - 1];

function readThread(m, name, maker, made, site) {
  if (!m.threads.has(name)) {
    const parent = m.threads.get(maker);
    m.threads.set(name, {
      name, maker, made, site, here: made, number: m.threads.size, units: [], waits: [], ended: Infinity, raised: [], children: 0, births: 0,
      path: parent ? parent.path + "." + parent.children++ : "",
    });
  }
  return m.threads.get(name);
}

function waitersOf(m, site, cell) {
  const waits = wait => wait && wait.cell === cell && wait.until === Infinity;
  const found = [...m.threads.values()].filter(thread => thread.site === site && waits(lastOf(thread.waits)));
  return found.sort((a, b) => lastOf(a.waits).from - lastOf(b.waits).from);
}

function wakes(thread, moment) {
  const wait = thread && lastOf(thread.waits);
  if (wait && wait.until === Infinity) wait.until = moment;
}

// When each wait for variables ended: when its site knew the value of one of them, or, where the thread asked an owner to bind one, what it
// is bound to; at the latest at the thread's next unit.
function readWaits(m, thread) {
  for (const wait of thread.waits) {
    if (wait.until === Infinity) for (const x of wait.on) wait.until = Math.min(wait.until, tellsAt(m, thread.site, wait, x));
    const next = thread.units[upper(thread.units, wait.from)];
    wait.woken = wait.until;
    if (next !== undefined) wait.until = Math.min(Math.max(wait.until, wait.from + 1), next);
    wait.next = next;
  }
}

// When a variable that is waited for lets its thread go on: at once where it is asked for or compared, else with its value.
function tellsAt(m, site, wait, x) {
  const known = m.sites[site].known.get(x), isTest = wait.row >= 0 && m.rows[wait.row] && m.rows[wait.row][0] === "test";
  if (wait.row === -1 || isTest) return known ? known.at : Infinity;
  return boundAt(m, site, x);
}

// ---- entries

function learn(m, site, moment, equations) {
  for (const [x, term] of equations || []) {
    if (!m.sites[site].known.has(x)) m.sites[site].known.set(x, { at: moment, term });
    m.sites[site].moments.push([moment, x]);
    if (term !== null && term.h && m.cells.has(term.c)) m.cells.get(term.c).home = term.h;
  }
}

function readEntry(m, entry, e) {
  const from = m.start[e], sent = m.byEntry[e];
  learn(m, entry.s, from, entry.eq);
  if (entry.m !== undefined) {
    m.notable.push(from);
    if (m.messages[entry.m]) deliver(m, entry, m.messages[entry.m], from);
  }
  for (const message of sent) if (message.sent === from && m.unitOf[from] === -1) send(m, message);
  entry.u.forEach((unit, u) => {
    const moment = momentOf(m, e, u);
    readUnit(m, entry, unit, moment);
    for (const message of sent) if (message.sent === moment) send(m, message);
  });
  for (const [u, text] of entry.lines) m.lines.push({ at: u < 0 ? m.start[e + 1] - 1 : momentOf(m, e, u), text, site: entry.s });
}

function readUnit(m, entry, [name, row, vars = [], effect = {}], moment) {
  const thread = readThread(m, name, null, moment, entry.s), kind = row >= 0 && m.rows[row] ? m.rows[row][0] : "";
  thread.units.push(moment);
  learn(m, entry.s, moment, effect.eq);
  nameVariables(m, entry.s, thread, kind, row, vars, moment);
  if (effect.t) readThread(m, effect.t, name, moment, entry.s);
  const log = [{ at: moment, site: entry.s, content: vars[0] }];
  const made = { at: moment, variable: vars[1], stream: vars[0], home: 0, log, uses: [], by: thread };
  if (effect.c) m.cells.set(effect.c, { name: effect.c, kind: "cell", ...made });
  if (effect.p) m.ports.set(effect.p, { name: effect.p, kind: "port", ...made });
  if (effect.x) change(kind === "send" ? m.ports : m.cells, effect.x[0], { at: moment, site: entry.s, content: effect.x[2] }, thread);
  if (effect.r !== undefined) thread.raised.push({ at: moment, value: effect.r });
  if (effect.end) thread.ended = moment;
  const waits = effect.w || effect.wc || effect.wp;
  if (waits) thread.waits.push({ from: moment, until: Infinity, on: effect.w || [], cell: effect.wc, port: effect.wp, row, vars });
  const isNotable = Object.keys(effect).length > 0 || entry.lines.some(([u]) => u === m.unitOf[moment]);
  if (isNotable) m.notable.push(moment);
}

function change(held, name, record, thread) {
  const holder = held.get(name);
  if (!holder) return;
  holder.log.push({ ...lastOf(holder.log), ...record });
  holder.uses.push({ at: record.at, thread });
}

// ---- the names of variables

function nameVariable(m, x, named, moment) {
  if (x && named && !m.births.has(x) && !m.aliases.has(x)) m.aliases.set(x, { name: named[0], place: named[1], at: moment });
}

function nameVariables(m, site, thread, kind, row, vars, moment) {
  const isTold = ["tell", "calc", "test", "select", "proc"].includes(kind), told = isTold ? vars[0] : kind === "call" ? lastOf(vars) : undefined;
  if (told !== undefined && !m.values.has(told)) m.values.set(told, row);
  if (kind === "local") m.rows[row][3].forEach((named, k) => {
    thread.births += 1;
    const birth = { name: named ? named[0] : "", place: named ? named[1] : m.rows[row][1], at: moment, row, by: thread, nth: thread.births };
    if (vars[k]) m.births.set(vars[k], birth);
  });
  if (kind === "case") (m.rows[row][4] || []).forEach((named, k) => nameVariable(m, vars[k + 1], named, moment));
  if (kind === "call") nameArguments(m, site, vars, moment);
}

// The arguments of a call are named by the formals of what is called, where nothing else names them.
function nameArguments(m, site, vars, moment) {
  const called = valueAt(m, site, vars[0], moment), row = called && called.q ? m.rows[m.formals.get(called.r)] : null;
  if (row) row[5].forEach((named, k) => nameVariable(m, vars[k + 1], named, moment));
}
