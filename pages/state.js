"use strict";
// What stands at a moment: values as a site knows them, where each thread is, and what it waits for. All is looked up in the logs of the model.

// The number of items of a rising list that are at most this.
function upper(list, value, by = x => x) {
  let low = 0, high = list.length;
  while (low < high) {
    const mid = (low + high) >> 1;
    if (by(list[mid]) <= value) low = mid + 1; else high = mid;
  }
  return low;
}

const MOST_LINKS = 10000;

// When a site knew the value of a variable, along its links.
function boundAt(m, site, x) {
  let at = 0;
  for (let k = 0; k < MOST_LINKS; k++) {
    const known = m.sites[site].known.get(x);
    if (!known) return Infinity;
    at = Math.max(at, known.at);
    if (!isVariable(known.term)) return at;
    x = known.term;
  }
  return at;
}

function rootAt(m, site, x, moment) {
  for (let k = 0; k < MOST_LINKS; k++) {
    const known = m.sites[site].known.get(x);
    if (!known || known.at > moment || !isVariable(known.term)) return x;
    x = known.term;
  }
  return x;
}

// The node of a variable as a site knows it at a moment, or null.
function valueAt(m, site, x, moment) {
  const known = m.sites[site].known.get(rootAt(m, site, x, moment));
  return known && known.at <= moment ? known.term : null;
}

// ---- values as text

const RESERVED = new Set(`skip local in end if then else case of thread at try catch raise proc div mod andthen attr choice class cond declare
define dis elsecase elseif export fail feat finally from fun functor import lock meth not or orelse prepare prop require self unit`.split(/\s+/));

function atomText(text) {
  if (/^[a-z][A-Za-z0-9_]*$/.test(text) && !RESERVED.has(text)) return text;
  return "'" + text.replace(/\\/g, "\\\\").replace(/'/g, "\\'").replace(/\n/g, "\\n") + "'";
}

const integerText = n => String(typeof n === "object" ? n.i : n).replace("-", "~");
const isPair = node => node !== null && node.l === "|" && node.f.length === 2 && node.f[0][0] === 1 && node.f[1][0] === 2;

// A variable as a site knows it at a moment, as Browse shows it, but `_` for what is not known. By default cut sooner.
function textAt(m, site, x, moment, limits = { nodes: 24 }, level = 1, inside = false) {
  if (level > (limits.levels || 8) || limits.nodes <= 0) return "…";
  limits.nodes -= 1;
  return nodeText(m, site, valueAt(m, site, x, moment), moment, limits, level, inside);
}

function nodeText(m, site, node, moment, limits, level, inside) {
  if (node === null) return "_";
  if (typeof node === "number" || node.i) return integerText(node);
  if (node.a !== undefined) return atomText(node.a);
  if (node.q) return "<P/" + node.n + ">";
  if (node.c) return "<Cell>";
  if (node.p) return "<Port>";
  if (isPair(node)) {
    const head = textAt(m, site, node.f[0][1], moment, limits, level + 1, true);
    const text = head + "|" + textAt(m, site, node.f[1][1], moment, limits, level, false);
    return inside ? "(" + text + ")" : text;
  }
  let following = 1;
  const fields = node.f.map(([feature, y]) => {
    const text = textAt(m, site, y, moment, limits, level + 1, false);
    if (feature === following) { following += 1; return text; }
    return (feature.a === undefined ? integerText(feature) : atomText(feature.a)) + ":" + text;
  });
  return atomText(node.l) + "(" + fields.join(" ") + ")";
}

// The same, but of a long list the first element and the last two.
function shortAt(m, site, x, moment) {
  const heads = [];
  let node = valueAt(m, site, x, moment), tail = x;
  while (isPair(node) && heads.length < 5000) {
    heads.push(node.f[0][1]);
    tail = node.f[1][1];
    node = valueAt(m, site, tail, moment);
  }
  if (heads.length < 5) return textAt(m, site, x, moment, { nodes: 12 });
  const text = y => textAt(m, site, y, moment, { nodes: 4 }, 1, true);
  return [text(heads[0]), "…", text(heads[heads.length - 2]), text(heads[heads.length - 1]), text(tail)].join("|");
}

// The side of an equation: the name of a variable that is not known.
function termText(m, site, term, moment) {
  if (!isVariable(term)) return nodeText(m, site, term, moment, { nodes: 24 }, 1, false);
  return valueAt(m, site, term, moment) === null ? nameOf(m, term) : textAt(m, site, term, moment);
}

const nameOrValue = (m, site, x, k) => valueAt(m, site, x, k) === null ? nameOf(m, x) : textAt(m, site, x, k, { nodes: 8 });

// ---- names

function nameOf(m, x) {
  const born = m.births.get(x), alias = m.aliases.get(x);
  if (born && born.name) return born.name;
  if (alias) return alias.name;
  return m.values.has(x) ? textOfRow(m, m.values.get(x)) : "_" + x;
}

function birthOf(m, x) {
  const born = m.births.get(x);
  return born && born.name ? born : m.aliases.get(x) || born;
}

function isProcedure(m, x, moment) {
  const node = valueAt(m, Number(x.split(".")[0]), x, moment);
  return node !== null && node.q !== undefined;
}

function holderName(m, holder) {
  if (!holder) return "?";
  const name = nameOf(m, holder.variable);
  return name.startsWith("_") ? holder.kind + " " + holder.name : name;
}

// The text of a statement, or the front of its first line.
function textOfRow(m, row) {
  if (!m.rows[row]) return "";
  const [, from, past] = m.rows[row], text = m.trace.text.split("\n")[from[0] - 1] || "", start = columnOf(text, from[1]);
  return from[0] === past[0] ? text.slice(start, columnOf(text, past[1])) : text.slice(start).replace(/%.*$/, "").trimEnd() + " …";
}

// How many characters stand before a byte's column.
function columnOf(line, byte) {
  if (/^[\x00-\x7f]*$/.test(line)) return byte - 1;
  let bytes = 0, at = 0;
  for (const c of line) {
    if (bytes >= byte - 1) break;
    bytes += new TextEncoder().encode(c).length;
    at += c.length;
  }
  return at;
}

// ---- threads

function stateOf(thread, moment) {
  if (moment < thread.made) return { state: "unborn" };
  if (moment >= thread.ended) return { state: "ended" };
  if (moment < thread.here) return { state: "travels" };
  const wait = thread.waits[upper(thread.waits, moment, w => w.from) - 1];
  if (wait && moment < wait.until) return { state: "waiting", wait };
  return { state: thread.units[upper(thread.units, moment) - 1] === moment ? "running" : "runnable" };
}

function unitAt(m, moment) {
  const u = m.unitOf[moment];
  return u < 0 ? null : m.trace.entries[m.entryOf[moment]].u[u];
}

// The last unit of a thread that stands at a row of the program.
function lastUnit(m, thread, moment) {
  for (let k = upper(thread.units, moment) - 1; k >= 0; k--) {
    const unit = unitAt(m, thread.units[k]);
    if (unit && unit[1] >= 0) return unit;
  }
  return null;
}

function rowAt(m, thread, moment) {
  const unit = lastUnit(m, thread, moment);
  return unit ? unit[1] : -1;
}

// What a thread waits for: words, and the place of the name in the text.
function awaited(m, thread, wait) {
  const row = wait.row === -1 ? rowAt(m, thread, wait.from) : wait.row, at = m.rows[row] ? m.rows[row][1] : null;
  if (wait.cell) {
    const cell = m.cells.get(wait.cell);
    return { name: holderName(m, cell), place: at, why: cell && cell.home ? "an answer about" : "the token of" };
  }
  if (wait.port) return { name: holderName(m, m.ports.get(wait.port)), place: at, why: "an answer about" };
  if (wait.row === -3) return { name: "its exception", place: at, why: "parts of" };
  return awaitedVariable(m, thread, wait, row, at);
}

function awaitedVariable(m, thread, wait, row, at) {
  const asks = wait.row === -1 ? "the owner's answer for" : "", names = m.rows[row] ? m.rows[row][3] : [];
  const vars = wait.row === -1 ? (lastUnit(m, thread, wait.from) || [])[2] || [] : wait.vars;
  if (!wait.on.length) return { name: "a value", place: at, why: "what its site does not know yet:" };
  for (const x of wait.on) for (let k = 0; k < names.length; k++) {
    if (!vars[k] || rootAt(m, thread.site, vars[k], wait.from) !== x) continue;
    return { name: names[k] ? names[k][0] : nameOf(m, x), place: names[k] ? names[k][1] : at, why: asks };
  }
  const shown = names[0], isPart = shown && m.rows[row][0] === "browse";
  return { name: nameOf(m, wait.on[0]), place: shown ? shown[1] : at, why: isPart ? "a part of " + shown[0] + ":" : asks };
}

// The birth of the variable that is waited for, where another thread made it: nobody else may know it.
function makerOf(m, thread, wait) {
  const birth = wait.on.length === 1 && wait.row !== -1 ? m.births.get(wait.on[0]) : null;
  return birth && birth.by !== thread ? birth : null;
}

// ---- what comes before and after

// The entries that come before one, along sites and messages, and those that come after.
function conesOf(m, e) {
  const last = [], previous = [], next = [];
  m.trace.entries.forEach((entry, k) => {
    previous[k] = last[entry.s];
    if (last[entry.s] !== undefined) next[last[entry.s]] = k;
    last[entry.s] = k;
  });
  const sentBy = k => { const message = m.messages[m.trace.entries[k].m]; return message && message.fromEntry; };
  const before = reachedFrom(e, k => [previous[k], sentBy(k)]);
  const after = reachedFrom(e, k => [next[k], ...m.byEntry[k].map(x => x.toEntry).filter(x => x !== Infinity)]);
  return { before, after };
}

function reachedFrom(start, onward) {
  const found = new Set([start]);
  for (const left = [start]; left.length;) for (const k of onward(left.pop())) {
    if (k !== undefined && !found.has(k)) { found.add(k); left.push(k); }
  }
  return found;
}

function linesWithin(m, from, past) {
  return m.lines.slice(upper(m.lines, from - 1, l => l.at), upper(m.lines, past - 1, l => l.at));
}

// ---- messages in words

function aboutText(m, message) {
  const [a, b] = message.about, at = message.sent;
  switch (message.kind) {
    case "Spawn": return a;
    case "Register": return nameOf(m, a);
    case "BindReq": case "Binding": return nameOf(m, a) + " = " + termText(m, message.from, b, at);
    case "Get": return holderName(m, m.cells.get(a));
    case "Forward": return holderName(m, m.cells.get(a)) + " to " + b;
    case "Put": case "CellMake": return holderName(m, m.cells.get(a)) + ": " + nameOrValue(m, message.from, b, at);
    case "PortSend": return holderName(m, m.ports.get(a)) + " by " + b;
    case "PortEnd": return holderName(m, m.ports.get(message.holder)) + " to " + a;
    case "CellAsk": return holderName(m, m.cells.get(a)) + " by " + b;
    case "CellOld": return nameOrValue(m, message.from, b, at) + " to " + a;
  }
  return "";
}

const cut = (text, most) => text.length > most ? text.slice(0, Math.max(1, most - 1)) + "…" : text;

const SHORT = {
  Spawn: a => "+" + a, Register: a => "?" + a, BindReq: a => a.replace(" = ", " =? "), Binding: a => a,
  Get: a => "get " + a, Forward: a => "fwd " + a, Put: a => "put " + a, PortSend: a => "! " + a, PortEnd: a => "end " + a,
  CellMake: a => "new " + a, CellAsk: a => "ask " + a, CellOld: a => "old " + a,
};

// A message in so many characters: with its number and kind, with its kind, or by signs.
function messageLabel(m, message, most) {
  const about = aboutText(m, message), short = SHORT[message.kind](about);
  const forms = [`${message.number} ${message.kind} ${about}`, `${message.kind} ${about}`, short];
  return forms.find(text => text.length <= most) || cut(short, most);
}

function messageText(m, message) {
  const { number, kind, from, to, fromEntry, toEntry } = message;
  const where = message.come === Infinity ? `still travels to site ${to}` : `from site ${from} in turn ${fromEntry} to site ${to} in turn ${toEntry}`;
  return `message ${number}: ${kind} ${aboutText(m, message)}, ${where}`;
}
