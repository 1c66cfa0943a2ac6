"use strict";
// Holds the model of traces to what stands in them, step by step, without a browser: node pages/check.js TRACE ..
const fs = require("fs");
require("./parts.js");

let wrong = 0, steps = 0;
function check(holds, said) {
  if (holds) return;
  wrong += 1;
  if (wrong < 20) console.log("wrong:", said);
}

// The state of a trace by going through it, apart from the model: what sites know, who waits, who ended, and which lines there are.
class Walk {
  constructor(trace) { Object.assign(this, { trace, known: {}, waits: {}, ended: new Set(), lines: [], tokens: {}, sent: [] }); }

  learn(site, equations) { for (const [x, term] of equations || []) this.known[site + " " + x] = JSON.stringify(term); }

  deliver(entry) {
    this.learn(entry.s, entry.eq);
    const [kind, , a] = this.sent[entry.m] || [];
    if (kind === "PortEnd" || kind === "CellOld") delete this.waits[a];
    if (kind === "Put") this.tokens[a] = entry.s;
    if (kind === "Put" || kind === "CellMake") for (const [name] of entry.d || []) delete this.waits[name];
  }

  unit(entry, [name, row, , effect = {}], u) {
    delete this.waits[name];
    this.learn(entry.s, effect.eq);
    if (effect.w || effect.wc || effect.wp) this.waits[name] = effect;
    if (effect.end) this.ended.add(name);
    if (effect.c && this.trace.rows[row][0] === "cell") this.tokens[effect.c] = entry.s;
    for (const [at, line] of entry.lines) if (at === u) this.lines.push(line);
  }
}

function compare(m, walk, k, name, isLast) {
  const shown = m.lines.slice(0, upper(m.lines, k, l => l.at)).map(l => l.text);
  check(shown.length === walk.lines.length && shown[shown.length - 1] === walk.lines[walk.lines.length - 1], `${name}: lines at ${k}`);
  for (const thread of m.threads.values()) {
    const { state, wait } = stateOf(thread, k);
    check((state === "ended") === walk.ended.has(thread.name), `${name}: ${thread.name} at ${k} is ${state}`);
    check(state !== "waiting" || walk.waits[thread.name], `${name}: ${thread.name} waits at ${k}`);
    const effect = walk.waits[thread.name];
    const isSame = !wait || !effect || (String(wait.on) === String(effect.w || []) && wait.cell === effect.wc);
    check(isSame, `${name}: what ${thread.name} waits for at ${k}`);
  }
  let count = 0;
  for (let s = 1; s <= m.trace.sites; s++) count += upper(m.sites[s].moments, k, x => x[0]);
  check(count === Object.keys(walk.known).length, `${name}: ${count} equations at ${k}`);
  for (const [cell, site] of Object.entries(walk.tokens)) {
    const last = m.cells.get(cell).log[upper(m.cells.get(cell).log, k, l => l.at) - 1];
    check(!last.site || last.site === site, `${name}: the token of ${cell} at ${k}`);
  }
  if (isLast) check(JSON.stringify(shown) === JSON.stringify(walk.lines), `${name}: all lines`);
}

function stepThrough(trace, name) {
  const m = modelOf(trace), walk = new Walk(trace), every = Math.max(1, Math.floor(m.length / 400));
  for (let k = 0; k < m.length; k++) {
    const entry = trace.entries[m.entryOf[k]], u = m.unitOf[k], isFirst = k === m.start[m.entryOf[k]];
    if (isFirst) walk.deliver(entry);
    if (u >= 0) walk.unit(entry, entry.u[u], u);
    if (k === m.start[m.entryOf[k] + 1] - 1) walk.sent.push(...entry.out);
    if (k % every === 0 || k === m.length - 1) { compare(m, walk, k, name, k === m.length - 1); steps += 1; }
  }
  checkWhole(m, name);
}

// What holds of a whole run.
function checkWhole(m, name) {
  for (const message of m.messages) check(message.come === Infinity || message.sent < message.come, `${name}: message ${message.number}`);
  for (const thread of m.threads.values()) for (const wait of thread.waits) {
    check(wait.next === undefined || wait.woken < wait.next, `${name}: ${thread.name} goes on at ${wait.next} and was woken at ${wait.woken}`);
    const stays = wait.next === undefined && wait.woken !== Infinity && m.trace.end.startsWith("quiescent");
    check(!stays, `${name}: ${thread.name} was woken at ${wait.woken} and stays`);
  }
  for (const line of m.lines) {
    const unit = unitAt(m, line.at), row = m.rows[unit[1]];
    if (!row || row[0] !== "browse" || line.text.includes(",,,")) continue;
    const text = textAt(m, line.site, unit[2][0], line.at, { nodes: 1001, levels: 21 });
    check(text === line.text, `${name}: ${text} for ${line.text}`);
  }
  for (const mode of ["sites", "threads"]) {
    const plan = planOf(m, mode, 900), isDown = plan.blocks.every((b, k) => !k || b.y >= plan.blocks[k - 1].y + plan.blocks[k - 1].h);
    check(isDown && plan.blocks.every(b => b.lane), `${name}: blocks of ${mode}`);
  }
}

const paths = process.argv.slice(2);
for (const path of paths) stepThrough(JSON.parse(fs.readFileSync(path, "utf8")), path.split("/").pop());
console.log(`model: ${paths.length} traces, ${steps} moments, ${wrong} wrong`);
process.exit(wrong ? 1 : 0);
