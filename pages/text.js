"use strict";
// The text of the program: the statement of the selected unit is marked, names that are waited for are underlined, and each living thread stands
// as a chip at its line. Beside it what all parts of the page use.

const $ = id => document.getElementById(id);
const ESCAPES = { "&": "&amp;", "<": "&lt;", ">": "&gt;", '"': "&quot;" };
const escape = text => String(text).replace(/[&<>"]/g, c => ESCAPES[c]);
const page = { runs: [], run: 0, moment: 0, mode: "sites", cones: false, playing: 0, plan: null, follow: null, filled: new Map() };
const now = () => page.runs[page.run];
const colour = thread => "var(--t" + (thread ? thread.number % 8 : 7) + ")";
const chip = (thread, state = "") => `<span class="chip ${state}" style="--col:${colour(thread)}">${thread.name}</span>`;

// Puts a part of the page, where it is another than before.
function fill(id, html) {
  if (page.filled.get(id) === html) return false;
  page.filled.set(id, html);
  $(id).innerHTML = html;
  return true;
}

const WORDS = new RegExp("(%.*$|\\/\\*.*?\\*\\/)|'(?:[^'\\\\]|\\\\.)*'|"
  + "\\b(local|in|end|if|then|else|case|of|thread|at|proc|fun|try|catch|finally|raise|skip|div|mod)\\b", "g");

// A piece of the text with its words and comments.
function painted(text) {
  let out = "", at = 0;
  for (const found of text.matchAll(WORDS)) {
    const kind = found[1] ? "c" : found[2] ? "k" : "", said = escape(found[0]);
    out += escape(text.slice(at, found.index)) + (kind ? `<span class="${kind}">${said}</span>` : said);
    at = found.index + found[0].length;
  }
  return out + escape(text.slice(at));
}

// A line of the text, in which some parts are marked.
function withSpans(text, spans) {
  if (!spans.length) return painted(text);
  const cuts = [...new Set([0, text.length, ...spans.flatMap(s => [s[0], s[1]])])].filter(c => c <= text.length).sort((a, b) => a - b);
  let out = "";
  for (let k = 0; k + 1 < cuts.length; k++) {
    const kinds = spans.filter(s => s[0] <= cuts[k] && s[1] >= cuts[k + 1]).map(s => s[2]);
    let part = painted(text.slice(cuts[k], cuts[k + 1]));
    if (kinds.includes("waited")) part = `<span class="waited">${part}</span>`;
    out += kinds.includes("mark") ? `<mark>${part}</mark>` : part;
  }
  return out;
}

function firstWord(text, from) {
  const found = /^[A-Za-z0-9_']+\s*|^\{\s*\S+|^\S+/.exec(text.slice(from));
  return from + (found ? found[0].trimEnd().length : 1);
}

// The threads that stand at each line.
function standsOf(m) {
  const stands = new Map();
  for (const thread of m.threads.values()) {
    const state = stateOf(thread, page.moment).state, at = rowAt(m, thread, page.moment);
    if (at < 0 || ["unborn", "ended", "travels"].includes(state)) continue;
    const line = m.rows[at][1][0];
    if (!stands.has(line)) stands.set(line, []);
    stands.get(line).push([thread, state]);
  }
  return stands;
}

function chipsOf(stands) {
  if (!stands.length) return "";
  const more = stands.length > 8 ? `<span class="small">and ${stands.length - 8} more</span>` : "";
  return `<span class="stand">${stands.slice(0, 8).map(([thread, state]) => chip(thread, state)).join("")}${more}</span>`;
}

// A line with its number: the statement at `place` is marked, and the names that are waited for.
function lineOf(text, no, place, waits, stands) {
  const spans = [];
  let within = "";
  if (place) {
    const [, from, past] = place, isOne = from[0] === past[0], start = columnOf(text, from[1]);
    if (no >= from[0] && no <= past[0] && !isOne) within = "within";
    if (no === from[0]) spans.push([start, isOne ? columnOf(text, past[1]) : firstWord(text, start), "mark"]);
  }
  for (const { place: at, name } of waits) {
    if (!at || at[0] !== no) continue;
    const start = columnOf(text, at[1]);
    if (text.startsWith(name, start)) spans.push([start, start + name.length, "waited"]);
  }
  const indent = /^ */.exec(text)[0].length + 4, code = withSpans(text, spans) + chipsOf(stands);
  return `<div class="line ${within}"><span class="no">${no}</span><span class="code" style="--in:${indent}ch">${code}</span></div>`;
}

function drawSource(m, row, waits) {
  const lines = m.trace.text.replace(/\n$/, "").split("\n"), place = row >= 0 && m.rows[row] ? m.rows[row] : null, stands = standsOf(m);
  const drawn = lines.map((text, k) => lineOf(text, k + 1, place, waits, stands.get(k + 1) || []));
  const before = page.filled.get("source") || [], box = $("source");
  if (before.length !== drawn.length) box.innerHTML = drawn.join("");
  else drawn.forEach((html, k) => { if (html !== before[k]) box.children[k].outerHTML = html; });
  page.filled.set("source", drawn);
  if (!place || page.marked === place) return;
  page.marked = place;
  const line = box.children[place[1][0] - 1];
  const isInSight = !line || (line.offsetTop >= box.scrollTop + 20 && line.offsetTop <= box.scrollTop + box.clientHeight - 60);
  if (!isInSight) box.scrollTop = line.offsetTop - box.clientHeight / 3;
}
