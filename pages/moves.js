"use strict";
// Moving about: keys, buttons, the slider, clicks in the diagram, and what is drawn anew at each moment.

function drawPlot() {
  const m = now(), plan = page.plan, box = $("time"), top = Math.max(0, box.scrollTop - 400);
  const bottom = Math.min(plan.height, box.scrollTop + box.clientHeight + 400);
  const size = `width="${plan.width}" height="${bottom - top}" viewBox="0 ${top} ${plan.width} ${bottom - top}" style="top:${top}px"`;
  $("plot").innerHTML = `<svg ${size} role="img" aria-label="messages and units of turns">${drawing(m, plan, top, bottom)}</svg>`;
  page.drawn = [top, bottom];
}

function replan() {
  const m = now(), plan = page.plan = planOf(m, page.mode, $("time").clientWidth - 2);
  $("heads").innerHTML = `<svg width="${plan.width}" height="${headHeight(plan)}" aria-hidden="true">${headsOf(m, plan)}</svg>`;
  drawLegend(m);
  $("plot").style.height = plan.height + "px";
  $("plot").style.width = plan.width + "px";
  $("lanes").textContent = page.mode === "sites" ? "lanes: sites" : "lanes: threads";
}

function keepInSight() {
  const box = $("time"), block = page.plan.blocks[page.plan.blockOf[page.moment]], head = $("heads").offsetHeight, foot = $("legend").offsetHeight;
  const isAbove = block.y < box.scrollTop + 10, isBelow = block.y + block.h > box.scrollTop + box.clientHeight - head - foot - 10;
  if (isAbove || isBelow) box.scrollTop = Math.max(0, block.y - (box.clientHeight - head) * .35);
  const lane = block.lane, isAside = lane.x < box.scrollLeft + 10 || lane.x + lane.w > box.scrollLeft + box.clientWidth;
  if (isAside) box.scrollLeft = Math.max(0, lane.x - GUTTER);
}

function show() {
  const m = now(), k = page.moment, e = m.entryOf[k], unit = unitAt(m, k), row = unit ? rowAt(m, m.threads.get(unit[0]), k) : -1;
  const last = m.trace.entries.length - 1;
  $("slider").max = m.length - 1;
  $("slider").value = k;
  $("slider").setAttribute("aria-valuetext", `turn ${e} of ${last}, unit ${m.unitOf[k] + 1}`);
  $("where").textContent = `turn ${e}/${last} · ` + (unit ? `unit ${m.unitOf[k] + 1}/${m.trace.entries[e].u.length}` : "delivery");
  drawNow(m);
  drawSource(m, row, drawThreads(m));
  drawCells(m);
  drawOutput(m);
  drawStore(m);
  drawMail(m);
  drawRace();
  keepInSight();
  drawPlot();
  document.body.dataset.moment = k;
  try { history.replaceState(null, "", `#run=${page.run + 1}&moment=${k}&lanes=${page.mode}`); } catch { /* a page from a file may not */ }
}

// ---- steps

function go(k) {
  page.moment = Math.min(now().length - 1, Math.max(0, k));
  show();
}

function goTurn(by) {
  const m = now(), e = m.entryOf[page.moment] + by;
  go(e < 0 ? 0 : e >= m.trace.entries.length ? m.length - 1 : m.start[e]);
}

function goNotable(by) {
  const list = now().notable, last = now().length - 1;
  go(by > 0 ? list[upper(list, page.moment)] ?? last : list[upper(list, page.moment - 1) - 1] ?? 0);
}

function goThread(by) {
  const unit = unitAt(now(), page.moment);
  if (!unit) return;
  const units = now().threads.get(unit[0]).units;
  go(units[by > 0 ? upper(units, page.moment) : upper(units, page.moment - 1) - 1] ?? page.moment);
}

function goMessage() {
  const message = messagesNow(now())[0];
  if (!message) return;
  if (message.sent !== page.moment) go(message.sent);
  else if (message.come !== Infinity) go(message.come);
}

function play() {
  clearInterval(page.playing);
  const onward = () => page.moment >= now().length - 1 ? play() : goNotable(1);
  page.playing = page.playing ? 0 : setInterval(onward, 900);
  $("play").setAttribute("aria-pressed", String(page.playing !== 0));
}

// ---- views

function choose(run) {
  page.run = run;
  page.follow = null;
  page.moment = Math.min(page.moment, now().length - 1);
  start();
}

function follow(kind, name) {
  page.follow = isFollowed(kind, name) ? null : { kind, name };
  show();
}

function lanes() {
  page.mode = page.mode === "sites" ? "threads" : "sites";
  replan();
  show();
}

function cones() {
  page.cones = !page.cones;
  drawPlot();
}

function plain() {
  page.follow = null;
  page.cones = false;
  show();
}

function hide(what) {
  $("main").classList.toggle(what);
  replan();
  show();
}

const theme = () => document.documentElement.classList.toggle("dark");
const other = () => page.runs.length > 1 && choose((page.run + 1) % page.runs.length);
const help = () => $("keys").showModal();

function start() {
  const trace = now().trace, isGood = /^quiescent .*waiting=0$/.test(trace.end);
  $("title").textContent = document.title = trace.title || "A run of oz";
  $("end").textContent = trace.end;
  $("end").className = "end " + (isGood ? "good" : "bad");
  const button = (_, k) => `<button data-run="${k}" aria-pressed="${k === page.run}">run ${k + 1}</button>`;
  $("runs").innerHTML = page.runs.length < 2 ? "" : page.runs.map(button).join("");
  replan();
  show();
}

// ---- keys

const STEPS = { ArrowRight: () => go(page.moment + 1), ArrowLeft: () => go(page.moment - 1), ArrowDown: () => goTurn(1), ArrowUp: () => goTurn(-1) };
const SHIFTED = { ArrowRight: () => goNotable(1), ArrowLeft: () => goNotable(-1) };
const KEYS = {
  ...STEPS, Home: () => go(0), End: () => go(now().length - 1), " ": play,
  t: () => goThread(1), T: () => goThread(-1), m: goMessage, l: lanes, d: theme,
  c: cones, Escape: plain, r: other, 1: () => hide("no-source"), 3: () => hide("no-panels"), "?": help,
};

function onKey(event) {
  if (event.ctrlKey || event.metaKey || event.altKey || $("keys").open) return;
  const isOfSlider = event.target.id === "slider" && /^(ArrowLeft|ArrowRight|Home|End|Page)/.test(event.key) && !event.shiftKey;
  const named = event.target.closest && event.target.closest("[data-follow]"), isPress = event.key === " " || event.key === "Enter";
  if (isOfSlider || (isPress && event.target.tagName === "BUTTON")) return;
  const does = named && isPress ? () => follow(named.dataset.kind, named.dataset.follow) : (event.shiftKey && SHIFTED[event.key]) || KEYS[event.key];
  if (!does) return;
  event.preventDefault();
  does();
}

// The moment at a place of the diagram.
function onPlot(event) {
  const group = event.target.closest("[data-block]");
  if (!group) return;
  const block = page.plan.blocks[Number(group.dataset.block)], box = $("plot").getBoundingClientRect(), mail = block.message ? 1 : 0;
  const u = Math.floor((event.clientX - box.left - block.lane.x - 9) / (block.unit || 1)) + mail, first = mail && block.past - block.from > 1 ? 1 : 0;
  const isMail = mail && event.clientY - box.top < block.unitsAt;
  go(isMail ? block.from : Math.min(block.past - 1, Math.max(block.from + first, block.from + u)));
}

function onRace(event) {
  const { at, run } = event.target.dataset;
  if (at === undefined) return;
  event.preventDefault();
  page.moment = Number(at);
  page.run = Number(run);
  start();
}

function onScroll() {
  const box = $("time"), [top, bottom] = page.drawn || [0, Infinity];
  const isAtTop = box.scrollTop < top + 60 && top > 0, isAtEnd = box.scrollTop + box.clientHeight > bottom - 60 && bottom < page.plan.height;
  if (isAtTop || isAtEnd) requestAnimationFrame(drawPlot);
}

function onFollow(event) {
  const named = event.target.closest("tr")?.querySelector("[data-follow]");
  if (named) follow(named.dataset.kind, named.dataset.follow);
}

function listen() {
  document.addEventListener("keydown", onKey);
  const buttons = { first: KEYS.Home, last: KEYS.End, prev: STEPS.ArrowLeft, next: STEPS.ArrowRight, play, lanes, theme, svg: saveSvg, help };
  for (const [id, does] of Object.entries(buttons)) $(id).onclick = () => does();
  $("slider").oninput = event => go(Number(event.target.value));
  for (const id of ["store", "cells"]) $(id).onclick = onFollow;
  $("runs").onclick = event => event.target.dataset.run && choose(Number(event.target.dataset.run));
  $("race").onclick = onRace;
  $("plot").onclick = onPlot;
  $("time").addEventListener("scroll", onScroll);
  addEventListener("resize", () => { replan(); show(); });
  addEventListener("beforeprint", drawSheets);
  addEventListener("afterprint", () => { replan(); show(); });
}

// ---- the beginning

function open(traces) {
  if (traces.some(trace => trace.oztrace !== 1)) {
    document.body.innerHTML = "<p class='alone'>This page reads traces of version 1.</p>";
    return;
  }
  page.runs = traces.map(modelOf);
  const asked = new URLSearchParams(location.hash.slice(1)), number = (name, none) => Number(asked.get(name) || none);
  page.run = Math.min(page.runs.length, Math.max(1, number("run", 1))) - 1;
  page.mode = asked.get("lanes") || (now().messages.length ? "sites" : "threads");
  page.moment = Math.min(now().length - 1, Math.max(0, number("moment", 0)));
  const isDark = asked.has("theme") ? asked.get("theme") === "dark" : matchMedia("(prefers-color-scheme: dark)").matches;
  if (isDark) theme();
  page.cones = asked.has("cones");
  const [kind, name] = (asked.get("follow") || "").split(" ");
  if (name) page.follow = { kind, name };
  listen();
  start();
}

open(JSON.parse($("traces").textContent));
