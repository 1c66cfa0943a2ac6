"use strict";
// The state beside the diagram: what the selected unit does, threads, cells and ports, output, variables, messages that travel, and where two
// runs part.

const SAYS = {
  seq: "begins a sequence", skip: "skips", local: "declares", tell: "tells", proc: "makes a procedure", calc: "calculates", test: "compares",
  select: "selects", if: "chooses", case: "matches", call: "calls", browse: "shows", wait: "needs", cell: "makes a cell",
  cellat: "makes a cell at a site", exchange: "exchanges", port: "makes a port", send: "sends", thread: "makes a thread", try: "tries",
  raise: "raises",
};
const GOES_ON = { "-1": "goes on telling", "-2": "leaves a try that went well", "-3": "reports its exception" };

const mono = text => `<span class="mono">${escape(text)}</span>`;
const boldMono = text => `<b class="mono">${escape(text)}</b>`;
const paragraph = html => `<p>${html}</p>`;

// ---- the selected moment

function drawNow(m) {
  const unit = unitAt(m, page.moment);
  fill("now", (unit ? unitSaid(m, unit) : deliverySaid(m)).join(""));
}

function deliverySaid(m) {
  const k = page.moment, entry = m.trace.entries[m.entryOf[k]], message = m.messages[entry.m];
  const took = entry.m === undefined ? "has a turn without units" : message ? "takes " + escape(messageText(m, message)) : "takes message " + entry.m;
  const out = [paragraph(`<b>Site ${entry.s}</b> ${took}`)], count = (entry.eq || []).length;
  if (count) {
    const said = entry.eq.slice(0, 4).map(([x]) => nameOf(m, x) + " = " + textAt(m, entry.s, x, k, { nodes: 10 })).join(", ");
    out.push(paragraph(`It learns ${count === 1 ? "an equation" : count + " equations"}: ${mono(said + (count > 4 ? " …" : ""))}`));
  }
  return [...out, ...sendsSaid(m)];
}

function sendsSaid(m) {
  const sent = m.byEntry[m.entryOf[page.moment]].filter(x => x.sent === page.moment);
  return sent.map(x => paragraph("→ sends " + escape(messageText(m, x))));
}

function unitSaid(m, unit) {
  const k = page.moment, [name, row, vars = [], effect = {}] = unit, thread = m.threads.get(name), at = row >= 0 ? row : rowAt(m, thread, k);
  const place = m.rows[at] ? " at " + m.rows[at][1].join(":") : "", quoted = escape(textOfRow(m, at));
  const out = [`<p>${chip(thread)} <b>${saysOf(m, row)}</b>${place}</p><p class="quote" title="${quoted}">${quoted}</p>`];
  const operands = operandsSaid(m, row, at, vars);
  if (operands) out.push(`<p class="small mono">${operands}</p>`);
  return [...out, ...effectsSaid(m, thread, row, effect), ...sendsSaid(m)];
}

function saysOf(m, row) {
  if (row < 0 || !m.rows[row]) return GOES_ON[row] || "goes on";
  return m.rows[row][0] === "local" && !m.rows[row][3].some(Boolean) ? "makes a variable for a value" : SAYS[m.rows[row][0]];
}

function operandsSaid(m, row, at, vars) {
  const stated = row >= 0 && m.rows[row] ? m.rows[row] : null;
  if (!stated || stated[0] === "local") return "";
  const site = m.trace.entries[m.entryOf[page.moment]].s;
  const said = stated[3].map((named, j) => {
    if (!vars[j] || (stated[0] === "call" && j === 0)) return "";
    const label = named ? named[0] : nameOf(m, vars[j]);
    return escape(cut(`${label === textOfRow(m, at) ? "result" : label} = ${textAt(m, site, vars[j], page.moment, { nodes: 12 })}`, 70));
  });
  return said.filter(Boolean).join(" &nbsp;·&nbsp; ");
}

function effectsSaid(m, thread, row, effect) {
  const k = page.moment, site = thread.site, out = [], wait = thread.waits.find(w => w.from === k);
  for (const [x, term] of effect.eq || []) out.push(`◆ binds ${boldMono(nameOf(m, x))} = ${mono(termText(m, site, term, k))}`);
  if (wait) {
    const what = awaited(m, thread, wait), until = wait.until === Infinity ? ", for ever" : `, up to turn ${m.entryOf[wait.until]}`;
    out.push(`❙❙ waits for ${escape(what.why)} ${boldMono(what.name)}${what.place ? " at " + what.place.join(":") : ""}${until}`);
  }
  if (effect.t) out.push(`✚ thread ${chip(m.threads.get(effect.t))} at site ${m.threads.get(effect.t).site}`);
  if (effect.x && m.rows[row] && m.rows[row][0] === "send") out.push("▣ the end of the port moves");
  else if (effect.x) out.push(`▣ takes ${mono(nameOrValue(m, site, effect.x[1], k))}, leaves ${mono(nameOrValue(m, site, effect.x[2], k))}`);
  if (effect.r !== undefined) out.push(`✖ raises ${mono(textAt(m, site, effect.r, k))}`);
  if (effect.end) out.push("The thread ends.");
  for (const line of linesWithin(m, k, k + 1)) out.push(`● prints ${boldMono(line.text)}`);
  return out.map(paragraph);
}

// ---- threads

const ORDER = { running: 0, waiting: 1, runnable: 2, travels: 3, ended: 4, unborn: 5 };
const MOST_THREADS = 14;

function drawThreads(m) {
  const counts = { running: 0, runnable: 0, waiting: 0, ended: 0, travels: 0, unborn: 0 };
  const all = [...m.threads.values()].map(thread => ({ thread, ...stateOf(thread, page.moment) }));
  for (const one of all) counts[one.state] += 1;
  let shown = all.filter(x => x.state !== "unborn");
  const more = shown.length - MOST_THREADS;
  if (more > 0) shown = shown.sort((a, b) => ORDER[a.state] - ORDER[b.state] || a.thread.number - b.thread.number).slice(0, MOST_THREADS);
  const rows = shown.map(one => threadRow(m, one)).join("");
  fill("threads", `<table><caption class="unseen">threads</caption>${rows}</table>${more > 0 ? `<p class="small">and ${more} more</p>` : ""}`);
  const said = [["running", counts.running], ["runnable", counts.runnable + counts.travels], ["waiting", counts.waiting], ["ended", counts.ended]];
  $("thread-count").textContent = said.filter(x => x[1]).map(x => x[1] + " " + x[0]).join(", ");
  return shown.filter(one => one.wait).map(one => awaited(m, one.thread, one.wait));
}

function threadRow(m, { thread, state, wait }) {
  const at = rowAt(m, thread, page.moment), place = m.rows[at] ? m.rows[at][1].join(":") : "", last = unitAt(m, lastOf(thread.units) ?? 0);
  let said = state === "travels" ? "travels to site " + thread.site : state, where = state === "ended" ? "" : place;
  if (state === "ended" && thread.raised.length && last && last[1] === -3) said = "ended by an exception";
  if (wait) {
    const what = awaited(m, thread, wait), birth = makerOf(m, thread, wait);
    said = `waits for ${escape(what.why)} ${boldMono(what.name)}`;
    where = what.place ? what.place.join(":") : place;
    const other = birth && birth.name && birth.name !== what.name ? "= " + escape(birth.name) + " " : "";
    if (birth) said += ` <span class="small">${other}of</span> ${chip(birth.by, "runnable")}`;
  }
  const site = m.trace.sites > 1 ? `<td class="small">site ${thread.site}</td>` : "";
  return `<tr><td class="n">${chip(thread, state)}</td><td>${said}</td><td class="mono small">${where}</td>${site}</tr>`;
}

// ---- cells and ports

function drawCells(m) {
  const rows = [...m.cells.values(), ...m.ports.values()].map(holder => holderRow(m, holder)).filter(Boolean);
  $("cells-part").hidden = !m.cells.size && !m.ports.size;
  const more = rows.length > 12 ? `<p class="small">and ${rows.length - 12} before</p>` : "";
  fill("cells", `<table><caption class="unseen">cells and ports</caption>${rows.slice(-12).join("")}</table>${more}`);
}

function whereOf(m, holder, last) {
  if (holder.kind === "port") return `end at site ${last.site}`;
  if (!last.site) return `travels to site ${last.message.to}`;
  if (holder.home) return `home: site ${holder.home}`;
  return m.trace.sites > 1 ? `token at site ${last.site}` : "";
}

function followed(kind, name) {
  const isOn = isFollowed(kind, name);
  return `data-follow="${name}" data-kind="${kind}" tabindex="0" role="button" aria-pressed="${isOn}" title="follow it through the diagram"`;
}

function holderRow(m, holder) {
  const k = page.moment, last = holder.log[upper(holder.log, k, l => l.at) - 1];
  if (!last) return "";
  const site = last.site || last.message.from, shown = holder.kind === "port" ? holder.stream : last.content;
  const value = textAt(m, site, shown, k, { nodes: 12 }), said = value === "_" ? nameOf(m, last.content) + " = _" : value;
  const kinds = (last.at === k ? "fresh" : "") + (isFollowed(holder.kind, holder.name) ? " followed" : "");
  const name = `<span ${followed(holder.kind, holder.name)}>${escape(holderName(m, holder))}</span> <small>${holder.kind} ${holder.name}</small>`;
  return `<tr class="${kinds}"><td class="n">${name}</td><td class="v">${escape(said)}</td><td class="small">${whereOf(m, holder, last)}</td></tr>`;
}

// ---- output

function drawOutput(m) {
  const count = upper(m.lines, page.moment, l => l.at), isEnd = page.moment === m.length - 1;
  const said = m.lines.slice(Math.max(0, count - 200), count);
  const lines = said.map(line => `<div class="${line.at === page.moment ? "new" : ""}">${escape(line.text)}</div>`).join("");
  const foot = isEnd ? `<div>${escape(m.trace.end)}</div>` : count === m.lines.length ? "" : `<div class="later">…</div>`;
  const isChanged = fill("output", lines + foot || "&nbsp;");
  $("line-count").textContent = `${count} of ${m.lines.length} lines`;
  if (isChanged) $("output").scrollTop = 1e9;
}

// ---- variables: those that one `local` made once first, then the latest others; a column for each site where there are few

function drawStore(m) {
  const k = page.moment, used = [...new Set(m.trace.entries.map(e => e.s))].sort((a, b) => a - b);
  const columns = used.length > 1 && used.length <= 4 ? used : [];
  const main = mainVariables(m).filter(x => m.births.get(x).at <= k && !isProcedure(m, x, k)).slice(0, 24);
  const others = m.others.slice(0, upper(m.others, k, x => birthOf(m, x).at)).slice(-10).reverse();
  const row = isLocal => x => variableRow(m, x, isLocal, used, columns), wide = 2 + Math.max(columns.length, used.length > 1 ? 1 : 0);
  const head = columns.length ? `<tr><th>name</th><th>value</th>${columns.map(s => `<th>${s}</th>`).join("")}</tr>` : "";
  const parting = others.length ? `<tr><td colspan="${wide}" class="small part">latest in procedures</td></tr>` : "";
  const table = `${head}${main.map(row(false)).join("")}${parting}${others.map(row(true)).join("")}`;
  const legend = columns.length ? `<p class="small">● known at the site, ○ owned there and open</p>` : "";
  fill("store", `<table><caption class="unseen">variables</caption>${table}</table>${legend}`);
  const known = m.sites.reduce((sum, site) => sum + upper(site.moments, k, x => x[0]), 0);
  $("store-count").textContent = known + (known === 1 ? " equation" : " equations") + (m.trace.sites > 1 ? " at all sites" : "");
}

// The value of a variable where it is known: at its owner, else at the site that is selected.
function storeText(m, x, owner) {
  const k = page.moment, site = m.trace.entries[m.entryOf[k]].s, at = m.trace.sites > 1 ? owner : site;
  if (boundAt(m, site, x) <= k) return textAt(m, site, x, k);
  return boundAt(m, at, x) <= k ? textAt(m, at, x, k) : "_";
}

function variableRow(m, x, isLocal, used, columns) {
  const k = page.moment, owner = Number(x.split(".")[0]), value = storeText(m, x, owner), birth = birthOf(m, x), knows = s => boundAt(m, s, x) <= k;
  const dots = columns.map(s => `<td title="site ${s}">${knows(s) ? "●" : s === owner ? "○" : "·"}</td>`).join("");
  const count = !columns.length && used.length > 1 ? `<td class="small">${used.filter(knows).length}/${used.length}</td>` : "";
  const isFresh = m.sites.some(site => (site.known.get(x) || {}).at === k), where = birth.place ? birth.place.join(":") : "";
  const kinds = (isFresh ? "fresh" : "") + (isFollowed("variable", x) ? " followed" : ""), by = isLocal && birth.by ? " by " + birth.by.name : "";
  const name = `<span ${followed("variable", x)}>${escape(nameOf(m, x))}</span> <small>${where}${by}</small>`;
  const open = value === "_" ? " unknown" : "";
  return `<tr class="${kinds}"><td class="n">${name}</td><td class="v${open}">${escape(cut(value, 64))}</td>${dots}${count}</tr>`;
}

// ---- messages that travel

function drawMail(m) {
  const k = page.moment, travels = m.messages.filter(x => x.sent <= k && x.come > k), more = travels.length - 8;
  const about = x => `<b>${x.kind}</b> ${escape(cut(aboutText(m, x), 26))}`;
  const row = x => `<div class="small"><span class="mono">${x.number}</span> ${about(x)} &nbsp;${x.from} → ${x.to}</div>`;
  $("mail-part").hidden = !m.messages.length;
  $("mail-count").textContent = travels.length ? String(travels.length) : "none";
  fill("mail", travels.slice(0, 8).map(row).join("") + (more > 0 ? `<div class="small">and ${more} more</div>` : ""));
}

// ---- where two runs part

function drawRace() {
  if (page.runs.length < 2) return;
  if (page.difference === undefined) page.difference = differenceOf(page.runs[0], page.runs[1]);
  const none = "<p>No choice differs between these two runs but the order of lines.</p>";
  fill("race", `<div class="race">${page.difference ? partingSaid(page.difference) : none}</div>`);
}

function partingSaid(d) {
  const m = page.runs[0], kind = d.key.split(" ")[0], born = m.births.get(d.left.x), place = born && born.place ? born.place.join(":") : "";
  const holder = d.left.holder ? ` <span class="small">(${d.left.holder.name})</span>` : "";
  const lines = page.runs.map(run => [...run.lines.map(l => l.text), run.trace.end]), at = lines[0].findIndex((line, k) => line !== lines[1][k]);
  const of = r => mono(cut(lines[r][at] || "none", 40)) + " in run " + (r + 1);
  const outcome = at < 0 ? "Both print the same." : `Line ${at + 1} is then ${of(0)}, ${of(1)}.`;
  const head = `<b>Where the runs part:</b> ${kind} ${boldMono(nameOf(m, d.left.x))} ${place}${holder}`;
  return [head, sideSaid(0, d.left, kind, d.nth), sideSaid(1, d.right, kind, d.nth), outcome].map(paragraph).join("");
}

function sideSaid(r, use, kind, nth) {
  const run = page.runs[r], value = kind === "variable" ? textAt(run, Number(use.x.split(".")[0]), use.x, use.at) : "";
  const bound = mono(nameOf(run, use.x) + " = " + value);
  const did = { variable: `binds ${bound}`, cell: `makes exchange ${nth + 1} of it`, port: `makes send ${nth + 1} to it` };
  return `Run ${r + 1}: ${chip(use.thread)} ${did[kind]} <a href="#" data-run="${r}" data-at="${use.at}">turn ${run.entryOf[use.at]}</a>`;
}

// ---- the legend

function drawLegend(m) {
  const head = kind => `<path d="M29 4L22 1V7Z" style="fill:var(--${kind})"/></svg>`, svg = `<svg width="30" height="8" aria-hidden="true">`;
  const line = (kind, drawn, text) => `<span>${svg}<line x1="1" x2="24" y1="4" y2="4" class="${kind}"/>${head(drawn)}${text}</span>`;
  const box = `<svg width="12" height="12" aria-hidden="true"><rect width="12" height="12" rx="2" fill="var(--t7)"/>`;
  const sign = ([name, text]) => `<span>${box}<path d="${SIGNS[name]}" transform="translate(6 6)" style="fill:var(--on)"/></svg>${text}</span>`;
  const kinds = new Set(m.messages.map(x => KINDS[x.kind])), names = { vars: "variables", cells: "cells", ports: "ports", spawns: "a thread moves" };
  const wakes = page.mode === "threads" ? line("wake", "vars", "a binding lets it go on") + line("born", "spawns", "is made") : "";
  const signs = { bind: "binds", wait: "waits", line: "prints", raise: "raises", thread: "makes a thread", swap: "cell or port" };
  const lines = Object.keys(names).filter(k => kinds.has(k)).map(k => line("msg " + k, k, names[k])).join("");
  $("legend").innerHTML = wakes + lines + Object.entries(signs).map(sign).join("") + `<span class="said">${escape(sourceSaid(m.trace))}</span>`;
}

// Who says that the run is right, and who told the data.
function sourceSaid(trace) {
  const run = trace.checked ? "of a run that the program's check finds right" : "of a run that nobody checked";
  return `Data ${run}, told by ${trace.told || "the program"}. The drawing is not proved.`;
}
