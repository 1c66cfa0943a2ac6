"use strict";
// Of two runs of one text the first choice in which they differ.

// The choices of a run, by names that do not rest on the order of turns: threads by their makers, variables and cells by who made them as which.
function choicesOf(m) {
  const choices = new Map(), owners = new Map();
  const put = (key, choice) => { if (!choices.has(key)) choices.set(key, []); choices.get(key).push({ ...choice, who: choice.thread.path }); };
  for (const [x, birth] of m.births) owners.set(x, birth.by.path + "/" + birth.nth);
  m.trace.entries.forEach((entry, e) => {
    const told = x => owners.has(x) && x.split(".")[0] === String(entry.s);
    entry.u.forEach((unit, u) => {
      const moment = momentOf(m, e, u), thread = m.threads.get(unit[0]);
      for (const [x] of (unit[3] || {}).eq || []) if (told(x)) put("variable " + owners.get(x), { at: moment, thread, x });
    });
    const message = m.messages[entry.m], asked = message && message.kind === "BindReq" ? message.about : null;
    const isTaken = asked && owners.has(asked[0]) && (entry.eq || []).some(([x]) => x === asked[0]);
    if (isTaken) put("variable " + owners.get(asked[0]), { at: m.start[e], thread: m.threads.get(asked[2]), x: asked[0] });
  });
  for (const holder of [...m.cells.values(), ...m.ports.values()]) {
    const key = holder.kind + " " + (owners.get(holder.variable) || holder.by.path + "/" + holder.at);
    for (const use of holder.uses) if (use.thread) put(key, { at: use.at, thread: use.thread, holder, x: holder.variable });
  }
  return choices;
}

function differenceOf(a, b) {
  const left = choicesOf(a), right = choicesOf(b);
  let best = null;
  for (const [key, uses] of left) {
    const others = right.get(key) || [];
    const k = uses.findIndex((use, j) => j < others.length && use.who !== others[j].who);
    if (k >= 0 && (!best || uses[k].at < best.left.at)) best = { key, left: uses[k], right: others[k], nth: k };
  }
  return best;
}
