"use strict";
// The diagram on paper, and as one picture for slides.

const MOST_SHEETS = 60, SHEET = 1240, SHEET_WIDTH = 1040, HEAD = 44;

// The heads and a part of the diagram, sheet by sheet, cut between blocks; the text stands before the first.
function drawSheets() {
  const m = now(), plan = page.plan = planOf(m, page.mode, SHEET_WIDTH), heads = headsOf(m, plan), last = Math.min(plan.height, MOST_SHEETS * SHEET);
  const room = Math.max(420, SHEET - 90 - 24 * m.trace.text.split("\n").length), parts = [];
  for (let top = 0, bottom = 0; top < last; top = bottom) {
    bottom = cutBetween(plan, top, top + (top ? SHEET : room));
    parts.push(sheet(plan, heads, drawing(m, plan, top, bottom), top, bottom));
  }
  $("plot").innerHTML = parts.join("");
}

function cutBetween(plan, top, bottom) {
  if (bottom >= plan.height) return plan.height;
  const block = plan.blocks[Math.max(0, upper(plan.blocks, bottom, b => b.y + b.h) - 1)], foot = block.y + block.h + 3;
  return foot > top ? foot : bottom;
}

function sheet(plan, heads, drawn, top, bottom) {
  const w = plan.width, h = bottom - top;
  const part = `<svg x="0" y="${top}" width="${w}" height="${h}" viewBox="0 ${top} ${w} ${h}">${drawn}</svg>`;
  const head = `<g transform="translate(0 ${top - HEAD})">${heads}</g>`;
  return `<div class="sheet"><svg viewBox="0 ${top - HEAD} ${w} ${h + HEAD}" width="100%">${part}${head}</svg></div>`;
}

// A diagram as one picture, with the colours in it: `styles` gives the value of a colour's name, `rules` the style sheet of diagrams.
function pictureOf(m, plan, rules, styles) {
  const size = `width="${plan.width}" height="${plan.height + HEAD}" viewBox="0 ${-HEAD} ${plan.width} ${plan.height + HEAD}"`;
  const sheet = `<rect y="${-HEAD}" width="100%" height="100%" style="fill:var(--paper)"/>`;
  const paper = `${sheet}<g transform="translate(0 ${2 - HEAD})">${headsOf(m, plan)}</g>`;
  const text = `<svg xmlns="http://www.w3.org/2000/svg" ${size}><style>${rules}</style>${paper}${drawing(m, plan, 0, plan.height)}</svg>`;
  return text.replace(/var\((--[a-z0-9-]+)\)/g, (_, name) => styles(name).trim().replace(/"/g, "'"));
}

function saveSvg() {
  const styles = getComputedStyle(document.documentElement), isOfDiagram = rule => rule.selectorText && /svg/.test(rule.selectorText);
  const rules = [...document.styleSheets[0].cssRules].filter(isOfDiagram).map(rule => rule.cssText.replace(/svg /g, "")).join("\n");
  const text = pictureOf(now(), page.plan, rules, name => styles.getPropertyValue(name));
  const link = document.createElement("a");
  link.href = URL.createObjectURL(new Blob([text], { type: "image/svg+xml" }));
  link.download = "run.svg";
  link.click();
}
