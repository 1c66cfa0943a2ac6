"use strict";
// For node: the parts of the page that need no browser, and the colours of its style sheet.
const fs = require("fs"), path = require("path"), vm = require("vm");

const PARTS = ["model", "state", "parting", "text", "plan", "diagram", "printing"];
const read = name => fs.readFileSync(path.join(__dirname, name), "utf8");
vm.runInThisContext(PARTS.map(name => read(name + ".js")).join("\n"));

// The value of each colour's name, of the light page or of the dark one.
function coloursOf(isDark) {
  const found = {};
  for (const [, kind, body] of read("style.css").matchAll(/:root(\.dark)? \{([^}]*)\}/g)) {
    if (kind && !isDark) continue;
    for (const [, name, value] of body.matchAll(/(--[a-z0-9-]+): ([^;]+);/g)) found[name] = value.replace(/\s+/g, " ");
  }
  return found;
}

// The rules of the style sheet that a diagram needs.
function rulesOfDiagram() {
  const rules = [...read("style.css").matchAll(/([^{}]+)\{([^{}]*)\}/g)].filter(([, names]) => /\bsvg\b|#plot|halo/.test(names));
  return rules.map(([, names, body]) => `${names.trim().replace(/svg |#plot /g, "")}{${body.trim().replace(/\s+/g, " ")}}`).join("\n");
}

module.exports = { coloursOf, rulesOfDiagram };
