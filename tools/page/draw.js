"use strict";
// draw.js FILE < LISTING: the picture of a graph as the page's tab Graph has it, as an SVG file of its own, without a
// browser. tools/graph takes it where there is no Graphviz.
const fs = require("fs"), path = require("path");
const read = (name) => fs.readFileSync(path.join(__dirname, name), "utf8");

const SIGNS = { "&": "&amp;", "<": "&lt;", ">": "&gt;", '"': "&quot;" };
const escaped = (text) => text.replace(/[&<>"]/g, (it) => SIGNS[it]);

// As much of an element as graph.js asks for.
class Element {
  constructor(kind) {
    Object.assign(this, { kind, attributes: [], parts: [], textContent: "" });
  }

  setAttribute(name, value) {
    this.attributes.push(` ${name}="${escaped(String(value))}"`);
  }

  appendChild(part) {
    this.parts.push(part);
    return part;
  }

  replaceChildren(...parts) {
    this.parts = parts;
  }

  toString() {
    const inside = escaped(this.textContent) + this.parts.join("");
    return `<${this.kind}${this.attributes.join("")}>${inside}</${this.kind}>` + (this.kind === "g" ? "\n" : "");
  }
}

// The page's rules for the picture, in light colours, without names of colours, which not every viewer reads.
function style() {
  const sheet = read("page.css"), light = /:root \{([^}]*)\}/.exec(sheet)[1];
  const colours = new Map([...light.matchAll(/(--\w+): ([^;]+);/g)].map((it) => [it[1], it[2]]));
  const rules = sheet.split("\n").filter((line) => line.startsWith("svg.graph")).join("\n");
  return rules.replace(/var\((--\w+)\)/g, (_, name) => colours.get(name));
}

const code = ["text.js", "graph.js"].map(read).join("\n");
const page = new Function("document", `${code}; return { tokensOf, namesOf, drawGraph };`)({
  createElementNS: (_, kind) => new Element(kind),
});
const words = read("../../editors/vim/syntax/id.vim").matchAll(/^syntax keyword id(\w+) +(.+)$/gm);
const classes = Object.fromEntries([...words].map((it) => [it[1].toLowerCase(), it[2].split(" ")]));
const text = fs.readFileSync(process.argv[2], "utf8"), listing = fs.readFileSync(0, "utf8"), root = new Element("div");
const names = page.namesOf(text, page.tokensOf(text, classes));
page.drawGraph(root, listing, names, { go: () => {}, withTriggers: false, withCalls: true, wide: 1000, most: 1e9 });
const [picture] = root.parts;
picture.setAttribute("xmlns", "http://www.w3.org/2000/svg");
const rules = new Element("style");
rules.textContent = style();
picture.parts.unshift(rules);
process.stdout.write(picture + "\n");
