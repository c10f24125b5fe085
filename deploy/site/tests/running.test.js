import assert from "node:assert/strict";
import test from "node:test";

// A page for tests: elements with their attributes, and texts
class Text {
  nodeName = "#text";
  constructor(text) { this.text = text; }
  isEqualNode(other) { return other.text === this.text; }
  replaceWith(other) { this.parent.childNodes = this.parent.childNodes.map((it) => (it === this ? other : it)); other.parent = this.parent; }
}
class Element extends Text {
  constructor(nodeName, given = {}, ...inner) {
    super("");
    Object.assign(this, { nodeName, given: { ...given }, childNodes: [] });
    this.append(...inner);
  }
  append(...all) { all.forEach((it) => { it.parent = this; this.childNodes.push(it); }); }
  get id() { return this.given.id; }
  get dataset() { return "data-running" in this.given ? { running: this.given["data-running"] } : {}; }
  get attributes() { return Object.entries(this.given).map(([name, value]) => ({ name, value })); }
  hasAttribute(name) { return name in this.given; }
  getAttribute(name) { return this.given[name] ?? null; }
  setAttribute(name, value) { this.given[name] = value; }
  removeAttribute(name) { delete this.given[name]; }
  isEqualNode(other) { return other.nodeName === this.nodeName && shown(this) === shown(other); }
}
Text.prototype.remove = function remove() { this.parent.childNodes = this.parent.childNodes.filter((it) => it !== this); };
const shown = (it) => (it instanceof Element ? `<${it.nodeName} ${JSON.stringify(it.given)}>${it.childNodes.map(shown).join("")}` : it.text);
const found = (root, id) => [root, ...root.childNodes.filter((it) => it instanceof Element)].map((it) => (it.id === id ? it : it === root ? null : found(it, id))).find(Boolean) ?? null;

const page = (state, now) => new Element("BODY", {},
  new Element("DIV", { id: "in-progress" }, ...(now ? [new Element("DIV", { role: "status" }, new Text(now))] : [])),
  new Element("DIV", { id: "draw", ...(now ? { "data-running": "/draws/1" } : {}) }, new Text(state)));
const here = page("Under way", "Recording is paused"), turns = [];
let there = here;
Object.assign(globalThis, {
  Element,
  setTimeout: (act) => turns.push(act),
  document: {
    getElementById: (id) => found(here, id), querySelectorAll: () => [found(here, "draw")], importNode: (it) => it,
  },
  XMLHttpRequest: class {
    open(_, address) { this.address = address; }
    setRequestHeader() {}
    send() { Object.assign(this, { status: 200, responseXML: { getElementById: (id) => found(there, id) } }); this.onload(); }
  },
});
await import("../running.js");
const look = async () => { turns.shift()(); for (let at = 0; at < 9; at += 1) await null; };

test("a part that ends is shown, and what the frame says is in progress ends with it", async () => {
  const region = found(here, "draw");
  there = page("The places are given", "Recording is paused");
  await look();
  assert.equal(shown(here), shown(there));
  there = page("Complete", "");
  await look();
  assert.equal(shown(here), shown(there));
  assert.equal(found(here, "draw"), region, "it is the same part, so that the focus stays");
  assert.equal(turns.length, 0, "nothing is read again after the end");
});
