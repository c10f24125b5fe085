import assert from "node:assert/strict";
import test from "node:test";

// The field of the search for tests, and what the site finds
class Element {
  attributes = {};
  children = [];
  heard = {};
  value = "";
  constructor(tag) { this.tag = tag; }
  setAttribute(name, value) { this.attributes[name] = value; }
  removeAttribute(name) { delete this.attributes[name]; }
  addEventListener(what, act) { this.heard[what] = act; }
  append(...all) { this.children.push(...all); }
  replaceChildren(...all) { this.children = all; }
  after(one) { this.next = one; }
  querySelector(tag) { return this.children.find((it) => it.tag === tag); }
  click() { went.push(this.href); }
}
const field = new Element("input"), went = [], asked = [];
let answers = [];
Object.assign(globalThis, {
  document: { getElementById: (name) => (name === "search" ? field : null), createElement: (tag) => new Element(tag), activeElement: field },
  fetch: async (address) => { asked.push(address); return { ok: true, json: async () => answers }; },
});
await import("../find.js");
const list = field.next;
const turn = () => new Promise((resolve) => { setTimeout(resolve, 200); });
const press = (key) => {
  let isStopped = false;
  field.heard.keydown({ key, preventDefault: () => { isStopped = true; } });
  return isStopped;
};
const type = async (text, found) => { field.value = text; answers = found; field.heard.input(); await turn(); };
const TWO = [["Ada Abel, child 1", "/children/1"], ["Alpha, school A", "/schools/A"]];

test("what is found is suggested, and the arrow keys choose", async () => {
  await type("a b", TWO);
  assert.deepEqual(asked, ["/find/near?q=a%20b"]);
  assert.deepEqual(list.children.map((it) => it.children[0].textContent), TWO.map((it) => it[0]));
  assert.equal(field.attributes["aria-expanded"], "true");
  assert.equal(press("Enter"), false, "nothing is chosen: the form is sent");
  assert.ok(press("ArrowDown") && press("ArrowDown"));
  assert.equal(field.attributes["aria-activedescendant"], "near-1");
  assert.ok(press("ArrowDown"), "after the last comes the first");
  assert.deepEqual(list.children.map((it) => it.attributes["aria-selected"]), ["true", "false"]);
  assert.ok(press("ArrowUp") && press("Enter"));
  assert.deepEqual(went, ["/schools/A"]);
});

test("nothing is suggested of an empty field, and Escape ends", async () => {
  await type("a", TWO);
  assert.ok(press("Escape"));
  assert.ok(list.hidden && !press("ArrowDown"));
  asked.length = 0;
  await type(" ", TWO);
  assert.ok(list.hidden && asked.length === 0);
});
