import assert from "node:assert/strict";
import test from "node:test";

// A form of one of the office's screens for tests, and a tab of the browser in which it is shown more than once
const kept = new Map();
let notes = [];
let forms = [];
Object.assign(globalThis, {
  location: { pathname: "/applications/", reload: () => {} },
  sessionStorage: { getItem: (key) => kept.get(key) ?? null, setItem: (key, text) => kept.set(key, text), removeItem: (key) => kept.delete(key) },
  document: {
    getElementById: () => ({ textContent: "secondary-2025, jane" }),
    querySelectorAll: () => forms,
    createElement: () => ({ heard: {}, setAttribute() {}, addEventListener(what, act) { this.heard[what] = act; }, append(text) { this.text = text; } }),
  },
});
let turn = 0;

// Shows a page with a form of these fields, and returns what a person does with it
async function shown(fields, path = "/applications/") {
  globalThis.location.pathname = path;
  notes = [];
  const heard = {};
  const elements = Object.entries(fields).map(([name, value]) => ({ name, value, type: name.startsWith("seen") || name === "form" ? "hidden" : "text", tagName: "INPUT" }));
  forms = [{ id: "table", elements, addEventListener: (what, act) => { heard[what] = act; }, before: (note) => notes.push(note.text) }];
  await import(`../kept.js?${turn += 1}`);
  const of = (name) => elements.find((it) => it.name === name);
  return {
    value: (name) => of(name).value,
    type: (name, value) => { of(name).value = value; heard.input(); },
    send: () => heard.submit(),
  };
}

const ROWS = { form: "x", "name-1": "Ada", "east-1": "5", "seen-1": "v1", "name-2": "Ben", "seen-2": "v1" };

test("what was typed is there after a reload, with what was seen, until it is sent", async () => {
  const page = await shown(ROWS);
  assert.deepEqual(notes, []);
  page.type("name-1", "Ada Abbott");
  const again = await shown({ ...ROWS, form: "y", "seen-1": "v2", "name-1": "Ada B", "east-1": "6", "seen-2": "v2" });
  assert.deepEqual(notes, ["What you typed here is not saved yet. "]);
  assert.equal(again.value("name-1"), "Ada Abbott");
  assert.equal(again.value("seen-1"), "v1", "so that the application compares with what was seen");
  assert.equal(again.value("east-1"), "6");
  assert.equal(again.value("seen-2"), "v2", "nothing was typed into the second row");
  assert.equal(again.value("form"), "y", "the secret of a session is not kept");
  again.send();
  const after = await shown(ROWS);
  assert.equal(after.value("name-1"), "Ada");
  assert.deepEqual(notes, []);
});

test("what is taken back is not kept", async () => {
  const page = await shown(ROWS);
  page.type("name-2", "Bo");
  page.type("name-2", "Ben");
  assert.equal(kept.size, 0);
});

test("another page of the same table keeps its own rows, and another screen has none of them", async () => {
  (await shown(ROWS)).type("name-1", "Ada Abbott");
  const second = await shown({ "name-9": "Ivo", "seen-9": "v1" });
  second.type("name-9", "Ivor");
  second.send();
  assert.equal((await shown({ "name-1": "Other" }, "/flags/")).value("name-1"), "Other");
  const first = await shown(ROWS);
  assert.equal(first.value("name-1"), "Ada Abbott");
  first.send();
  assert.equal(kept.size, 0);
});

test("a form of one object keeps what was seen of it", async () => {
  (await shown({ seen: "old", name: "Ada" }, "/children/1/correct")).type("name", "Adah");
  const again = await shown({ seen: "new", name: "Ada B" }, "/children/1/correct");
  assert.deepEqual([again.value("seen"), again.value("name")], ["old", "Adah"]);
});

test("a browser that keeps nothing shows the form as it is", async () => {
  kept.set("form secondary-2025, jane /x table", "{broken");
  assert.equal((await shown({ name: "Ada" }, "/x")).value("name"), "Ada");
});
