import assert from "node:assert/strict";
import test from "node:test";

// A page of Answers for tests: its elements as far as the script uses them, and a site that answers each entry as it is said here
class Part {
  constructor(more = {}) {
    Object.assign(this, { heard: {}, childNodes: [], dataset: {}, value: "", textContent: "", isConnected: true }, more);
  }

  addEventListener(what, act) { this.heard[what] = act; }
  replaceChildren(...some) { this.childNodes = some; }
  replaceWith() {}
  setAttribute() {}
  focus() {}
  get text() { return this.childNodes.map((it) => it.textContent).join(" "); }
}

class Button extends Part {}
const kept = new Map();
const window = new Part();
Object.assign(globalThis, {
  HTMLButtonElement: Button, HTMLAnchorElement: class {}, FormData: class { set(name, value) { this[name] = value; } }, window,
  history: { replaceState: () => { globalThis.location.search = ""; } }, location: { pathname: "/answers/", search: "" }, setInterval: () => {},
  sessionStorage: { getItem: (key) => kept.get(key) ?? null, setItem: (key, text) => kept.set(key, text), removeItem: (key) => kept.delete(key) },
});

// What the site answers: a reason, an error of the page or of the line, or "" where the entry is added
const answers = new Map();
let sent = [];
let hold = Promise.resolve();
globalThis.XMLHttpRequest = class {
  open() {}
  setRequestHeader() {}

  send({ entry }) {
    sent.push(entry);
    hold.then(() => {
      const answer = answers.get(entry) ?? "";
      if (answer === "no line") return this.onerror(new Error("no line"));
      const parts = { pile: new Part(), "record-part": new Part({ id: "record-part" }), said: new Part(), answer: answer ? new Part({ textContent: answer }) : null };
      if (answer === "broken") Object.defineProperty(parts.said, "childNodes", { get: () => { throw new Error("broken"); } });
      this.status = answer && answer !== "broken" ? 409 : 200;
      this.responseXML = { getElementById: (id) => parts[id] ?? null };
      return this.onload();
    });
  }
};

let page = {};
let turn = 0;

// Loads the page, with what it has in the field for several
async function load(more = {}) {
  page = {
    entries: new Part({ action: "/answers/" }), entry: new Part(), pasted: new Part({ value: more.pasted ?? "" }), said: new Part(), "signed-in": new Part({ textContent: "jane" }),
    "not-added": new Part(), several: new Part({ id: "several", dataset: more.dataset ?? {} }), pile: new Part(), "record-part": new Part(),
  };
  globalThis.document = Object.assign(new Part(), {
    getElementById: (id) => page[id] ?? null, createElement: () => new Part(), importNode: (it) => it, activeElement: null, querySelector: () => null,
  });
  sent = [];
  turn += 1;
  await import(`../pile.js?${turn}`);
}

const event = (target, submitter = null) => ({ target, submitter, isHeld: false, preventDefault() { this.isHeld = true; } });

function enter(text) {
  page.entry.value = text;
  page.entries.heard.submit(event(page.entries));
}

const settled = async () => { for (let it = 0; it < 50; it++) await null; };

// Presses a button, and returns whether its form was sent at once
function press(form) {
  const made = event(form, new Button({ form }));
  globalThis.document.heard.submit(made);
  return !made.isHeld;
}

test("that an entry was not added is said until the field below is empty, and not until the next one is added", async () => {
  kept.clear();
  await load();
  answers.set("99", "99 was not added: no child has it.");
  enter("99");
  enter("17");
  await settled();
  assert.deepEqual([sent, page.pasted.value], [["99", "17"], "99\n"]);
  assert.equal(page["not-added"].text, "99 is in the field “Several at once” below. 99 was not added: no child has it.");
  page.pasted.value = " ";
  page.pasted.heard.input();
  assert.deepEqual([page["not-added"].text, kept.size], ["", 0]);
});

test("an error in one entry does not drop those after it", async () => {
  kept.clear();
  await load();
  answers.set("5", "broken").set("6", "no line");
  for (const it of ["5", "6", "7"]) enter(it);
  await settled();
  assert.deepEqual([sent, page.pasted.value], [["5", "6", "7"], "5\n6\n"]);
  assert.equal(page["not-added"].text, "2 entries are in the field “Several at once” below. There was no answer.");
});

test("'Record' shows first what was typed meanwhile, and a second press records", async () => {
  kept.clear();
  await load();
  let go = () => {};
  hold = new Promise((resolve) => { go = resolve; });
  enter("17");
  let again = 0;
  const record = new Part({ id: "record", requestSubmit: () => { again += 1; } });
  page["record-all"] = new Button({ form: record });
  assert.equal(press(record), false);
  await settled();
  go();
  await settled();
  hold = Promise.resolve();
  assert.deepEqual([again, page.said.text],
    [0, "Nothing was recorded yet: the batch now has what you typed meanwhile. Look at it, and press Record once more."]);
  assert.equal(press(record), true);
});

test("the text is kept over a reload until the site says that it was added", async () => {
  kept.clear();
  await load();
  page.pasted.value = "17\n99";
  page.pasted.heard.input();
  assert.equal(press(page.several), true);
  assert.deepEqual([...kept.values()], ["17\n99"]);
  // (no answer, and the page is loaded again)
  await load();
  assert.equal(page.pasted.value, "17\n99");
  assert.equal(page["not-added"].text, "What is in the field “Several at once” below was not said to be added before.");
  press(page.several);
  globalThis.location.search = "?added=yes";
  await load({ dataset: { added: "yes" } });
  assert.deepEqual([page.pasted.value, kept.size, globalThis.location.search], ["", 0, ""]);
});

test("an entry that is on its way is kept as well", async () => {
  kept.clear();
  await load();
  let go = () => {};
  hold = new Promise((resolve) => { go = resolve; });
  enter("17");
  enter("18");
  assert.deepEqual([...kept.values()], ["17\n18\n"]);
  go();
  hold = Promise.resolve();
  await settled();
  assert.equal(kept.size, 0);
});
