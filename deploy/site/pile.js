// @ts-check
// The field of Answers: an entry leaves it with its Enter and is added while the next one is typed, so that no key is lost. Without this
// script each entry loads the page again. What could not be added is put into the field for several, also after a reload, and is said until that
// field is empty. What was typed while 'Record' was pressed is shown before anything is recorded.
import { asked } from "./asking.js";

const form = /** @type {HTMLFormElement} */ (document.getElementById("entries"));
const field = /** @type {HTMLInputElement} */ (document.getElementById("entry"));
const several = /** @type {HTMLTextAreaElement} */ (document.getElementById("pasted"));
const status = /** @type {HTMLElement} */ (document.getElementById("said"));
const notAdded = /** @type {HTMLElement} */ (document.getElementById("not-added"));
const severalForm = /** @type {HTMLFormElement} */ (document.getElementById("several"));
const KEY = `answers that were not added ${document.getElementById("signed-in")?.textContent}`;

let adding = Promise.resolve();
// The entries that have no answer yet, in their order; and how many had none that says that they are added
/** @type {string[]} */
const open = [];
let failed = 0;

form.addEventListener("submit", (event) => {
  event.preventDefault();
  const entry = field.value.trim();
  if (!entry) return;
  field.value = "";
  const body = new FormData(form);
  body.set("entry", entry);
  open.push(entry);
  keep();
  adding = adding.then(() => add(entry, body)).catch(() => refuse(entry, "Look whether the batch has it already."))
    .finally(() => { open.shift(); keep(); });
});

several.addEventListener("input", () => {
  keep();
  if (several.value.trim()) return;
  failed = 0;
  notAdded.replaceChildren();
});

// A key that is held down adds nothing twice
form.addEventListener("keydown", (event) => {
  if (event.key === "Enter" && event.repeat) event.preventDefault();
});

document.addEventListener("submit", (event) => {
  const sent = /** @type {HTMLFormElement} */ (event.target);
  if (sent === form) return;
  if (!open.length) return;
  event.preventDefault();
  const button = event.submitter;
  adding.then(() => {
    if (sent.id === "record") {
      status.replaceChildren(paragraph("answer", "info", "Nothing was recorded yet: the batch now has what you typed meanwhile. Look at it, and press Record once more."));
    } else if (button instanceof HTMLButtonElement && button.isConnected) button.form?.requestSubmit(button);
  });
});

window.addEventListener("beforeunload", (event) => { if (open.length) event.preventDefault(); });

/** @param {string} entry @param {FormData} body */
async function add(entry, body) {
  const request = await asked("POST", form.action, body).catch(() => null);
  if (request && show(request)) return;
  refuse(entry, request?.responseXML?.getElementById("answer")?.textContent ?? "There was no answer.");
}

// Puts an entry that was not added into the field for several, and says so
/** @param {string} entry @param {string} reason */
function refuse(entry, reason) {
  several.value = withLine(several.value, entry);
  failed += 1;
  const who = failed === 1 ? `${entry} is` : `${failed} entries are`;
  notAdded.replaceChildren(paragraph("left", "bad", `${who} in the field “Several at once” below. ${reason}`));
}

/** @param {string} text @param {string} line */
const withLine = (text, line) => `${text}${text && !text.endsWith("\n") ? "\n" : ""}${line}\n`;

/** @param {string} id @param {string} kind @param {string} text */
function paragraph(id, kind, text) {
  const made = document.createElement("p");
  Object.assign(made, { id, className: `banner ${kind}`, textContent: text });
  made.setAttribute("role", kind === "bad" ? "alert" : "status");
  return made;
}

// Shows the pile of a page that was read, if it is one
/** @param {XMLHttpRequest} request */
function show(request) {
  const made = request.responseXML;
  const pile = made?.getElementById("pile"), record = made?.getElementById("record-part"), said = made?.getElementById("said");
  if (request.status !== 200 || !pile || !record || !said) return false;
  status.replaceChildren(...said.childNodes);
  const held = document.activeElement?.id;
  for (const it of [record, pile]) document.getElementById(it.id)?.replaceWith(document.importNode(it, true));
  if (held && document.activeElement?.id !== held) document.getElementById(held)?.focus();
  return true;
}

// How far a pile is that is being recorded
setInterval(() => {
  const link = document.querySelector("#running a");
  if (open.length || !(link instanceof HTMLAnchorElement)) return;
  asked("GET", link.href).then(show, () => {});
}, 2000);

// Keeps what no answer has said to be added: the field for several, and the entries that have no answer yet
function keep() {
  const text = open.reduce(withLine, several.value);
  try {
    if (text.trim()) sessionStorage.setItem(KEY, text);
    else sessionStorage.removeItem(KEY);
  } catch { /* a browser that keeps nothing: the field has it until the page is left */ }
}

// (what the site has said to be added is not kept any more, and its address would say so again after a reload)
if ("added" in severalForm.dataset) {
  keep();
  history.replaceState(null, "", location.pathname);
} else if (!several.value) {
  try {
    several.value = sessionStorage.getItem(KEY) ?? "";
  } catch { /* as above */ }
  if (several.value) notAdded.replaceChildren(paragraph("left", "bad", "What is in the field “Several at once” below was not said to be added before."));
}
