// @ts-check
// A part of a page that says how far something is, which has the address of its page as `data-running`: it is read again every few seconds and
// becomes what it is there, until it has that no more; and so does what the frame says is in progress. What is equal stays as it is, and so do the
// focus, the scroll and what is typed meanwhile.
// Without this script a link looks again.
import { asked } from "./asking.js";

const SECONDS = 3, FRAME = "in-progress";

/** @param {HTMLElement} region */
async function look(region) {
  const request = document.hidden ? null : await asked("GET", region.dataset.running ?? "").catch(() => null);
  for (const it of [region, document.getElementById(FRAME)]) {
    const made = it && request?.responseXML?.getElementById(it.id);
    if (made) become(it, made);
  }
  // (somebody who is signed out meanwhile asks no more; a register that is being copied answers again later)
  if ("running" in region.dataset && ![401, 403, 404].includes(request?.status ?? 0)) wait(region);
}

/** @param {HTMLElement} region */
const wait = (region) => setTimeout(() => { look(region); }, SECONDS * 1000);

/** Makes a node what another one is. @param {ChildNode} there @param {ChildNode} made */
function become(there, made) {
  if (there.isEqualNode(made)) return;
  if (!(there instanceof Element) || there.nodeName !== made.nodeName) {
    there.replaceWith(document.importNode(made, true));
    return;
  }
  const wanted = /** @type {Element} */ (made);
  for (const { name } of [...there.attributes]) if (!wanted.hasAttribute(name)) there.removeAttribute(name);
  for (const { name, value } of wanted.attributes) if (there.getAttribute(name) !== value) there.setAttribute(name, value);
  const before = [...there.childNodes], after = [...made.childNodes];
  before.slice(after.length).forEach((it) => it.remove());
  after.forEach((it, at) => { if (before[at]) become(before[at], it); else there.append(document.importNode(it, true)); });
}

for (const it of document.querySelectorAll("[data-running]")) wait(/** @type {HTMLElement} */ (it));
