// @ts-check
// The lots of the supervisor: what is typed is saved when its field is left, and what is wrong with a lot is marked at once, as the saved page has it.
// Without this script the button Save does both.
import { asked } from "./asking.js";

const form = /** @type {HTMLFormElement} */ (document.getElementById("lots"));
const status = /** @type {HTMLElement} */ (document.getElementById("said"));
const counts = /** @type {HTMLElement} */ (document.getElementById("counts"));
let saving = Promise.resolve();
let open = 0;

form.addEventListener("change", () => {
  open += 1;
  saving = saving.then(save).finally(() => { open -= 1; });
});

// A button saves the page as it is then, so what is under way comes first
form.addEventListener("submit", (event) => {
  if (!open) return;
  event.preventDefault();
  saving.then(() => form.requestSubmit(event.submitter));
});

window.addEventListener("beforeunload", (event) => { if (open) event.preventDefault(); });

async function save() {
  const request = await asked("POST", form.action, new FormData(form)).catch(() => null);
  const page = request?.responseXML;
  const said = page?.getElementById("said"), now = page?.getElementById("counts");
  if (!page || !said || !now) {
    const text = document.createElement("p");
    text.id = "answer";
    text.className = "bad";
    text.setAttribute("role", "alert");
    text.textContent = "There was no answer, and this page is not saved. What you typed is still here: press Save.";
    status.replaceChildren(text);
    return;
  }
  status.replaceChildren(...said.childNodes);
  counts.replaceChildren(...now.childNodes);
  for (const field of /** @type {NodeListOf<HTMLInputElement>} */ (form.querySelectorAll("input[name^='lot-']"))) mark(field, page);
}

// What the saved page says of a field
/** @param {HTMLInputElement} field @param {Document} page */
function mark(field, page) {
  const [saved] = /** @type {NodeListOf<HTMLInputElement>} */ (page.getElementsByName(field.name));
  const [was] = /** @type {NodeListOf<HTMLInputElement>} */ (document.getElementsByName(`was-${field.name}`));
  const [stored] = /** @type {NodeListOf<HTMLInputElement>} */ (page.getElementsByName(`was-${field.name}`));
  const cell = field.parentElement;
  if (!saved || !was || !stored || !cell) return;
  was.value = stored.value;
  for (const name of ["aria-describedby", "aria-invalid"]) {
    const value = saved.getAttribute(name);
    if (value === null) field.removeAttribute(name);
    else field.setAttribute(name, value);
  }
  cell.querySelector("span")?.remove();
  const words = saved.parentElement?.querySelector("span");
  if (words) cell.append(document.importNode(words, true));
}
