// @ts-check
// Suggestions of the search in the head while one types: the arrow keys choose one, and Enter goes there. Without this script, and with nothing
// chosen, Enter sends the form.

const MOST_WAIT = 150;
const field = /** @type {HTMLInputElement | null} */ (document.getElementById("search"));
const list = document.createElement("ul");
/** @type {ReturnType<typeof setTimeout> | undefined} */
let waiting;
let asked = 0;
let chosen = -1;

/** @param {HTMLInputElement} input */
function begin(input) {
  list.id = "near";
  list.className = "near";
  list.hidden = true;
  list.setAttribute("role", "listbox");
  list.setAttribute("aria-label", "Suggestions");
  input.after(list);
  for (const [name, value] of Object.entries({ role: "combobox", "aria-autocomplete": "list", "aria-controls": list.id, "aria-expanded": "false" })) {
    input.setAttribute(name, value);
  }
  input.addEventListener("input", () => {
    clearTimeout(waiting);
    waiting = setTimeout(() => look(input), MOST_WAIT);
  });
  input.addEventListener("keydown", (event) => press(input, event));
  input.addEventListener("blur", () => show(input, []));
  // (a press of the mouse would take the focus from the field, and the list away, before its click)
  list.addEventListener("mousedown", (event) => event.preventDefault());
}

/** @param {HTMLInputElement} input */
async function look(input) {
  const text = input.value.trim();
  asked += 1;
  const turn = asked;
  /** @type {[string, string][]} */
  let found = [];
  try {
    if (text) {
      const answer = await fetch(`/find/near?q=${encodeURIComponent(text)}`);
      if (answer.ok) found = await answer.json();
    }
  } catch { /* the form works without */ }
  if (turn === asked && document.activeElement === input) show(input, found);
}

/** @param {HTMLInputElement} input @param {[string, string][]} found */
function show(input, found) {
  list.replaceChildren(...found.map(([words, address], at) => {
    const it = document.createElement("li"), link = document.createElement("a");
    it.id = `near-${at}`;
    it.setAttribute("role", "option");
    link.href = address;
    link.tabIndex = -1;
    link.textContent = words;
    it.append(link);
    return it;
  }));
  list.hidden = !found.length;
  input.setAttribute("aria-expanded", String(!list.hidden));
  choose(input, -1);
}

/** @param {HTMLInputElement} input @param {number} at */
function choose(input, at) {
  chosen = at;
  [...list.children].forEach((it, place) => it.setAttribute("aria-selected", String(place === at)));
  if (at < 0) input.removeAttribute("aria-activedescendant");
  else input.setAttribute("aria-activedescendant", list.children[at].id);
}

/** @param {HTMLInputElement} input @param {KeyboardEvent} event */
function press(input, event) {
  const count = list.children.length;
  if (!count || list.hidden) return;
  if (event.key === "ArrowDown" || event.key === "ArrowUp") {
    const step = event.key === "ArrowDown" ? 1 : -1;
    choose(input, chosen < 0 ? (step > 0 ? 0 : count - 1) : (chosen + step + count) % count);
    event.preventDefault();
  } else if (event.key === "Enter" && chosen >= 0) {
    event.preventDefault();
    list.children[chosen].querySelector("a")?.click();
  } else if (event.key === "Escape") {
    show(input, []);
    event.preventDefault();
  }
}

if (field) begin(field);
