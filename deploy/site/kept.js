// @ts-check
// What is typed into a form of the office's screens and not sent yet. It is kept in this tab of the browser (sessionStorage) for who is signed
// in, so that a reload or a look at another screen loses none of it, until the form is sent. With it is kept what was seen then: where somebody
// else has changed that meanwhile, the application says so once the form is sent.

/** @typedef {HTMLInputElement | HTMLSelectElement | HTMLTextAreaElement} Field */
const NOTE = "What you typed here is not saved yet.";
const SKIPPED = ["hidden", "file", "password", "submit"];
const isSeen = (/** @type {string} */ name) => name === "seen" || name.startsWith("seen-");
/** @param {any} it */
const valueOf = (it) => (it.type === "checkbox" ? String(it.checked) : it.value);
/** @param {any} it @param {string} value */
const put = (it, value) => { if (it.type === "checkbox") it.checked = value === "true"; else it.value = value; };
// (boxes of one name are told apart by their values)
/** @param {any} it */
const keyOf = (it) => (it.type === "checkbox" ? `${it.name} ${it.value}` : it.name);

/** @param {HTMLFormElement} form */
function begin(form) {
  const place = `form ${document.getElementById("signed-in")?.textContent} ${location.pathname} ${form.id}`;
  const all = /** @type {any[]} */ ([...form.elements]);
  const fields = all.filter((it) => it.name && it.tagName !== "BUTTON" && !SKIPPED.includes(it.type));
  const seen = all.filter((it) => it.type === "hidden" && isSeen(it.name));
  const first = new Map(fields.map((it) => [keyOf(it), valueOf(it)]));
  const before = read(place);
  const returned = fields.filter((it) => keyOf(it) in before && before[keyOf(it)] !== valueOf(it));
  for (const it of returned) put(it, before[keyOf(it)]);
  for (const it of seen) if (returned.length && it.name in before) it.value = before[it.name];
  if (returned.length) say(form, place);

  // What is kept of rows that are on another page of the same table stays
  const others = () => Object.entries(read(place)).filter(([key]) => !first.has(key) && !seen.some((it) => it.name === key));
  form.addEventListener("input", () => {
    const typed = fields.filter((it) => valueOf(it) !== first.get(keyOf(it)));
    const values = typed.map((it) => [keyOf(it), valueOf(it)]);
    const basis = typed.length ? seen.filter((it) => it.name === "seen" || typed.some((one) => isOf(it.name, one.name))) : [];
    write(place, Object.fromEntries([...others(), ...values, ...basis.map((it) => [it.name, it.value])]));
  });
  form.addEventListener("submit", () => write(place, Object.fromEntries(others())));
}

// Whether what was seen is of the row of a field
/** @param {string} name @param {string} field */
const isOf = (name, field) => field.endsWith(name.slice("seen".length));

/** @param {string} place @returns {Record<string, string>} */
function read(place) {
  try { return JSON.parse(sessionStorage.getItem(place) ?? "{}") ?? {}; } catch { return {}; }
}

/** @param {string} place @param {Record<string, string>} values */
function write(place, values) {
  try {
    if (Object.keys(values).length) sessionStorage.setItem(place, JSON.stringify(values));
    else sessionStorage.removeItem(place);
  } catch { /* a browser that keeps nothing: the form works without */ }
}

/** @param {HTMLFormElement} form @param {string} place */
function say(form, place) {
  const note = document.createElement("p");
  note.className = "banner warn";
  note.setAttribute("role", "status");
  const forget = document.createElement("button");
  forget.type = "button";
  forget.className = "button second small";
  forget.textContent = "Forget it";
  forget.addEventListener("click", () => { write(place, {}); location.reload(); });
  note.append(`${NOTE} `, forget);
  form.before(note);
}

for (const it of document.querySelectorAll("form[data-kept]")) begin(/** @type {HTMLFormElement} */ (it));
