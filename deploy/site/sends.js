// @ts-check
// What sends a form without its button, where nothing is final by it: Enter in a menu, as in a field of text, which not all browsers do on their
// own; and a file that was chosen. Without this script the buttons do both.

/** @param {string} kind @returns {NodeListOf<HTMLFormElement>} */
const forms = (kind) => document.querySelectorAll(`form.${kind}`);

for (const form of forms("by-keys")) {
  form.addEventListener("keydown", (event) => {
    if (event.key !== "Enter" || !(event.target instanceof HTMLSelectElement)) return;
    event.preventDefault();
    form.requestSubmit(form.querySelector("button"));
  });
}

for (const form of forms("at-once")) {
  const field = /** @type {HTMLInputElement} */ (form.querySelector("input[type=file]"));
  const button = /** @type {HTMLButtonElement} */ (form.querySelector("button"));
  const hint = document.createElement("span");
  hint.className = "hint";
  hint.id = `${field.id}-at-once`;
  hint.textContent = "It is read as soon as it is chosen.";
  field.after(hint);
  field.setAttribute("aria-describedby", hint.id);
  button.hidden = true;
  // (a browser that comes back to the page has no file chosen, so that the same one can be chosen again)
  window.addEventListener("pageshow", () => { field.value = ""; });
  field.addEventListener("change", () => {
    if (field.files?.length) form.requestSubmit(button);
  });
}
