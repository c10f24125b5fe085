"""What is wrong with a screen for people who read it at 200 percent, in a narrow window, on paper,
by a screen reader or by the keyboard alone. Each script returns what is wrong, in words.
"""
# The contrast of each text with what is behind it, as WCAG 2.2 computes it: the ratio of their
# relative luminances. Large text needs 3, other text 4.5
CONTRAST = """(() => {
    const channels = (text) => text.match(/[\\d.]+/g).map(Number);
    const parts = [0.2126, 0.7152, 0.0722];
    const linear = (it) => it <= 0.04045 ? it / 12.92 : ((it + 0.055) / 1.055) ** 2.4;
    const light = (colour) => colour.slice(0, 3).map((it) => linear(it / 255))
        .reduce((sum, it, at) => sum + it * parts[at], 0);
    const isDark = matchMedia('(prefers-color-scheme: dark)').matches;
    const behind = (node) => {
        for (let it = node; it; it = it.parentElement) {
            const colour = channels(getComputedStyle(it).backgroundColor);
            if (colour.length < 4 || colour[3] > 0) return colour;
        }
        return isDark ? [18, 18, 18] : [255, 255, 255];
    };
    const walk = document.createTreeWalker(document.body, NodeFilter.SHOW_TEXT);
    const found = [];
    let count = 0;
    while (walk.nextNode()) {
        const node = walk.currentNode.parentElement, text = walk.currentNode.data.trim();
        if (!text || !node.getClientRects().length || node.disabled) continue;
        const style = getComputedStyle(node), size = parseFloat(style.fontSize);
        const one = light(channels(style.color)), other = light(behind(node));
        const ratio = (Math.max(one, other) + 0.05) / (Math.min(one, other) + 0.05);
        const isLarge = size >= 24 || (size >= 18.66 && style.fontWeight >= 700);
        count += 1;
        if (ratio < (isLarge ? 3 : 4.5)) found.push([text.slice(0, 30), ratio.toFixed(2)]);
    }
    return [count > 10, found];
})()"""

# how a control is called, and what of a page is shown
COMMON = """
const plain = (text) => (text ?? "").replace(/\\s+/g, " ").trim();
const texts = (ids) => ids.split(" ").map(
    (it) => document.getElementById(it)?.textContent).join(" ");
const called = (it) => plain(it.getAttribute("aria-label")
    ?? (it.hasAttribute("aria-labelledby") ? texts(it.getAttribute("aria-labelledby"))
        : it.labels?.length ? it.labels[0].textContent : it.matches("input, select, textarea")
            ? "" : it.textContent));
const isShown = (it) => it.checkVisibility() && it.type !== "hidden";
const all = (selector) => [...document.querySelectorAll(selector)];
const named = (it) => `${it.tagName} ${it.name || it.id || plain(it.textContent).slice(0, 40)}`;
"""
# names, headings, tables and references
STRUCTURE = COMMON + """
const found = [];
const say = (text, list) => {
    if (list.length) found.push(`${text}: ${list.slice(0, 5).join(", ")}`);
};
if (all("h1").length !== 1) found.push(`${all("h1").length} headings of the first level`);
for (const name of ["header", "main", "footer", "nav"].slice(0, all("nav").length ? 4 : 2)) {
    if (!all(name).some(isShown)) found.push(`no ${name}`);
}
if (all("main").length !== 1) found.push(`${all("main").length} main parts`);
// (who is asked reads first what the question is about)
const begin = plain(document.activeElement?.textContent);
if (begin === "No, go back") found.push("it begins at the way back");
let level = 0;
for (const it of all("h1, h2, h3, h4").filter(isShown)) {
    const now = Number(it.tagName[1]);
    if (now > level + 1) found.push(`the heading ${plain(it.textContent)} skips a level`);
    level = now;
}
say("without a name", all("input, select, textarea, button, a[href], summary").filter(
    (it) => isShown(it) && !called(it)).map(named));
say("tables without a caption", all("table").filter(
    (it) => isShown(it) && !plain(it.caption?.textContent)).map(named));
say("tables without heads", all("table").filter((it) => isShown(it) && it.tBodies[0]?.rows.length
    && !it.querySelector("thead th[scope=col]")).map((it) => plain(it.caption?.textContent)));
say("buttons of one name that are not of one form", all("button").filter((it) => isShown(it) && all(
    "button").some((one) => isShown(one) && one !== it && called(one) === called(it)
        && one.form !== it.form)).map(called));
const ids = all("[id]").map((it) => it.id);
say("twice there", ids.filter((it, at) => ids.indexOf(it) !== at));
for (const name of ["aria-describedby", "aria-labelledby", "for"]) {
    const ids = all(`[${name}]`).flatMap((it) => it.getAttribute(name).split(" "));
    say(`${name} of nothing`, ids.filter((it) => !document.getElementById(it)));
}
say("errors that no field has", all(".error[id]").filter((it) => !document.querySelector(
    `[aria-describedby~="${it.id}"]`)).map((it) => it.id));
return found;
"""
# what is too small to be pressed, but links within a sentence, and what lies below something else
TARGETS = COMMON + """
const found = [];
const isText = (it) => it.matches("a") && getComputedStyle(it).display === "inline";
for (const it of all("a[href], button, input, select, summary").filter(isShown)) {
    const box = it.getBoundingClientRect();
    if (it.closest("svg, .unseen, .skip") || isText(it)) continue;
    if (box.width < 24 || box.height < 24) {
        found.push(`${named(it)} is ${Math.round(box.width)} by ${Math.round(box.height)} pixels`);
    }
}
for (const it of all("main :is(a[href], button, input, select, summary)").filter(isShown)) {
    if (it.closest("svg, .region")) continue;
    it.scrollIntoView({block: "center", behavior: "instant"});
    const box = it.getClientRects()[0];
    const top = document.elementFromPoint(box.left + box.width / 2, box.top + box.height / 2);
    const isAlone = !top || it.contains(top) || top.contains(it);
    if (!isAlone) found.push(`${named(it)} is below ${named(top)}`);
}
scrollTo(0, 0);
return found.slice(0, 5);
"""
# what a sheet of paper has that nobody can press there
PRESSABLE = COMMON + """
return all("button, nav, header, .skip, input[type=file]").filter(isShown).map(named).slice(0, 5);
"""
# what the keyboard must reach, in the order of the page; each has a number from then on
STOPS = COMMON + """
const stops = all("a[href], button, input, select, textarea, summary").filter(
    (it) => isShown(it) && !it.disabled && it.tabIndex >= 0);
stops.forEach((it, at) => { it.dataset.stop = at; });
return stops.length;
"""
WITHOUT_TAB = COMMON + """
const to = (it) => it.getAttribute("href");
const reached = all("a[href]").filter((it) => isShown(it) && it.tabIndex >= 0).map(to);
// (a mark of a picture leads where a link of the page does, or one of the lists on its tabs)
const linked = (href) => {
    const asked = new XMLHttpRequest();
    asked.open("GET", href, false);
    asked.send();
    return [...asked.responseText.matchAll(/<a href="([^"]*)"/g)].map((it) => it[1]);
};
const isLeft = all("svg a").some((it) => !reached.includes(to(it)));
const listed = isLeft ? all(".tabs a").flatMap((it) => linked(to(it))) : [];
const isMark = (it) => it.matches("svg a") && [...reached, ...listed].includes(to(it));
return all("a[href], button, input, select, textarea, summary, [tabindex]").filter(
    (it) => isShown(it) && (it.tabIndex > 0 || (
        it.tabIndex < 0 && !it.matches("h1, h2, [role=status]") && !isMark(it)))).map(named);
"""
# from the begin of the page Tab goes to its first control
TO_BEGIN = """
document.body.tabIndex = -1;
document.body.focus();
document.body.removeAttribute("tabindex");
getSelection().removeAllRanges();
"""
TO_FIELD = "arguments[0].focus({preventScroll: true});"
HERE = "return document.activeElement?.dataset.stop ?? null;"
# how far a page is wider than its window
TOO_WIDE = """
const it = document.documentElement;
const out = [...document.querySelectorAll("body *")].filter((one) => (
    !one.closest(".region, pre, .unseen"))
    && one.getBoundingClientRect().right > it.clientWidth + 1);
return it.scrollWidth <= it.clientWidth ? [] : [`${it.scrollWidth} pixels wide, by ${
    out.slice(0, 3).map((one) => one.tagName + one.className).join(", ")}`];
"""
