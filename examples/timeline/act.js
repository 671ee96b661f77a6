// What keys, buttons, the mouse and a search do, and what the page says at its start.
"use strict";

// ---- What keys and buttons do

// Chooses a line, which comes into view; closer if it is to be looked at.
function choose(at, closer = false) {
    const line = lines[clamp(0, at, lines.length - 1)], list = byId("list"), top = line.at * ROW;
    state.chosen = line;
    if (closer) view.scale = Math.max(view.scale, WITH_WORDS);
    if (closer || !isSeen(line)) view.left = line.x + 0.5 - view.width / view.scale / 2;
    if (top < list.scrollTop || top + ROW > list.scrollTop + list.clientHeight) list.scrollTop = top - list.clientHeight / 2;
    byId("told").textContent = describe(line);
    byId("tip").hidden = true;
    redraw();
}

// About a place on the lanes, or the chosen line if it is in view.
function zoom(factor, x = state.chosen && isSeen(state.chosen) ? middleX(state.chosen) : view.width / 2) {
    const column = view.left + x / view.scale;
    view.scale *= factor;
    settle();
    view.left = column - x / view.scale;
    redraw();
}

function move(part) {
    view.left += part * view.width / view.scale;
    redraw();
}

// Words with an equals sign and `stashed` are of the line; the others together are of its reply, in which numbers are whole.
function finder(query) {
    const tests = [], words = [];
    for (const word of query.trim().split(/ +/)) {
        const [, field, value] = /^(line|phase|number|worker|index|kind)=(\S+)$/.exec(word) ?? [];
        if (field === "line") tests.push((line) => line.at + 1 === Number(value));
        else if (field) tests.push((line) => line[field] === value);
        else if (word === "stashed") tests.push((line) => line.asked);
        else words.push(word);
    }
    const phrase = words.join(" "), plain = phrase.replace(/[.*+?^${}()|[\]\\]/g, "\\$&");
    const isThere = new RegExp((/^\d/.test(phrase) ? "(?<![\\d.])" : "") + plain + (/\d$/.test(phrase) ? "(?![\\d.])" : ""), "i");
    return (line) => tests.every((test) => test(line)) && isThere.test(line.reply);
}

function search() {
    const query = byId("search").value, isFound = finder(query);
    state.isMatch = query.trim() ? lines.map((line) => Boolean(isFound(line))) : null;
    state.matches = state.isMatch ? lines.filter((line) => state.isMatch[line.at]) : [];
    byId("found").textContent = state.isMatch ? counted(state.matches.length, "match", "es") : "";
    drawWhole();
    redraw();
}

// Goes to the next of some lines, or the one before, and round at the ends. Returns which it is.
function go(among, step) {
    const at = chosenAt(), next = step > 0 ? firstOf(among, (line) => line.at > at) : firstOf(among, (line) => line.at >= at) - 1;
    const place = (next + among.length) % among.length;
    if (among.length) choose(among[place].at, true);
    return place;
}

function goToMatch(step) {
    const place = go(state.matches, step);
    if (state.matches.length) byId("found").textContent = `${place + 1} of ${counted(state.matches.length, "match", "es")}`;
}

const late = lines.filter((line) => line.asked);
const chosenAt = () => (state.chosen ? state.chosen.at : -1);
const rows = () => Math.max(1, Math.floor(byId("list").clientHeight / ROW) - 1);
const KEYS = {
    ArrowUp: () => choose(chosenAt() - 1), ArrowDown: () => choose(chosenAt() + 1), Home: () => choose(0), End: () => choose(lines.length - 1),
    PageUp: () => choose(chosenAt() - rows()), PageDown: () => choose(chosenAt() + rows()), Enter: () => choose(chosenAt(), true),
    ArrowLeft: () => move(-0.2), ArrowRight: () => move(0.2), "+": () => zoom(1.5), "=": () => zoom(1.5), "-": () => zoom(1 / 1.5), 0: () => zoom(0),
    n: () => goToMatch(1), p: () => goToMatch(-1), d: () => go(late, 1), w: () => wrong && choose(wrong.at, true), "/": () => byId("search").focus(),
};

function press(event) {
    if (!Object.hasOwn(KEYS, event.key) || event.ctrlKey || event.altKey || event.metaKey) return;
    event.preventDefault();
    KEYS[event.key]();
}

// ---- What the mouse does

const placeOf = (event, id) => event.clientX - byId(id).getBoundingClientRect().left - LEFT;

function lineAt(event) {
    const x = placeOf(event, "lanes"), column = view.left + x / view.scale, reach = Math.max(1, BAR / view.scale);
    const lane = Math.floor((event.clientY - byId("lanes").getBoundingClientRect().top - TOP + 3) / laneHeight);
    const isThere = (one) => x >= 0 && (one.line ?? one).lane === lane && one.x <= column && column < one.x + reach;
    const near = lines.slice(firstOf(lines, (line) => line.x + reach > column), firstOf(lines, (line) => line.x > column));
    return near.find(isThere) ?? stashed.find(isThere)?.line;
}

function tell(event) {
    const line = event.buttons ? null : lineAt(event), tip = byId("tip");
    tip.hidden = !line;
    if (!line) return;
    tip.textContent = describe(line).slice(0, 400);
    tip.style.left = `${clamp(4, event.clientX + 14, innerWidth - tip.offsetWidth - 8)}px`;
    tip.style.top = `${clamp(4, event.clientY + 16, innerHeight - tip.offsetHeight - 8)}px`;
}

let drag = null;
function beginDrag(event) {
    byId("lanes").setPointerCapture(event.pointerId);
    drag = { x: event.clientX, left: view.left, isClick: true };
}

function goOn(event) {
    tell(event);
    if (!drag) return;
    drag.isClick &&= Math.abs(event.clientX - drag.x) < 5;
    view.left = drag.left - (event.clientX - drag.x) / view.scale;
    redraw();
}

function endDrag(event) {
    const line = drag?.isClick && event.type === "pointerup" ? lineAt(event) : null;
    drag = null;
    if (line) choose(line.at);
}

function turn(event) {
    event.preventDefault();
    if (event.shiftKey || Math.abs(event.deltaX) > Math.abs(event.deltaY)) move((event.deltaX || event.deltaY) / view.width);
    else zoom(1.0015 ** -event.deltaY, placeOf(event, "lanes"));
}

function jump(event) {
    if (!event.buttons) return;
    view.left = placeOf(event, "whole") / wholeScale() - view.width / view.scale / 2;
    redraw();
}

function listen() {
    const on = (id, acts) => Object.entries(acts).forEach(([name, act]) => byId(id).addEventListener(name, act, { passive: false }));
    on("lanes", { keydown: press, pointerdown: beginDrag, pointermove: goOn, pointerup: endDrag, pointercancel: endDrag, wheel: turn });
    on("lanes", { pointerleave: () => (byId("tip").hidden = true) });
    on("whole", { pointerdown: jump, pointermove: jump });
    on("list", { keydown: press, scroll: redraw, click: ({ target }) => target.closest(".row") && choose(target.closest(".row").id.slice(5) - 1) });
    on("search", { input: search });
    on("tools", { submit: (event) => (event.preventDefault(), goToMatch(1)) });
    on("earlier", { click: () => goToMatch(-1) });
    on("closer", { click: () => zoom(1.5) });
    on("farther", { click: () => zoom(1 / 1.5) });
    on("all", { click: () => zoom(0) });
    new ResizeObserver(resize).observe(byId("lanes").parentElement);
}

// ---- What is said above

function sayVerdict() {
    const { text, line, other, reply, due } = verdict, section = byId("verdict"), replays = text === "the history replays";
    const words = reply ? `line ${line}: index ${wrong.index} of worker ${wrong.worker} has another reply than was due` : text;
    const said = html("p", {}, html("strong", {}, `Referee: ${replays ? "\u2713" : "\u2717"} ${words}. `));
    for (const number of [line, other].filter(Boolean)) {
        const button = html("button", { type: "button" }, `Show line ${number}`);
        button.addEventListener("click", () => choose(number - 1, true));
        said.append(button, " ");
    }
    if (line) said.append(html("span", { class: "note" }, "Lines after the wrong one are not judged."));
    section.append(said);
    const pair = (name, fields) => [html("dt", {}, name), html("dd", {}, ...marked(fields))];
    if (reply) section.append(html("dl", {}, ...pair("reply", reply), ...pair("due", due)));
    section.classList.toggle("wrong", !replays);
    section.hidden = false;
    byId("wrong-legend").hidden = !line;
}

function sayFacts() {
    const [stores, views, refused, unreadable] = KINDS.map((kind) => lines.filter((line) => line.kind === kind).length);
    const known = workers.filter((worker) => worker !== null).length;
    const facts = [counted(lines.length, "line"), counted(known, "worker"), counted(segments.length, "phase"), counted(stores, "store"), counted(views, "view"),
        counted(refused, "refused", ""), counted(stashed.length, "stashed", ""), ...(unreadable ? [counted(unreadable, "unreadable", "")] : [])].join(", ");
    byId("facts").textContent = `${facts}.`;
    byId("lanes").setAttribute("aria-label", `Lanes by worker: ${facts}. The list below has every line.`);
    byId("lanes").style.height = `${height + 2}px`;
    byId("split-legend").hidden = !data.alternates || segments.length === 1;
    byId("told").textContent = "Choose a line on the lanes or in the list.";
    byId("rows").style.height = `${lines.length * ROW}px`;
}

sayFacts();
if (verdict) sayVerdict();
resize();
if (wrong) choose(wrong.at, true);
listen();
byId("lanes").focus({ preventScroll: true });
