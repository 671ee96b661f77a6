// Draws what is in view: on the lanes, as SVG, and in the list.
"use strict";

// Pixels: left of the lanes, above and below them, of a bar of shares, of a row of the list.
const LEFT = 84, TOP = 60, FOOT = 22, BAR = 3, ROW = 24;
// Pixels of a column: at most, with words, with the number of the line, and with a box at all.
const WIDEST = 130, WITH_WORDS = 88, WITH_NUMBER = 26, WITH_BOXES = 6;
// Half a box that has room for two lines of words.
const TWO_LINES = 13;

const byId = (id) => document.getElementById(id);
const SVG = byId("lanes").namespaceURI;

function filled(element, attributes, children) {
    for (const [name, value] of Object.entries(attributes)) element.setAttribute(name, value);
    element.append(...children);
    return element;
}
const html = (name, attributes, ...children) => filled(document.createElement(name), attributes, children);
const svg = (name, attributes, ...children) => filled(document.createElementNS(SVG, name), attributes, children);
const text = (x, y, words, name = "") => svg("text", { class: name, x, y }, words);
const clamp = (least, value, most) => Math.max(least, Math.min(value, most));
const counted = (count, word, more = "s") => `${count.toLocaleString("en")} ${word}${count === 1 ? "" : more}`;

// ---- What is in view

const view = { left: 0, scale: 0, width: 1 };
const state = { chosen: null, matches: [], isMatch: null };
const laneHeight = lanes <= 4 ? 52 : lanes <= 8 ? 42 : 32, half = laneHeight / 2 - 8, height = TOP + lanes * laneHeight + FOOT;
const middleOf = (lane) => TOP + (lane + 0.5) * laneHeight - 3;
const pixel = (x) => (x - view.left) * view.scale;
const middleX = (one) => pixel(one.x + 0.5);
const right = () => view.left + view.width / view.scale;
const isSeen = (one) => one.x + 1 > view.left && one.x < right();

function settle() {
    view.scale = clamp(Math.min(WIDEST, view.width / columns), view.scale, WIDEST);
    view.left = clamp(0, view.left, Math.max(0, columns - view.width / view.scale));
}

function describe(line) {
    if (line.kind === "unreadable") return `line ${line.at + 1} is unreadable: ${line.reply}`;
    const asked = line.asked ? `, stashed in phase ${line.asked.phase}` : "";
    return `line ${line.at + 1}: phase ${line.phase}, number ${line.number}, worker ${line.worker}, index ${line.index}${asked}: ${line.reply}`;
}

// ---- From afar: bars with the shares of the kinds, from the bottom of a lane to its top

// How many lines of each kind there are in each bar of each row, and how wide a bar is.
function countBars({ left, scale, width }, rows) {
    const wide = Math.max(BAR, scale), first = Math.floor(left * scale / wide), bars = Math.ceil(width / wide) + 2;
    const counts = KINDS.map(() => new Uint32Array(rows * bars));
    for (let at = firstOf(lines, ({ x }) => x + 1 > left); at < lines.length && lines[at].x < left + width / scale; at++) {
        const { lane, kind, x } = lines[at], bar = Math.max(0, Math.floor(x * scale / wide + 1e-6) - first);
        counts[KINDS.indexOf(kind)][Math.min(lane, rows - 1) * bars + bar]++;
    }
    return { counts, bars, wide, begin: first * wide - left * scale };
}

function shares(view, rows, topOf, high) {
    const { counts, bars, wide, begin } = countBars(view, rows), paths = KINDS.map(() => "");
    for (let cell = 0; cell < rows * bars; cell++) {
        const total = counts.reduce((sum, count) => sum + count[cell], 0), x = (begin + cell % bars * wide).toFixed(1);
        let y = topOf(Math.floor(cell / bars)) + high;
        counts.forEach((count, kind) => {
            const part = total && high * count[cell] / total;
            y -= part;
            if (part) paths[kind] += `M${x} ${y.toFixed(1)}h${wide}v${part.toFixed(1)}h-${wide}z`;
        });
    }
    return paths.map((path, kind) => svg("path", { class: `shares ${KINDS[kind]}`, d: path }));
}

// Ticks beside the lanes, at most one for three pixels.
function ticks(places, below) {
    const seen = places.filter(isSeen).map((one) => `M${Math.round(middleX(one) / BAR) * BAR} ${middleOf((one.line ?? one).lane) + below}v5`);
    return svg("path", { class: "ticks", d: [...new Set(seen)].join("") });
}

function drawShares() {
    return [...shares(view, lanes, (lane) => middleOf(lane) - half, 2 * half), ticks(stashed, half + 2), ticks(state.matches, -half - 7)];
}

// ---- From near: a box for each line, and a circle for each stashed request in the phase that stashed it

// Of a view only its kind, as far as there is room.
function wordsOf(line) {
    const words = line.reply.split(" ", line.kind === "view" ? 1 : 2).join(" "), room = Math.floor((view.scale - 10) / 6.2);
    return words.length <= room ? words : `${words.slice(0, room - 1)}\u2026`;
}

const dimmed = (line, name) => (state.isMatch && !state.isMatch[line.at] ? `${name} dim` : name);

function box(line) {
    const wide = view.scale - Math.min(6, view.scale / 5), x = middleX(line), y = middleOf(line.lane), words = `middle on-${line.kind}`;
    const marks = [line.asked && "late", line === state.chosen && "chosen", line === wrong && "is-wrong"].filter(Boolean);
    const round = line.kind === "view" ? Math.min(half, wide / 3) : 0;
    const group = svg("g", { class: dimmed(line, "box"), "data-line": line.at + 1 },
        svg("rect", { class: [line.kind, ...marks].join(" "), x: x - wide / 2, y: y - half, width: wide, height: 2 * half, rx: round }));
    if (view.scale >= WITH_WORDS && half < TWO_LINES) group.append(text(x, y + 4, wordsOf(line), words));
    else if (view.scale >= WITH_WORDS) group.append(text(x, y - 2, wordsOf(line), words), text(x, y + 10, `line ${line.at + 1}`, words));
    else if (view.scale >= WITH_NUMBER && String(line.at + 1).length * 6.4 < wide) group.append(text(x, y + 4, line.at + 1, words));
    return group;
}

function circle(one) {
    const { line } = one, y = middleOf(line.lane), under = y + half + 5, radius = Math.min(half - 2, view.scale / 2.6);
    const [begin, end] = [one, line].map((either) => clamp(-9, middleX(either), view.width + 9));
    const down = begin === middleX(one) ? y + radius : under, up = end === middleX(line) ? y + half : under;
    const group = svg("g", { class: dimmed(line, line === state.chosen ? "stashing is-chosen" : "stashing"), "data-line": line.at + 1 },
        svg("path", { class: "way", d: `M${begin} ${down}V${under}H${end}V${up}` }),
        svg("circle", { class: line === state.chosen ? "stashed chosen" : "stashed", cx: middleX(one), cy: y, r: radius }));
    if (view.scale >= WITH_NUMBER && half >= TWO_LINES && line.index.length < 4) group.append(text(middleX(one), y + 4, line.index, "middle"));
    return group;
}

// Commit numbers under their columns, as far as there is room.
function drawNumbers(seen) {
    let room = 0;
    return seen.filter((line) => line.number !== null && middleX(line) >= room && (room = middleX(line) + 10 + 6.4 * line.number.length))
        .map((line) => text(middleX(line), height - 8, line.number, "middle soft"));
}

function drawBoxes() {
    const seen = lines.slice(firstOf(lines, ({ x }) => x + 1 > view.left), firstOf(lines, ({ x }) => x >= right()));
    const late = stashed.filter((one) => isSeen(one) || isSeen(one.line) || one.line === state.chosen);
    const way = seen.map((line) => `${middleX(line).toFixed(1)} ${middleOf(line.lane)}`).join("L");
    const order = view.scale >= WITH_NUMBER && way ? [svg("path", { class: "order", d: `M${way}` })] : [];
    return [...order, ...seen.map(box), ...late.map(circle), ...drawNumbers(seen)];
}

// ---- The lanes

// The objects that have room, and how many more there are.
function hotWords(objects, wide) {
    let shown = objects;
    const more = () => (shown.length < objects.length ? ` +${objects.length - shown.length}` : "");
    while (shown.length && 6.2 * `hot: ${shown.join(" ")}${more()}`.length > wide) shown = shown.slice(0, -1);
    return shown.length ? `hot: ${shown.join(" ")}${more()}` : "";
}

function drawPhase({ phase, begin, end }) {
    const from = Math.max(0, pixel(begin)), to = Math.min(view.width, pixel(end)), middle = (from + to) / 2;
    const isSplit = data.alternates && /[13579]$/.test(phase), kind = isSplit ? "split" : "joined";
    const name = data.alternates && segments.length > 1 && to - from >= 84 ? `${phase}: ${kind}` : phase;
    const parts = [svg("path", { class: "edge", d: `M${pixel(end)} 0v${height}` })];
    if (isSplit) parts.unshift(svg("rect", { class: "split", x: from, y: 0, width: to - from, height }));
    if (to - from > 8 * name.length + 6) parts.push(text(middle, 18, name, "phase"));
    if (data.hot[phase]) parts.push(text(middle, 35, hotWords(data.hot[phase], to - from - 8), "middle soft hot"));
    return svg("g", { "data-phase": phase }, ...parts);
}

function drawPhases() {
    const seen = segments.slice(firstOf(segments, ({ end }) => end > view.left), firstOf(segments, ({ begin }) => begin >= right()));
    return seen.filter(({ begin, end }) => (end - begin) * view.scale >= 4).map(drawPhase);
}

function drawMarks() {
    const parts = [], stroke = (line, name) => svg("path", { class: name, d: `M${middleX(line)} 56V${height - FOOT}` });
    if (state.chosen && state.chosen !== wrong) parts.push(stroke(state.chosen, "place"));
    if (wrong) {
        const words = `\u2717 line ${verdict.line}`, wide = words.length * 6.8 + 10, x = middleX(wrong);
        parts.push(stroke(wrong, "wrong-place"), svg("rect", { class: "wrong-tag", x: x - wide / 2, y: 40, width: wide, height: 16, rx: 3 }),
            text(x, 52, words, "middle on-wrong"));
    }
    return parts;
}

function drawLabels() {
    const ofLane = (lane) => (lane === lanes - 1 && workers.length > lanes ? "others" : workers[lane] === null ? "unreadable" : `worker ${workers[lane]}`);
    const labels = Array.from({ length: lanes }, (_, lane) => text(8, middleOf(lane) + 4, ofLane(lane)));
    return [text(8, 18, "phase", "soft"), text(8, height - 8, "number", "soft"), ...labels];
}

function drawLanes() {
    const rails = Array.from({ length: lanes }, (_, lane) => svg("path", { class: "edge", d: `M0 ${middleOf(lane)}H${view.width}` }));
    const inner = [...drawPhases(), ...rails, ...drawMarks(), ...(view.scale >= WITH_BOXES ? drawBoxes() : drawShares())];
    byId("lanes").replaceChildren(...drawLabels(), svg("svg", { x: LEFT, width: view.width, height }, ...inner));
}

// ---- The whole run above them

const wholeScale = () => view.width / columns;

function drawWhole() {
    const found = new Set(state.matches.map((line) => Math.floor(line.x * wholeScale())));
    const bars = shares({ left: 0, scale: wholeScale(), width: view.width }, 1, () => 9, 14);
    const matches = svg("path", { class: "ticks", d: [...found].map((x) => `M${x} 1v6`).join("") });
    const inner = svg("svg", { x: LEFT, width: view.width, height: 30 }, ...bars, matches, svg("g", { id: "places" }));
    byId("whole").replaceChildren(text(8, 20, "whole run", "soft"), inner);
}

function drawPlaces() {
    const stroke = (line, name) => (line ? [svg("path", { class: name, d: `M${(line.x + 0.5) * wholeScale()} 0v30` })] : []);
    const wide = clamp(3, wholeScale() * view.width / view.scale, view.width), x = view.left * wholeScale();
    const seen = svg("rect", { class: "window", x, y: 1, width: wide, height: 28 });
    byId("places").replaceChildren(seen, ...stroke(state.chosen, "place"), ...stroke(wrong, "wrong-place"));
}

// ---- The list, of which only what is in view is there

const marked = (fields) => fields.flatMap(([field, differs]) => [differs ? html("mark", {}, field || "(nothing)") : field, " "]);

function row(line) {
    const classes = ["row", state.isMatch?.[line.at] && "is-match", line === wrong && "is-wrong"].filter(Boolean).join(" ");
    const reply = line === wrong && verdict.reply ? marked(verdict.reply) : [line.reply.slice(0, 500)];
    const number = line === wrong ? `\u2717 ${line.at + 1}` : line.at + 1;
    const cells = [number, line.phase, line.number, line.worker, line.index, line.asked?.phase].map((cell) => html("span", {}, cell ?? ""));
    const attributes = { class: classes, id: `line-${line.at + 1}`, role: "option", style: `top: ${line.at * ROW}px`, "aria-selected": line === state.chosen,
        "aria-setsize": lines.length, "aria-posinset": line.at + 1, "aria-label": describe(line).slice(0, 600) };
    return html("div", attributes, ...cells, html("span", {}, ...reply));
}

function drawList() {
    const list = byId("list"), from = Math.max(0, Math.floor(list.scrollTop / ROW) - 2), to = from + Math.ceil(list.clientHeight / ROW) + 4;
    byId("rows").replaceChildren(...lines.slice(from, to).map(row));
    if (state.chosen) list.setAttribute("aria-activedescendant", `line-${state.chosen.at + 1}`);
}

function draw() {
    settle();
    drawLanes();
    drawPlaces();
    drawList();
}

let frame = 0;
function redraw() {
    cancelAnimationFrame(frame);
    frame = requestAnimationFrame(draw);
}

function resize() {
    view.width = Math.max(200, byId("lanes").clientWidth - LEFT);
    drawWhole();
    draw();
}
