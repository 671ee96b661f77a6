// The lines of a history, their lanes and their columns.
"use strict";

const STORES = new Set(["item", "bid", "comment", "buynow"]);
const KINDS = ["store", "view", "refused", "unreadable"];
const MOST_LANES = 64;
const data = JSON.parse(document.getElementById("data").textContent);
const verdict = data.verdict;

// The first place of an array, or its end, from which on all of it passes a test.
function firstOf(array, passes) {
    let low = 0, high = array.length;
    while (low < high) {
        const middle = (low + high) >> 1;
        if (passes(array[middle])) high = middle;
        else low = middle + 1;
    }
    return low;
}

// ---- Lines, their lanes, and stashed requests

function readLine(line, at) {
    const found = /^(\d{1,20}) (\d{1,20}) (\d{1,20}) (\d{1,20}) (.*)$/s.exec(line);
    if (!found) return { at, kind: "unreadable", phase: null, number: null, worker: null, index: null, reply: line };
    const [, phase, number, worker, index, reply] = found, word = reply.split(" ", 1)[0];
    const kind = STORES.has(word) ? "store" : word === "refused" ? "refused" : "view";
    return { at, kind, phase, number, worker, index, reply };
}

const lines = data.history.split("\n").map(readLine);
const workers = [...new Set(lines.map((line) => line.worker))].sort((one, other) => (one ?? Infinity) - (other ?? Infinity));
const lanes = Math.min(workers.length, MOST_LANES);
const laneOf = new Map(workers.map((worker, at) => [worker, Math.min(at, lanes - 1)]));
for (const line of lines) line.lane = laneOf.get(line.worker);
const stashed = data.stashed.map(([at, phase]) => (lines[at].asked = { line: lines[at], phase: String(phase) }));
const wrong = verdict?.line ? lines[verdict.line - 1] : null;

// ---- Columns: one for each number of a phase, and more for what the phase stashes

// Lines of a phase that follow each other, an unreadable one with those before it. A phase that only stashes has none.
function segmentsOf() {
    const segments = [];
    let { phase } = lines.find((line) => line.phase !== null);
    for (const line of lines) {
        phase = line.phase ?? phase;
        if (segments.at(-1)?.phase !== phase) segments.push({ phase, lines: [], late: [] });
        line.segment = segments.at(-1);
        line.segment.lines.push(line);
    }
    const first = new Map(segments.map((segment) => [segment.phase, segment]).reverse());
    for (const one of stashed) {
        if (!first.has(one.phase)) {
            first.set(one.phase, { phase: one.phase, lines: [], late: [] });
            segments.splice(segments.indexOf(one.line.segment), 0, first.get(one.phase));
        }
        first.get(one.phase).late.push(one);
    }
    return segments;
}

// Lines with the same number share a column, if their lanes go down in it. Returns how many columns there are.
function placeLines(segment) {
    let column = -1, before = { number: null };
    for (const line of segment.lines) {
        if (line.number === null || line.number !== before.number || line.lane <= before.lane) column++;
        line.column = column;
        before = line;
    }
    return column + 1;
}

function byWorker(segment) {
    const groups = new Map();
    const group = ({ worker }) => groups.get(worker) ?? groups.set(worker, { own: [], late: [] }).get(worker);
    for (const line of segment.lines) group(line).own.push(line);
    for (const one of segment.late) group(one.line).late.push(one);
    for (const { own, late } of groups.values()) {
        own.sort((one, other) => one.index - other.index);
        late.sort((one, other) => one.line.index - other.line.index);
    }
    return groups.values();
}

// A stashed request is after the column of what its worker committed before it. Counts the columns that this takes before each column, and after the last.
function placeStashed({ own, late }, extra) {
    let next = 0, before = 0, count = 0;
    for (const one of late) {
        for (; next < own.length && own[next].index - one.line.index < 0; next++) {
            if (own[next].column >= before) [before, count] = [own[next].column + 1, 0];
        }
        [one.before, one.place] = [before, count++];
        extra[before] = Math.max(extra[before], count);
    }
}

function place(segment, begin) {
    const columns = placeLines(segment), extra = new Uint32Array(columns + 1), starts = new Float64Array(columns + 2);
    for (const group of byWorker(segment)) placeStashed(group, extra);
    for (let column = 0; column <= columns; column++) starts[column + 1] = starts[column] + extra[column] + 1;
    for (const line of segment.lines) line.x = begin + starts[line.column] + extra[line.column];
    for (const one of segment.late) one.x = begin + starts[one.before] + one.place;
    segment.begin = begin;
    segment.end = begin + starts[columns + 1] - 1;
    return segment.end;
}

const segments = segmentsOf();
const columns = segments.reduce((begin, segment) => place(segment, begin), 0);
