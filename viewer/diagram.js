// Draws a part of a log as a signal timing diagram, with the look of log_report.
"use strict";

// Calls with each stretch of a row between two seconds: its place, where it stands in the view, how wide it is, and the second
// behind its last.
function eachSpan(log, layout, view, first, [from, to], take) {
  for (let at = Math.max(0, lastAtMost(first, from)); at < first.length && first[at] <= to; at++) {
    const next = at + 1 < first.length ? first[at + 1] : log.seconds + 1;
    const x = Math.max(layout.left, xOf(layout, view, first[at])), end = Math.min(layout.right, xOf(layout, view, next));
    if (end > x) take(at, x, end - x, next);
  }
}

/** Whether a log has stages; a record of another controller has none. */
const hasStages = (log) => log.stays.place.some((place) => place > 0);

function drawBand(surface, { log, site }, layout, view, seconds) {
  const { first, place } = log.stays, words = [];
  if (!hasStages(log)) return;
  eachSpan(log, layout, view, first, seconds, (at, x, width) => {
    const name = placeName(place[at]), stage = stageName(site, place[at]), long = stage ? `${name} ${stage}` : name;
    surface.box(isInterstage(place[at]) ? "i" : "s", x, BAND, width, BAND_HEIGHT);
    const shown = [long, name].find((text) => text.length * LETTER_WIDTH + 4 <= width);
    if (shown) words.push([x + width / 2, shown]);
  });
  for (const [x, text] of words) surface.text("m", x, BAND + 13, text);
}

function drawGroup(surface, { log, site }, layout, view, seconds, group) {
  const { first, aspect } = log.spans[group], y = groupTop(group), least = site.times ? site.times[group].minGreen : 0;
  eachSpan(log, layout, view, first, seconds, (at, x, width, next) => {
    if (aspect[at] === RED) return surface.box("r", x, y + 10, width, 2);
    surface.box("ruga?"[aspect[at]], x, y + 5, width, 12);
    if (aspect[at] !== GREEN) return;
    const end = Math.min(x + width, xOf(layout, view, first[at] + least)), length = lengthOf(log, next - first[at]);
    const isCut = at === 0 && !isAtRest(log);
    if (end > x && !isCut) surface.box("e", x, y + 11, end - x, 6);
    const isWhole = first[at] > view.from && next < endOf(layout, view) && next <= log.seconds;
    if (isWhole && length.length * LETTER_WIDTH + 4 <= width) surface.text("k", x + width / 2, y + 15, length);
  });
}

// One mark for each row and second, but none within `least` units of the one before in its row: where it stands, its row, and
// the letters of what comes in this second.
function marksOf(layout, view, seconds, [from, to], rowOf, letterOf, least) {
  const marks = [], lastOf = new Map();
  for (let [k, end] = eventsIn(seconds, from, to); k < end; k++) {
    const x = xOf(layout, view, seconds[k] + 0.5), row = rowOf(k), letter = letterOf(k), last = lastOf.get(row);
    if (last && last.x === x && !last.letters.includes(letter)) last.letters += letter;
    if (x < layout.left || x > layout.right || (last && x - last.x < least)) continue;
    marks.push({ x, row, letters: letter });
    lastOf.set(row, marks[marks.length - 1]);
  }
  return marks;
}

// What a breach is marked by: a frame around what was too short, too long or in conflict; of an intergreen a line from the end to
// the green, and one down from the row of the group that ended. Beside it stands what was shown of what is needed.
function breachLines(layout, view, { t, rule, group, other, since }) {
  const within = (moment) => Math.min(layout.right, Math.max(layout.left, xOf(layout, view, moment)));
  const begin = within(since || t), end = within(t), y = groupTop(group), down = [end, y + 2, end, y + 19];
  if (rule === 4 && since) {
    const from = groupTop(other) + 11, to = y + 3;
    return [begin, from, begin, to, begin, to, end, to, end, to - 3, end, to + 3];
  }
  if (begin === end) return down;
  const frame = (top) => [begin, top, end, top, begin, top + 17, end, top + 17, begin, top, begin, top + 17, end, top, end, top + 17];
  return rule === 3 ? [...frame(y + 2), ...frame(groupTop(other) + 2)] : frame(y + 2);
}

const MOST_MARKS = 2000;

function drawBreaches(surface, { log }, layout, view, [from, to], areMany) {
  const inView = (log.breaches || []).filter(({ t, since }) => t >= from && (since || t) <= to).slice(0, MOST_MARKS);
  const lines = inView.flatMap((breach) => {
    const x = xOf(layout, view, Math.min(breach.t, log.seconds + 1)), y = groupTop(breach.group);
    if (areMany) return x >= layout.left && x <= layout.right ? [x, y + 2, x, y + 19] : [];
    return breachLines(layout, view, breach);
  });
  surface.path("v", lines);
  if (areMany || view.scale * log.unit < 3) return;
  const rights = new Map(); // up to where words stand in a row
  for (const { t, group, length, needed } of inView) {
    const x = xOf(layout, view, t) + 4, words = length < 0 ? "" : `${lengthOf(log, length)}${needed < 0 ? "" : ` of ${lengthOf(log, needed)}`} s`;
    const end = x + 6.4 * words.length;
    if (!words || x < (rights.get(group) || layout.left) || end > layout.right + 20) continue;
    surface.text("b", x, groupTop(group) + 4, words);
    rights.set(group, end);
  }
}

const LETTERS_FROM = 14; // units of a second from which the letters of rules stand beside their marks

// A triangle above the row of the group, or above the band for a stage command, with the letter of the rule where there is
// room.
function drawRefused(surface, { refused }, layout, view, seconds) {
  const rowOf = (k) => (refused.rule[k] >= FIRST_COMMAND_RULE ? -1 : refused.one[k]);
  const letterOf = (k) => RULE_LETTERS[refused.rule[k]];
  const marks = marksOf(layout, view, refused.second, seconds, rowOf, letterOf, view.scale * layout.unit < 1 ? 7 : 3);
  const tipOf = (row) => (row < 0 ? BAND : groupTop(row) + 6);
  surface.triangles(marks.map(({ x, row }) => [x, tipOf(row)]));
  if (view.scale * layout.unit >= LETTERS_FROM) for (const { x, row, letters } of marks) surface.text("r", x + 3, tipOf(row), letters);
}

function drawFaults(surface, { faults }, layout, view, seconds) {
  const marks = marksOf(layout, view, faults.second, seconds, () => 0, () => "", view.scale < 1 ? 9 : 4), y = layout.faults + 3;
  surface.path("f", marks.flatMap(({ x }) => cross(x, y)));
}

// How long each detector is covered, as bars.
function drawCovered(surface, log, layout, view, seconds) {
  log.detectors.forEach(({ turns }, row) => {
    const draw = (at, x, width) => at % 2 === 0 && surface.box("c", x, detectorTop(layout, row) + 8, width, 5);
    eachSpan(log, layout, view, turns, seconds, draw);
  });
}

// The fronts of each second, as ticks that are higher for more.
function drawFronts(surface, log, layout, view, [from, to]) {
  const points = [], rowOf = new Map(log.detectors.map(({ number }, row) => [number, row]));
  for (let t = from; t <= to; t++) {
    const x = xOf(layout, view, t + 0.5);
    if (x < layout.left || x > layout.right) continue;
    for (let [k, end] = countsOf(log, t); k < end; k++) {
      const y = detectorTop(layout, rowOf.get(log.detector[k]));
      if (log.fronts[k]) points.push(x, y + 10 - 3 * Math.min(log.fronts[k], 3), x, y + 13);
    }
  }
  surface.path("t", points);
}

// The names of the rows and the lines below them.
function drawRows(surface, log, layout) {
  const { left, right } = layout, lines = [];
  if (hasStages(log)) surface.text("n", left - 12, BAND + 13, "stage");
  log.names.forEach((name, group) => {
    surface.text("n", left - 12, groupTop(group) + 15, name);
    lines.push(12, groupTop(group) + 20, right, groupTop(group) + 20);
  });
  if (log.faults.second.length) surface.text("d", left - 12, layout.faults + 11, "faults");
  log.detectors.forEach(({ number }, row) => {
    surface.text("d", left - 12, detectorTop(layout, row) + 11, `D${number}`);
    lines.push(12, detectorTop(layout, row) + 13, right, detectorTop(layout, row) + 13);
  });
  surface.path("b", lines);
}

// What stands for what.
const ASPECT_LEGEND = [["r", "red"], ["u", "red-amber"], ["g", "green, seconds"], ["e", "its minimum"], ["a", "amber"]];
const LOG_LEGEND = [["i", "interstage"], ["x", "refused, rule"], ["f", "fault"], ["t", "1, 2, more fronts"], ["c", "covered"]];
const BREACH_LEGEND = ["v", "breach: shown of needed"];
function legendOf(log, areMany = false) {
  const aspects = areMany ? [["g", "green, its share of the time"]] : ASPECT_LEGEND;
  return [...aspects, ...(log.unit === 1 ? LOG_LEGEND : [["?", "not known"]]), ...(log.breaches ? [BREACH_LEGEND] : [])];
}
const LEGEND_ROW = 22;

// Where each entry of the legend stands, from its top: [x, y].
function legendPlaces(entries, width) {
  let x = 12, y = 0;
  return entries.map(([, words]) => {
    const needed = 44 + 7.3 * words.length;
    if (x > 12 && x + needed > width) [x, y] = [12, y + LEGEND_ROW];
    x += needed;
    return [x - needed, y];
  });
}
const legendHeight = (log, width) => legendPlaces(legendOf(log), width).pop()[1] + LEGEND_ROW;

const cross = (x, y) => [x - 4, y, x + 4, y + 8, x + 4, y, x - 4, y + 8]; // below y, around x

function drawLegend(surface, log, layout, areMany) {
  const entries = legendOf(log, areMany), places = legendPlaces(entries, layout.width);
  entries.forEach(([kind, words], at) => {
    const [x, below] = places[at], y = layout.end + 42 + below;
    if (kind === "r") surface.box("r", x, y + 5, 24, 2);
    else if (kind === "x") surface.triangles([[x + 8, y + 10]]);
    else if (kind === "f") surface.path("f", cross(x + 12, y + 2));
    else if (kind === "t") surface.path("t", [1, 2, 3].flatMap((n) => [x + 8 * n - 4, y + 9 - 3 * n, x + 8 * n - 4, y + 12]));
    else if (kind === "c") surface.box("c", x, y + 5, 24, 5);
    else if (kind === "v") surface.path("v", [x, y - 2, x + 24, y - 2, x, y + 13, x + 24, y + 13, x, y - 2, x, y + 13, x + 24, y - 2, x + 24, y + 13]);
    else surface.box(kind === "e" ? "g" : kind, x, y, 24, 12);
    if (kind === "e") surface.box("e", x, y + 6, 16, 6);
    if (kind === "g") surface.text("k", x + 12, y + 10, "12");
    if (kind === "x") surface.text("r", x + 11, y + 10, "I");
    surface.text("o", x + 30, y + 10, words);
  });
}

/** Draws a view of a log, with what is known of its site and when second 1 begins. Where its stretches are too many to be told
    apart, each row has columns of some time in their place. */
function drawLog(surface, shown, layout, view) {
  const { log, clock } = shown, seconds = secondsIn(log, layout, view), [from, to] = seconds, heights = [];
  surface.ground(layout.width, layout.height);
  drawAxes(surface, log, layout, view, clock);
  drawRows(surface, log, layout);
  const stretches = Math.max(...[log.stays, ...log.spans].map(({ first }) => lastAtMost(first, to) - lastAtMost(first, from)));
  const areMany = stretches > layout.plot / 2.5, { unit } = log;
  const step = unit * clockStep(Math.max(3 / (unit * view.scale), areMany ? 300 : 0));
  if (areMany) heights.push(drawShares(surface, log, layout, view, seconds, step));
  else {
    drawBand(surface, shown, layout, view, seconds);
    log.names.forEach((_, group) => drawGroup(surface, shown, layout, view, seconds, group));
  }
  const counts = countsOf(log, to)[1] - countsOf(log, from)[0];
  if (counts > 2 * layout.plot) heights.push(drawFrontColumns(surface, log, layout, view, seconds, step));
  else {
    drawCovered(surface, log, layout, view, seconds);
    drawFronts(surface, log, layout, view, seconds);
  }
  drawRefused(surface, log, layout, view, seconds);
  drawFaults(surface, log, layout, view, seconds);
  drawBreaches(surface, shown, layout, view, seconds, areMany);
  const stretch = `${unit === 1 ? "seconds" : "times"} ${timeText(log, from)} to ${timeText(log, to)}`;
  const columns = `${stretch[0].toUpperCase()}${stretch.slice(1)}; columns of ${lengthText(step / unit)}: ${heights.join(", ")}`;
  surface.text("h", 12, 20, heights.length ? columns : `Signal timing diagram, ${stretch}`);
  drawLegend(surface, log, layout, areMany);
}
