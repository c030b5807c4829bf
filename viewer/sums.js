// What the seconds of a log add up to. A second lies in a part of the log by its number; a green, a red, a cycle and a stay lie
// with their whole length in the part in which they end, and they end in the first second that no longer belongs to them.
"use strict";

/** Numbers that are added up one by one. */
class Lengths {
  constructor() {
    Object.assign(this, { count: 0, sum: 0, shortest: Infinity, longest: 0, all: [] });
  }
  /** The least of them that so many in a hundred don't exceed. */
  rank(percent) {
    this.inOrder = this.inOrder || Int32Array.from(this.all).sort();
    return this.count ? this.inOrder[Math.ceil((percent * this.count) / 100) - 1] : null;
  }
  add(length) {
    this.all.push(length);
    this.count++;
    this.sum += length;
    this.shortest = Math.min(this.shortest, length);
    this.longest = Math.max(this.longest, length);
  }
}

/** A part of a whole as a text, rounded down to a tenth as log_report does; an empty one of nothing. */
const tenthsText = (sum, count) => (count === 0 ? "" : (Math.floor((10 * sum) / count) / 10).toFixed(1));

// How many seconds of the stretch from `first` to before `next` lie between these two.
const secondsWithin = (first, next, from, to) => Math.max(0, Math.min(next, to + 1) - Math.max(first, from));

/** Calls with each stretch of a row that touches the seconds from..to or ends there: its place, its first second, the one
    behind its last, and whether it ends between them. The last stretch of a log doesn't end. */
function eachStretch(log, first, from, to, take) {
  for (let at = Math.max(0, lastAtMost(first, from - 1)); at < first.length && first[at] <= to; at++) {
    const isLast = at + 1 === first.length, next = isLast ? log.seconds + 1 : first[at + 1];
    take(at, first[at], next, !isLast && from <= next && next <= to);
  }
}

// Whether a stretch may have begun long before its first second: at the begin of a log whose past isn't known, and behind a time
// of which nothing is known.
const isCutAt = (log, { aspect }, at) => (at === 0 ? !isAtRest(log) : aspect[at - 1] === UNKNOWN);

// The first second of the green before the stretch at this place, where it begins there; else 0.
function greenBefore(log, spans, at) {
  const { first, aspect } = spans;
  for (let k = at - 1; k >= 0 && aspect[k] !== UNKNOWN; k--) {
    if (aspect[k] === GREEN) return isCutAt(log, spans, k) ? 0 : first[k];
  }
  return 0;
}

// Of a group: seconds of green, greens that begin, greens and reds that end, its longest red, from one green to the next.
function groupSums(log, group, from, to) {
  const spans = log.spans[group];
  const sums = { name: log.names[group], greenSeconds: 0, begun: 0, longestRed: 0, longestRedAt: 0, cut: 0, cutRed: 0 };
  const seconds = to + 1 - from, isToEnd = to === log.seconds; // a red that runs at the end of the log counts for the longest
  const greens = new Lengths(), reds = new Lengths(), cycles = new Lengths();
  eachStretch(log, spans.first, from, to, (at, first, next, isEnded) => {
    const isGreen = spans.aspect[at] === GREEN, isRed = spans.aspect[at] === RED, isBegun = !isCutAt(log, spans, at);
    const isWhole = isBegun && spans.aspect[at + 1] !== UNKNOWN;
    if (isGreen) sums.greenSeconds += secondsWithin(first, next, from, to);
    if (isGreen && isEnded && isWhole) greens.add(next - first);
    if (isRed && isEnded && isWhole) reds.add(next - first);
    if (isEnded && !isWhole) sums.cut += isGreen;
    if (isEnded && !isWhole) sums.cutRed += isRed;
    const isLonger = isRed && (isEnded || (isToEnd && next > log.seconds)) && next - first > sums.longestRed;
    if (isLonger) Object.assign(sums, { longestRed: next - first, longestRedAt: first });
    if (!isGreen || first < from || !isBegun) return;
    sums.begun++;
    const before = greenBefore(log, spans, at);
    if (before > 0) cycles.add(first - before);
  });
  return { ...sums, greens, reds, cycles, seconds };
}

// Of each stage and interstage: stays that begin and seconds; the longest stay that ends.
function placeSums(log, from, to) {
  const sums = new Map(), isCut = !isAtRest(log);
  eachStretch(log, log.stays.first, from, to, (at, first, next, isEnded) => {
    const place = log.stays.place[at], seconds = secondsWithin(first, next, from, to);
    if (seconds === 0 && !isEnded) return;
    if (!sums.has(place)) sums.set(place, { place, times: 0, seconds: 0, stays: new Lengths() });
    const sum = sums.get(place);
    sum.seconds += seconds;
    if (at === 0 && isCut) return;
    if (first >= from) sum.times++;
    if (isEnded) sum.stays.add(next - first);
  });
  return [...sums.values()];
}

// How often each thing came, in how many seconds, and the most of these one after another; in the order in which they came
// first.
function tally(seconds, [from, to], nameOf) {
  const sums = new Map();
  for (let k = from; k < to; k++) {
    const name = nameOf(k), t = seconds[k];
    if (name === null) continue;
    if (!sums.has(name)) sums.set(name, { name, times: 0, seconds: 0, last: 0, run: 0, longest: 0, longestAt: 0 });
    const sum = sums.get(name);
    sum.times++;
    if (sum.last === t) continue;
    sum.seconds++;
    sum.run = sum.last > 0 && sum.last === t - 1 ? sum.run + 1 : 1;
    sum.last = t;
    if (sum.run > sum.longest) [sum.longest, sum.longestAt] = [sum.run, t + 1 - sum.run];
  }
  return [...sums.values()];
}

// The seconds of a detector in which it is covered, and the longest stretch of them, cut at the borders.
function coveredSums({ turns }, from, to) {
  const sums = { covered: 0, longest: 0, longestAt: 0 };
  for (let at = Math.max(0, lastAtMost(turns, from)) & ~1; at < turns.length && turns[at] <= to; at += 2) {
    const next = at + 1 < turns.length ? turns[at + 1] : Infinity, seconds = secondsWithin(turns[at], next, from, to);
    sums.covered += seconds;
    if (seconds > sums.longest) [sums.longest, sums.longestAt] = [seconds, Math.max(turns[at], from)];
  }
  return sums;
}

// The last second up to t in which a detector was covered or had a front; 0 where there is none.
function lastDetection({ fronts, turns }, t) {
  const at = lastAtMost(turns, t), front = lastAtMost(fronts, t);
  const covered = at < 0 ? 0 : at % 2 === 0 ? t : turns[at] - 1;
  return Math.max(covered, front < 0 ? 0 : fronts[front]);
}

// The most seconds since a detection, and the second of that one. Each gap is longest right before a front.
function headwaySums(detector, from, to) {
  const { fronts } = detector, sums = { headway: null, headwayAfter: 0 };
  const look = (t) => {
    const last = lastDetection(detector, t), isLonger = sums.headway === null || t - last > sums.headway;
    if (last > 0 && isLonger) Object.assign(sums, { headway: t - last, headwayAfter: last });
  };
  look(from);
  for (let [k, end] = eventsIn(fronts, from + 1, to); k < end; k++) {
    look(fronts[k] - 1);
    look(fronts[k]); // 0, where nothing longer came before
  }
  look(to);
  return sums;
}

// Of each detector: fronts and rears, covered seconds, headways.
function detectorSums(log, from, to) {
  const fronts = new Array(MOST_DETECTORS + 1).fill(0), rears = [...fronts];
  for (let k = countsOf(log, from)[0], end = countsOf(log, to)[1]; k < end; k++) {
    fronts[log.detector[k]] += log.fronts[k];
    rears[log.detector[k]] += log.rears[k];
  }
  return log.detectors.map((detector) => ({
    number: detector.number, fronts: fronts[detector.number], rears: rears[detector.number], seconds: to + 1 - from,
    ...coveredSums(detector, from, to), ...headwaySums(detector, from, to),
  }));
}

// Of each group: askings that began, those that were lost, the longest lost one and its first second.
function lostSums(log, from, to) {
  const lost = lostStarts(log);
  return log.names.map((name, group) => {
    const own = lost.filter((start) => start.group === group && from <= start.lost && start.lost <= to);
    const longest = own.reduce((most, { asked, lost: t }) => Math.max(most, t - asked), 0);
    const at = own.find(({ asked, lost: t }) => t - asked === longest), [begin, end] = eventsIn(log.starts.asked[group], from, to);
    return { name, asked: end - begin, lost: own.length, longest, longestAt: at ? at.asked : 0 };
  }).filter(({ asked, lost: count }) => asked > 0 || count > 0);
}

/** What the seconds from `from` to `to` add up to. */
function sumsOf(log, from, to) {
  const { refused, faults } = log, refusals = eventsIn(refused.second, from, to);
  const refusedBy = (nameOf) => tally(refused.second, refusals, nameOf);
  const isTurn = (k) => refused.rule[k] < FIRST_COMMAND_RULE;
  return {
    groups: log.names.map((_, group) => groupSums(log, group, from, to)),
    places: placeSums(log, from, to),
    rules: refusedBy((k) => RULES[refused.rule[k]]),
    groupRules: refusedBy((k) => (isTurn(k) ? `${log.names[refused.one[k]]}:${RULES[refused.rule[k]]}` : null)),
    refused: refusedBy((k) => refusedText(log, k)),
    faults: tally(faults.second, eventsIn(faults.second, from, to), (k) => `${FAULTS[faults.kind[k]]}@${faults.line[k]}`),
    lost: lostSums(log, from, to),
    detectors: detectorSums(log, from, to),
  };
}

// The columns of the tables behind their name, and what stands in them: of a group, a place, a refused command or fault, a
// detector. Lengths are told in seconds, and moments by their numbers.
const SPREAD = ["shortest s", "mean s", "longest s"], RANKS = [15, 50, 85, 95];
const GREEN_HEAD = ["begun", "ended", ...SPREAD, "seconds", "share %"];
const CYCLE_HEAD = ["cycles", ...SPREAD, "mean red s", "longest red s", "from second"];
const RANK_HEAD = ["green", "red", "cycle"].flatMap((what) => RANKS.map((rank) => `${what} ${rank}`));
const CUT_HEAD = ["greens", "reds"], LOST_HEAD = ["asked", "lost", "longest lost s", "from second"];
const PLACE_HEAD = ["times", "seconds", "longest s"];
const TIMES_HEAD = ["times", "longest run s", "from second"];
const DETECTOR_HEAD = ["fronts", "rears", "covered s", "covered %", "longest s", "from second", "headway s", "after second"];
const percentText = (seconds, all) => tenthsText(100 * seconds, all);

function cellsOf(log) {
  const length = (moments) => lengthOf(log, moments), at = (t) => (t ? timeText(log, t) : "");
  const mean = ({ sum, count }) => tenthsText(sum, count * log.unit);
  const spread = (lengths) =>
    (lengths.count ? [length(lengths.shortest), mean(lengths), length(lengths.longest)] : ["", "", ""]);
  const ranks = (lengths) => RANKS.map((rank) => (lengths.count ? length(lengths.rank(rank)) : ""));
  return {
    green: ({ begun, greens, greenSeconds, seconds }) =>
      [begun, greens.count, ...spread(greens), length(greenSeconds), percentText(greenSeconds, seconds)],
    cycle: ({ cycles, reds, longestRed, longestRedAt }) =>
      [cycles.count, ...spread(cycles), mean(reds), length(longestRed), at(longestRedAt)],
    percentile: ({ greens, reds, cycles }) => [...ranks(greens), ...ranks(reds), ...ranks(cycles)],
    cut: ({ cut, cutRed }) => [cut, cutRed],
    stage: ({ times, seconds, stays }) => [times, length(seconds), stays.count ? length(stays.longest) : ""],
    times: ({ times, longest, longestAt }) => [times, length(longest), at(longestAt)],
    lost: ({ asked, lost, longest, longestAt }) => [asked, lost, lost ? length(longest) : "", at(longestAt)],
    detector: ({ fronts, rears, covered, seconds, longest, longestAt, headway, headwayAfter }) => [
      fronts, rears, covered, percentText(covered, seconds), longest, at(longestAt), headway ?? "", at(headwayAfter),
    ],
  };
}

/** The tables of the sums of a log: a short name, a title, what stands in the columns behind the name, and the rows. `placeWords`
    names places. */
function sumTables(log, sums, placeWords) {
  const nameOf = ({ name, place, number }) => name ?? (number === undefined ? placeWords(place) : `D${number}`);
  const cells = cellsOf(log), places = log.stays.place.some((place) => place > 0) ? sums.places : [];
  return [
    ["green", "Greens", GREEN_HEAD, sums.groups, cells.green],
    ["cycle", "From green to green; reds", CYCLE_HEAD, sums.groups, cells.cycle],
    ["percentile", "So many in a hundred were no longer, s", RANK_HEAD, sums.groups, cells.percentile],
    ["cut", "Cut, and not counted above", CUT_HEAD, sums.groups.filter(({ cut, cutRed }) => cut || cutRed), cells.cut],
    ["stage", "Stages and interstages", PLACE_HEAD, places, cells.stage],
    ["rule", "Refused, by rule", TIMES_HEAD, sums.rules, cells.times],
    ["group_rule", "Refused, by group and rule", TIMES_HEAD, sums.groupRules, cells.times],
    ["refused", "Refused", TIMES_HEAD, sums.refused, cells.times],
    ["lost", "Starts that were asked for and lost", LOST_HEAD, sums.lost, cells.lost],
    ["fault", "Faults, by line", TIMES_HEAD, sums.faults, cells.times],
    ["detector", "Detectors", DETECTOR_HEAD, sums.detectors, cells.detector],
  ].filter(([, , , rows]) => rows.length > 0).map(([part, title, head, rows, cellsOfRow]) => ({
    part, title, head, rows: rows.map((row) => [nameOf(row), ...cellsOfRow(row)]),
  }));
}

/** The tables as comma-separated values. No name has a comma, and none begins a formula. */
function sumsCsv(log, tables, from, to) {
  const lines = [["seconds", timeText(log, from), timeText(log, to)]];
  for (const { part, head, rows } of tables) lines.push([], ["part", "name", ...head], ...rows.map((row) => [part, ...row]));
  return lines.map((line) => `${line.join(",")}\r\n`).join("");
}
