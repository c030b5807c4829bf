// What a log tells: of a second, and of the seconds where something happens. A record in tenths is a log of tenths: `unit` is how
// many of its moments a second has, and `first` is the number of the first one.
"use strict";

/** So many moments in seconds, as the programs write them. */
const lengthOf = (log, moments) => (log.unit === 1 ? String(moments) : `${Math.floor(moments / log.unit)}.${moments % log.unit}`);

/** A moment by its number: the second of a log, the time of a record. */
const timeText = (log, t) => lengthOf(log, log.first + t - 1);

/** The moment of a number that was typed; what lies beside the log is its first or last moment. */
const momentOf = (log, number) => Math.max(1, Math.min(log.seconds, Math.round(number * log.unit) - log.first + 1));

/** Whether the log begins with the controller: in second 1, and with no group green or amber. Else its past isn't known. */
const isAtRest = (log) =>
  log.unit === 1 && log.first === 1 && log.spans.every(({ aspect }) => aspect[0] === RED || aspect[0] === RED_AMBER);

/** What a moment is called. */
const momentWord = (log) => (log.unit === 1 ? "second" : "time");

/** The place of the last of these rising numbers that is at most `most`, or -1. */
function lastAtMost(rising, most) {
  let low = 0, high = rising.length;
  while (low < high) {
    const middle = (low + high) >> 1;
    if (rising[middle] <= most) low = middle + 1;
    else high = middle;
  }
  return low - 1;
}

/** The first place of the events of these seconds, and the one behind their last. */
const eventsIn = (seconds, from, to) => [lastAtMost(seconds, from - 1) + 1, lastAtMost(seconds, to) + 1];

/** Where the counts of a second begin and end. */
const countsOf = (log, t) => [log.countAt[t - 1], t < log.seconds ? log.countAt[t] : log.detector.length];

const placeName = (place) => (place === 0 ? "-" : place < 64 ? `S${place}` : `${place >> 6}-${place & 63}`);
const isInterstage = (place) => place >= 64;

// The stays at stages and interstages: the first second and the place of each.
function staysOf(log) {
  const stays = columnsOf({ first: Int32Array, place: Uint16Array });
  for (let t = 1; t <= log.seconds; t++) {
    if (t > 1 && log.place[t - 1] === log.place[t - 2]) continue;
    stays.first.push(t);
    stays.place.push(log.place[t - 1]);
  }
  return doneColumns(stays);
}

// The detectors, by number: the seconds with a front, and those in which it turns covered and free again, in turn. A detector
// is covered while its fronts so far are more than its rears so far.
function detectorsOf(log) {
  const detectors = new Map(), covered = new Float64Array(MOST_DETECTORS + 1);
  for (let t = 1, k = 0; t <= log.seconds; t++) {
    for (const end = countsOf(log, t)[1]; k < end; k++) {
      const number = log.detector[k], was = covered[number] > 0;
      if (!detectors.has(number)) detectors.set(number, { number, ...columnsOf({ fronts: Int32Array, turns: Int32Array }) });
      const { fronts, turns } = detectors.get(number);
      covered[number] += log.fronts[k] - log.rears[k];
      if (log.fronts[k] > 0) fronts.push(t);
      if (covered[number] > 0 !== was) turns.push(t);
    }
  }
  const inOrder = [...detectors.values()].sort((one, other) => one.number - other.number);
  return inOrder.map(({ number, fronts, turns }) => ({ number, fronts: fronts.done(), turns: turns.done() }));
}

/** Puts to a log what is asked of it again and again. */
const withPast = (log) => ({ ...log, stays: staysOf(log), detectors: detectorsOf(log) });

/** What a group shows in a second, and since when; in second 0 of a log that begins at rest it turned red. Where it has shown it
    from the first second of another log on, `isCut` says that it may have done so long before. */
function shownAt(log, group, t) {
  const { first, aspect } = log.spans[group], at = lastAtMost(first, t), isRested = log.unit === 1 && log.first === 1;
  if (at < 0) return { aspect: RED, since: 0, isCut: false };
  const isCut = (at === 0 && !isRested) || (at > 0 && aspect[at - 1] === UNKNOWN);
  return { aspect: aspect[at], since: at === 0 && aspect[0] === RED && isRested ? 0 : first[at], isCut };
}

/** Since when a group has been red-amber or green, up to a second in which it is. */
function onSince(log, group, t) {
  const { first, aspect } = log.spans[group];
  let at = lastAtMost(first, t);
  while (at > 0 && (aspect[at - 1] === RED_AMBER || aspect[at - 1] === GREEN)) at--;
  return first[at];
}

/** The last second up to t in which a group ended its green; 0 where there is none. */
function lastEnd(log, group, t) {
  const { first, aspect } = log.spans[group];
  for (let at = lastAtMost(first, t); at > 0; at--) if (aspect[at - 1] === GREEN) return first[at];
  return 0;
}

/** The place of the fault of a second, or -1. */
function faultAt(log, t) {
  const at = lastAtMost(log.faults.second, t);
  return at >= 0 && log.faults.second[at] === t ? at : -1;
}

/** What the log says of its k-th refused command. */
function refusedText({ names, refused }, k) {
  const [rule, one, other] = [refused.rule[k], refused.one[k], refused.other[k]];
  if (rule >= FIRST_COMMAND_RULE) return `${one}-${other}:${RULES[rule]}`;
  return `${names[one]}:${RULES[rule]}${other === NO_OTHER ? "" : `:${names[other]}`}`;
}

// The line of a record that says what is shown in a tenth.
function recordLine(log, t) {
  const first = Math.max(...log.spans.map((spans) => spans.first[lastAtMost(spans.first, t)]));
  const letters = log.spans.map((_, group) => ASPECT_LETTERS[shownAt(log, group, t).aspect]).join("");
  return `${timeText(log, first)}|${letters.startsWith("?") ? "?" : letters}`;
}

/** The line of a second, as it stands in the log. */
function recordText(log, t) {
  if (log.unit > 1) return recordLine(log, t);
  const { refused, faults } = log, place = log.place[t - 1], fault = faultAt(log, t), counts = [], words = [];
  for (let [k, end] = countsOf(log, t); k < end; k++) counts.push(`${log.detector[k]}:${log.fronts[k]}:${log.rears[k]}`);
  for (let [k, end] = eventsIn(refused.second, t, t); k < end; k++) words.push(refusedText(log, k));
  const letters = log.names.map((_, group) => ASPECT_LETTERS[shownAt(log, group, t).aspect]).join("");
  return [
    timeText(log, t), isInterstage(place) ? `I${placeName(place)}+${log.inter[t - 1]}` : placeName(place), letters,
    counts.join(" ") || "-", words.join(" ") || "-", fault < 0 ? "-" : `${FAULTS[faults.kind[fault]]}@${faults.line[fault]}`,
  ].join("|");
}

// The seconds in which a group starts: it shows red-amber or green, and the second before showed it red.
function startsOf({ first, aspect }) {
  const isStart = (at) => (aspect[at] === RED_AMBER || aspect[at] === GREEN) && (at === 0 || aspect[at - 1] === RED);
  return first.filter((_, at) => isStart(at));
}

// The seconds of a log that has been judged in which a breach is complete, or the last one where it lies behind the log.
const breachSeconds = (log) =>
  Int32Array.from((log.breaches || []).map(({ t }) => Math.min(t, log.seconds))).sort().filter((t, k, all) => t !== all[k - 1]);

/** The rising seconds of what can be jumped to: `breach`, `lost`, `refused`, `fault`, `group`, `group 0`, `stage`, `stage 1` and so
    on. */
function secondsOf(log, what) {
  const [kind, which] = what.split(" "), { first, place } = log.stays;
  if (kind === "breach") return breachSeconds(log);
  if (kind === "lost") return Int32Array.from(lostStarts(log).map(({ lost }) => lost)).sort();
  if (kind === "refused") return log.refused.second;
  if (kind === "fault") return log.faults.second;
  if (kind === "stage") return first.filter((_, at) => (which ? place[at] === +which : !isInterstage(place[at])));
  return which ? startsOf(log.spans[which]) : Int32Array.from(log.spans.flatMap((spans) => [...startsOf(spans)])).sort();
}

/** The starts that were asked for, refused, and gone before they were obeyed: the group, the first second in which it was asked,
    the one in which it was lost, the rule and the other group of the last refusal; and how many askings each group had. */
function startsAsked(log) {
  const { second, rule, one, other } = log.refused, last = log.names.map(() => null), lost = [], asked = log.names.map(() => []);
  const settle = (group, t) => {
    const asking = last[group];
    last[group] = null;
    const { aspect } = shownAt(log, group, t);
    if (t <= log.seconds && (aspect === RED || aspect === AMBER)) lost.push({ group, ...asking, lost: t });
  };
  for (let k = 0; k < second.length; k++) {
    const group = one[k], t = second[k];
    if (rule[k] >= FIRST_COMMAND_RULE || isOnAt(log, group, t)) continue;
    if (last[group] && last[group].end < t) settle(group, last[group].end);
    if (!last[group]) {
      last[group] = { asked: t };
      asked[group].push(t);
    }
    Object.assign(last[group], { end: t + 1, rule: rule[k], other: other[k] });
  }
  last.forEach((asking, group) => asking && settle(group, asking.end));
  return { lost: lost.sort((a, b) => a.lost - b.lost || a.group - b.group), asked };
}
const isOnAt = (log, group, t) => [RED_AMBER, GREEN].includes(shownAt(log, group, t).aspect);
const lostStarts = (log) => (log.starts = log.starts || startsAsked(log)).lost;

/** The next such second after t, or the last one before it; 0 where there is none. */
function jumpFrom(seconds, t, isForward) {
  const at = isForward ? lastAtMost(seconds, t) + 1 : lastAtMost(seconds, t - 1);
  return seconds[at] || 0;
}
