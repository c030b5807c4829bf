// Sentences: why a command was refused, with the numbers of the log and of the tables; and what a fault means.
"use strict";

const secondsAre = (seconds) => `${seconds} s ${seconds === 1 ? "is" : "are"}`;
const OTHER_TABLE = " By the table it has: is it the table of this log?";

// Since when a group shows what it shows, in words.
function sinceWords(log, { since, isCut }) {
  if (since === 0) return "since second 0, in which all were red";
  return `since second ${timeText(log, since)}${isCut ? " or before" : ""}`;
}

function whySequence(log, t, group) {
  const shown = shownAt(log, group, t - 1), { aspect, since } = shown;
  const what = aspect === RED || aspect === RED_AMBER ? "end" : "start", begun = since < t - 1 ? `, ${sinceWords(log, shown)}` : "";
  if (t === 1 && log.first > 1) return `${log.names[group]} may not turn: what it showed before isn't in the log.`;
  return `${log.names[group]} may not ${what}: it was ${ASPECTS[aspect]} in second ${timeText(log, t - 1)}${begun}.`;
}

// Of a minimum green or a minimum red; `least` is its number where the table is known.
function whyMinimum(log, t, group, what, aspect, least) {
  const shown = shownAt(log, group, t), { since } = shown, passed = t - since, of = least === undefined ? "" : ` of ${least}`;
  const told = passed < least ? ` This rule lets it ${what} from second ${timeText(log, since + least)} on.` : OTHER_TABLE;
  const rest = least === undefined || shown.isCut ? "" : told;
  return `${log.names[group]} may not ${what}: it has been ${aspect} for ${passed} s${of}, ${sinceWords(log, shown)}.${rest}`;
}

function whyConflict(log, t, group, other) {
  const { aspect } = shownAt(log, other, t), since = onSince(log, other, t), cut = since === 1 && log.first > 1 ? " or before" : "";
  const shown = `is ${ASPECTS[aspect]}, and has been red-amber or green since second ${timeText(log, since)}${cut}, for ${t - since} s`;
  return `${log.names[group]} may not start: ${log.names[other]}, in conflict with it, ${shown}.`;
}

// The first second in which this group may start after the last end of the other one; 0 where they aren't in conflict.
function startAfter(log, { times, intergreens }, t, group, other) {
  const needed = intergreens.get(pairOf(other, group));
  const end = lastEnd(log, other, t);
  return needed === undefined || (end === 0 && log.first > 1) ? 0 : end + needed - times[group].redAmber;
}

function intergreenNumbers(log, site, t, group, other) {
  const needed = site.intergreens.get(pairOf(other, group)), start = startAfter(log, site, t, group, other);
  if (needed === undefined || start <= t) return OTHER_TABLE;
  const { redAmber } = site.times[group], name = log.names[group];
  const green = redAmber === 0 ? "" : `, which follows ${redAmber} s after its start`;
  const all = log.names.map((_, third) => startAfter(log, site, t, group, third)), latest = Math.max(...all);
  const last = log.names[all.indexOf(latest)];
  const later = latest > start ? ` The intergreen from ${last} lets it start from second ${timeText(log, latest)} on.` : "";
  const left = `${secondsAre(start - t)} left: earliest start second ${timeText(log, start)}.`;
  return ` ${secondsAre(needed)} needed up to the green of ${name}${green}; ${left}${later}`;
}

function whyIntergreen(log, site, t, group, other) {
  const end = lastEnd(log, other, t), name = log.names[other];
  if (end === 0 && log.first > 1) {
    return `${log.names[group]} may not start: the intergreen from ${name} hasn't passed. What would tell its end lies before the log.`;
  }
  const ended = end === 0 ? `${name} counts as having ended in second 0, ${t} s ago.`
    : end === t ? `${name} ended in this second.` : `${name} ended ${t - end} s ago, in second ${timeText(log, end)}.`;
  const numbers = site.times && site.intergreens ? intergreenNumbers(log, site, t, group, other) : "";
  return `${log.names[group]} may not start: the intergreen from ${name} hasn't passed. ${ended}${numbers}`;
}

function whyCommand(log, t, rule, from, to) {
  const place = log.place[t - 1], [one, other] = [place >> 6, place & 63], second = log.inter[t - 1];
  const front = `The interstage from stage ${from} to ${to} may not begin:`;
  if (rule === "NoInterstage") return `${front} the plan has none from ${from} to ${to}.`;
  if (rule === "Running" && isInterstage(place)) return `${front} that from ${one} to ${other} runs, in its second ${second}.`;
  if (rule === "Running") return `${front} another one runs.`;
  const active = isInterstage(place) ? one : place;
  return `${front} stage ${from} isn't active${active === from || active === 0 ? "" : `, but stage ${active}`}.`;
}

/** Why the k-th refused command of a log was refused. Tables of the site that aren't known are null or undefined. */
function whyRefused(log, site, k) {
  const { second, rule, one, other } = log.refused, t = second[k], word = RULES[rule[k]];
  const times = site.times ? site.times[one[k]] : {};
  if (word === "Sequence") return whySequence(log, t, one[k]);
  if (word === "MinGreen") return whyMinimum(log, t, one[k], "end", "green", times.minGreen);
  if (word === "MinRed") return whyMinimum(log, t, one[k], "start", "red", times.minRed);
  if (word === "Conflict") return whyConflict(log, t, one[k], other[k]);
  if (word === "Intergreen") return whyIntergreen(log, site, t, one[k], other[k]);
  return whyCommand(log, t, word, one[k], other[k]);
}

/** What a fault of this kind in this line means. */
function faultWords(kind, line) {
  return `${FAULTS[kind]} in line ${line}: ${FAULT_MEANS[FAULTS[kind]]}. The program commanded nothing in this second.`;
}
