// Every breach of the tables in a log or a record, as `log_report breaches` tells it, without a tolerance. A moment is a second of
// a log and a tenth of a record; tables are in moments too. Between two stretches of which nothing is known lies a part, whose
// past isn't known.
"use strict";

const JUDGED_RULES = ["Sequence", "MinGreen", "MinRed", "Conflict", "Intergreen"];
const FOLLOWS = { R: "UG", U: "G", G: "AR", A: "R" };
const isOn = (aspect) => aspect === RED_AMBER || aspect === GREEN;

/** The parts of which something is known: each its first moment, and the one behind its last. */
function partsOf(log) {
  const { first, aspect } = log.spans[0], parts = [];
  for (let at = 0; at < first.length; at++) {
    const next = at + 1 < first.length ? first[at + 1] : log.seconds + 1, last = parts[parts.length - 1];
    if (aspect[at] === UNKNOWN) continue;
    if (last && last[1] === first[at]) last[1] = next;
    else parts.push([first[at], next]);
  }
  return parts;
}

// What a group shows in a part, stretch by stretch: from, up to before, aspect; and what is asked of it again and again.
function trackOf({ first, aspect }, [begin, end]) {
  const stretches = [], ons = [], ends = [], greens = [];
  for (let at = Math.max(0, lastAtMost(first, begin)); at < first.length && first[at] < end; at++) {
    const next = Math.min(end, at + 1 < first.length ? first[at + 1] : end);
    stretches.push({ at: Math.max(begin, first[at]), next, aspect: aspect[at] });
  }
  for (const { at, next, aspect: shown } of stretches) {
    const last = ons[ons.length - 1];
    if (isOn(shown) && last && last[1] === at) last[1] = next;
    else if (isOn(shown)) ons.push([at, next]);
    if (shown === GREEN && next < end) ends.push(next);
    if (shown === GREEN && at > begin) greens.push(at);
  }
  return { stretches, ons, ends, greens };
}

// Judges a part; `take` gets each breach that is complete in it, `leave` what its end leaves, in the order in which these are told.
class Part {
  constructor(log, site, bounds) {
    const [begin, end] = bounds;
    Object.assign(this, { log, site, begin, end, rows: [], left: [], hidden: [] });
    this.tracks = log.names.map((_, group) => trackOf(log.spans[group], bounds));
  }
  row(t, rule, group, more, isLeft = false) {
    const row = { t, rule, group, other: NO_OTHER, shown: "", since: 0, length: -1, needed: -1, ...more };
    (isLeft ? this.left : this.rows).push(row);
  }
  // an aspect from `at` on that is over in t and lasted another time than its own, or has not ended and lasted too long
  otherTime(group, aspect, at, t, needed, isOver) {
    const length = t - at, isShort = isOver && at > this.begin && length < needed;
    if (!isShort && length <= needed) return;
    this.row(t, 0, group, { shown: ASPECT_LETTERS[aspect], since: at, length, needed }, !isOver);
  }
  least(rule, group, aspect, at, t, needed) {
    if (at === this.begin || t - at >= needed) return;
    this.row(t, rule, group, { shown: ASPECT_LETTERS[aspect], since: at, length: t - at, needed });
  }
  group(group) {
    const times = this.site.times[group], { stretches } = this.tracks[group];
    stretches.forEach(({ at, next, aspect }, k) => {
      const isOver = next < this.end, now = isOver ? stretches[k + 1].aspect : -1;
      if (isOver && !FOLLOWS[ASPECT_LETTERS[aspect]].includes(ASPECT_LETTERS[now])) {
        this.row(next, 0, group, { shown: ASPECT_LETTERS[aspect] + ASPECT_LETTERS[now] });
      }
      if (aspect === RED_AMBER) this.otherTime(group, aspect, at, next, times.redAmber, isOver);
      if (aspect === AMBER) this.otherTime(group, aspect, at, next, times.amber, isOver);
      if (aspect === RED && now === GREEN) this.otherTime(group, RED_AMBER, next, next, times.redAmber, true);
      if (aspect === GREEN && now === RED) this.otherTime(group, AMBER, next, next, times.amber, true);
      if (aspect === GREEN && isOver) this.least(1, group, GREEN, at, next, times.minGreen);
      if (aspect === RED && (now === RED_AMBER || now === GREEN)) this.least(2, group, RED, at, next, times.minRed);
    });
  }
  isPair(one, other) {
    const { intergreens } = this.site;
    return intergreens.has(pairOf(one, other)) || intergreens.has(pairOf(other, one));
  }
  conflicts(one, other) {
    if (!this.isPair(one, other)) return;
    const [mine, theirs] = [this.tracks[one].ons, this.tracks[other].ons];
    for (let a = 0, b = 0; a < mine.length && b < theirs.length; ) {
      const since = Math.max(mine[a][0], theirs[b][0]), t = Math.min(mine[a][1], theirs[b][1]);
      if (since < t) this.row(t, 3, one, { other, since, length: t - since }, t === this.end);
      if (mine[a][1] < theirs[b][1]) a++;
      else b++;
    }
  }
  // the second in which a group that is red-amber at the end turns green at the latest
  dueGreen(group) {
    const { stretches } = this.tracks[group], { at, aspect } = stretches[stretches.length - 1];
    return aspect === RED_AMBER ? Math.max(at + this.site.times[group].redAmber, this.end) : 0;
  }
  intergreens(group, other) {
    const needed = this.site.intergreens.get(pairOf(other, group));
    if (needed === undefined) return;
    const { ends } = this.tracks[other], due = this.dueGreen(group);
    const judge = (t, isLeft) => {
      const at = lastAtMost(ends, t), since = at < 0 ? 0 : ends[at];
      if (since > 0 && t < since + needed) this.row(t, 4, group, { other, since, length: t - since, needed }, isLeft);
    };
    for (const t of this.tracks[group].greens) judge(t, false);
    if (due) judge(due, true);
  }
  judge() {
    const groups = this.log.names.map((_, group) => group);
    for (const group of groups) this.group(group);
    for (const group of groups) for (const other of groups) if (group < other) this.conflicts(group, other);
    for (const group of groups) for (const other of groups) if (group !== other) this.intergreens(group, other);
    for (const group of groups) for (const other of groups) if (group !== other) this.opening(group, other);
    const inOrder = (one, two) => one.rule - two.rule || one.group - two.group || (one.rule > 2 ? one.other - two.other : 0);
    this.rows.sort((one, two) => one.t - two.t || inOrder(one, two));
    this.left.sort(inOrder);
    return [...this.rows, ...this.left, ...this.hidden];
  }
}

// What an amber in the first moment tells of an end before it: a green of another group may come too soon even after the earliest
// one that its amber allows.
Object.assign(Part.prototype, {
  shownFirst(group) {
    const { at, next, aspect } = this.tracks[group].stretches[0];
    return { aspect, length: next - at, isOver: next < this.end };
  },
  // so many moments before the part the group ended at the earliest; -1 where the part doesn't tell
  endedBefore(group) {
    const { aspect, length } = this.shownFirst(group);
    return aspect === AMBER ? this.site.times[group].amber - length : -1;
  },
  // how long before the part the green began in which the group is, or from which its amber comes; -1 where there is none
  greenBefore(group) {
    const { aspect, length, isOver } = this.shownFirst(group), { minGreen, amber } = this.site.times[group];
    const lacks = (least) => (isOver ? Math.max(0, least - length) : 0);
    if (aspect === GREEN) return lacks(minGreen);
    return aspect === AMBER ? Math.max(minGreen, 1) + lacks(amber) : -1;
  },
  tooSoon(group, other, green, before) {
    const between = this.site.intergreens.get(pairOf(other, group)), ended = this.endedBefore(other);
    if (between === undefined || ended < 0) return null;
    const needed = Math.max(between, this.site.times[group].redAmber), passed = green - this.begin + ended;
    if (passed >= needed + before) return null;
    return { t: green, rule: 4, group, other, shown: "", since: 0, length: Math.max(0, passed - before), needed };
  },
  soonBefore(group, other) {
    const before = this.greenBefore(group);
    return before < 0 ? null : this.tooSoon(group, other, this.begin, before);
  },
  opening(group, other) {
    const isAsked = this.shownFirst(group).aspect !== AMBER || this.shownFirst(other).aspect !== AMBER
      || (group < other && this.soonBefore(other, group) !== null);
    const [green = this.dueGreen(group)] = this.tracks[group].greens;
    const found = (isAsked && this.soonBefore(group, other)) || (green ? this.tooSoon(group, other, green, 0) : null);
    if (found) this.hidden.push(found);
  },
});

/** All breaches, part by part; null where a table is missing, since nothing is judged then. */
function breachesOf(log, site) {
  if (!site.times || !site.intergreens) return null;
  return partsOf(log).flatMap((bounds) => new Part(log, site, bounds).judge());
}

const BREACH_HEAD = "second,rule,group,other,shown,since,seconds,needed";

/** The breaches as comma-separated values, as the program writes them. */
function breachesCsv(log, breaches) {
  const lengthText = (length) => (length < 0 ? "" : lengthOf(log, length));
  const rows = breaches.map(({ t, rule, group, other, shown, since, length, needed }) => [
    timeText(log, t), JUDGED_RULES[rule], log.names[group], other === NO_OTHER ? "" : log.names[other], shown,
    since ? timeText(log, since) : "", lengthText(length), lengthText(needed),
  ].join(","));
  return [BREACH_HEAD, ...rows, ""].join("\n");
}

/** A breach in a sentence. */
function breachWords(log, { rule, group, other, shown, since, length, needed }) {
  const name = log.names[group], [first, second] = [...shown].map((letter) => ASPECTS[ASPECT_LETTERS.indexOf(letter)]);
  const of = needed < 0 ? "" : ` of ${lengthOf(log, needed)} s`, shownText = length < 0 ? "" : `${lengthOf(log, length)} s${of}`;
  if (rule === 0 && second) return `${name}: ${second} after ${first}, which may not follow.`;
  if (rule === 0) return `${name}: ${first} too ${length < needed ? "short" : "long"}, ${shownText}.`;
  if (rule < 3) return `${name}: ${first} shorter than its minimum, ${shownText}.`;
  if (rule === 3) return `${name} and ${log.names[other]}, in conflict, were both red-amber or green for ${shownText}.`;
  const most = since ? "" : "at most ";
  return `${name}: green too soon after ${log.names[other]}, ${most}${shownText}.`;
}
