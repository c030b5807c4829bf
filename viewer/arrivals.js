// Arrivals at a group against its green, cycle by cycle.
"use strict";

/** The whole cycles of a group within these seconds, from the end of one green to the end of the next; in each its greens, and the
    vehicles that come to the stop line so many seconds after they front one of the detectors: [second of the cycle, in green]. */
function cyclesOf(log, group, detectors, travel, [from, to]) {
  const { first, aspect } = log.spans[group], greens = [], cycles = [];
  for (let at = 0; at < first.length; at++) {
    if (aspect[at] === GREEN) greens.push([first[at], at + 1 < first.length ? first[at + 1] : log.seconds + 1]);
  }
  const ends = greens.map(([, end]) => end).filter((end) => from <= end && end <= to);
  const shown = greens.filter(([, end]) => from <= end);
  for (let k = 0; k + 1 < ends.length; k++) {
    const [begin, end] = [ends[k], ends[k + 1]], [green] = shown.slice(k + 1, k + 2);
    cycles.push({ begin, end, green: [green[0] - begin, green[1] - begin], arrivals: [] });
  }
  let at = 0;
  for (let t = 1; t <= log.seconds; t++) {
    const moment = t + travel;
    while (at < cycles.length && cycles[at].end <= moment) at++;
    if (at === cycles.length) break;
    if (moment < cycles[at].begin) continue;
    const { begin, green, arrivals } = cycles[at], place = moment - begin;
    for (let [k, end] = countsOf(log, t); k < end; k++) {
      if (!detectors.includes(log.detector[k])) continue;
      for (let n = 0; n < log.fronts[k]; n++) arrivals.push([place, green[0] <= place && place < green[1]]);
    }
  }
  return cycles;
}

/** How many came, the share of them that came in green, the share of time that is green, and the ratio of both. */
function arrivalNumbers(cycles) {
  const sum = (of) => cycles.reduce((all, cycle) => all + of(cycle), 0);
  const came = sum(({ arrivals }) => arrivals.length), inGreen = sum(({ arrivals }) => arrivals.filter(([, isGreen]) => isGreen).length);
  const share = sum(({ green }) => green[1] - green[0]) / sum(({ begin, end }) => end - begin);
  return { came, inGreen: inGreen / came, share, ratio: inGreen / came / share };
}
