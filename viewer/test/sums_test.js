// The sums of the page against counts that were made apart: node sums_test.js FOLDER.., each with pairs NAME.log and NAME.json.
"use strict";
const assert = require("assert"), fs = require("fs"), path = require("path"), { page, readLog, test } = require("./load.js");
const { sumsOf, tenthsText } = page("sumsOf", "tenthsText");

const lengthsOf = ({ count, sum, shortest, longest }) =>
  ({ count, sum, shortest: count ? shortest : null, mean: tenthsText(sum, count) || null, longest: count ? longest : null });
const byName = (rows, nameOf, valueOf) => Object.fromEntries(rows.map((row) => [nameOf(row), valueOf(row)]));
const placeName = (place) => (place === 0 ? "-" : place < 64 ? `S${place}` : `I${place >> 6}-${place & 63}`);

// Sums of the page in the words of the counts.
function groupNumbers(g) {
  return {
    green_seconds: g.greenSeconds, share_of_green_percent: tenthsText(100 * g.greenSeconds, g.seconds), greens_begun: g.begun,
    greens_ended: lengthsOf(g.greens), reds_ended: lengthsOf(g.reds), cycles: lengthsOf(g.cycles),
    longest_red: g.longestRed, longest_red_begins: g.longestRedAt || null,
  };
}
function placeNumbers({ times, seconds, stays }) {
  return { times_begun: times, seconds, longest: stays.count ? stays.longest : null, times_ended: stays.count };
}
function detectorNumbers(d) {
  return {
    fronts: d.fronts, rears: d.rears, occupied_seconds: d.covered, occupied_percent: tenthsText(100 * d.covered, d.seconds),
    longest_occupancy: d.longest, longest_occupancy_begins: d.longestAt || null, largest_headway: d.headway,
    largest_headway_after: d.headway ? d.headwayAfter : undefined, // of a headway of 0 it doesn't matter
  };
}
const timesNumbers = ({ times, seconds, longest, longestAt }) =>
  ({ times, seconds, longest_run: longest, longest_run_begins: longestAt });
const timesByName = (rows) => byName(rows, ({ name }) => name, timesNumbers);

function numbersOf(sums) {
  return {
    groups: byName(sums.groups, ({ name }) => name, groupNumbers),
    places: byName(sums.places, ({ place }) => placeName(place), placeNumbers),
    each: timesByName(sums.refused), by_rule: timesByName(sums.rules), by_group_and_rule: timesByName(sums.groupRules),
    faults: timesByName(sums.faults), detectors: byName(sums.detectors, ({ number }) => number, detectorNumbers),
  };
}

// A covered stretch is cut at the borders of a part; the counts have it whole where it began before, and so it isn't compared
// there.
function withoutWhole(counted, detectors) {
  for (const [number, { longest_occupancy_begins }] of Object.entries(counted.detectors)) {
    if (longest_occupancy_begins === null || longest_occupancy_begins >= counted.from) continue;
    delete detectors[number].longest_occupancy;
    delete detectors[number].longest_occupancy_begins;
  }
}

// Compares each number that the page has with the one that was counted; tells how many there were.
function compare(ours, counted, where) {
  if (ours === undefined) return 0;
  if (ours === null || typeof ours !== "object") {
    assert.strictEqual(ours, counted, where);
    return 1;
  }
  return Object.entries(ours).reduce((count, [key, value]) => count + compare(value, counted?.[key], `${where} ${key}`), 0);
}

for (const folder of process.argv.slice(2)) {
  for (const file of fs.readdirSync(folder).filter((name) => name.endsWith(".json"))) {
    const { whole, intervals } = JSON.parse(fs.readFileSync(path.join(folder, file), "utf8"));
    const log = readLog(fs.readFileSync(path.join(folder, file.replace(/json$/, "log"))));
    test(`sums of ${file}`, () => {
      let count = 0;
      for (const counted of [whole, ...intervals]) {
        const ours = numbersOf(sumsOf(log, counted.from, counted.to)), theirs = { ...counted, ...counted.refusals };
        withoutWhole(counted, ours.detectors);
        for (const [part, rows] of Object.entries(ours)) {
          assert.deepStrictEqual(Object.keys(rows).sort(), Object.keys(theirs[part]).sort(), `${counted.from} ${part}`);
          count += compare(rows, theirs[part], `${counted.from} ${part}`);
        }
      }
      console.log(`   ${count} numbers in ${1 + intervals.length} parts`);
    });
  }
}
