// What is told of a second, and the tables of sums. All words go in as text, so no name can bring markup.
"use strict";

/** An element with attributes and what stands in it: elements or texts. */
function make(name, attributes, ...inside) {
  const element = document.createElement(name);
  for (const [key, value] of Object.entries(attributes)) element.setAttribute(key, value);
  element.append(...inside);
  return element;
}

const cellOf = (cell, kind) => (cell instanceof Node ? cell : make(kind, {}, String(cell)));
const scoped = (cell, scope) => {
  const element = cellOf(cell, "th");
  element.setAttribute("scope", scope);
  return element;
};
const headOf = (cells) => make("tr", {}, ...cells.map((cell) => (cell === "" ? make("td", {}) : scoped(cell, "col"))));
const rowOf = ([name, ...cells]) => make("tr", {}, scoped(name, "row"), ...cells.map((cell) => cellOf(cell, "td")));

function tableOf(title, head, rows) {
  const body = make("tbody", {}, ...rows.map(rowOf));
  return make("div", {}, make("table", {}, make("caption", {}, title), make("thead", {}, headOf(head)), body));
}

function listOf(title, items) {
  return items.length ? [make("h3", {}, title), make("ul", {}, ...items.map((item) => make("li", {}, item)))] : [];
}
const countWords = (n, word, words = `${word}s`) => `${n.toLocaleString("en")} ${n === 1 ? word : words}`;

/** A stage or interstage in words, with the stage's name where it is known. */
function placeWords(site, place) {
  if (place === 0) return "no stage";
  if (isInterstage(place)) return `interstage ${placeName(place)}`;
  const name = stageName(site, place);
  return `stage ${place}${name ? ` ${name}` : ""}`;
}

function stayWords(log, site, t) {
  const place = log.place[t - 1], since = log.stays.first[lastAtMost(log.stays.first, t)], words = placeWords(site, place);
  if (place === 0) return words;
  const begun = `since second ${timeText(log, since)}`;
  if (isInterstage(place)) return `${words}, its second ${log.inter[t - 1]}, ${begun}`;
  return `${words}, ${begun}, for ${t + 1 - since} s`;
}

// How long a group has shown what it shows, and of how many seconds where the table tells.
function forWords(log, { aspect, since, isCut }, t, times) {
  const least = times && [times.minRed, times.redAmber, times.minGreen, times.amber][aspect];
  const shown = since === 0 ? t : t + 1 - since, text = lengthOf(log, shown);
  if (isCut) return `${text} s or more`;
  return least && aspect !== RED && shown <= least ? `${text} s of ${lengthOf(log, least)}` : `${text} s`;
}

function groupRow(log, site, t, group) {
  const shown = shownAt(log, group, t), word = ASPECTS[shown.aspect];
  const cell = make("td", { class: "word" }, make("span", { class: `lamp ${word.replace(" ", "-")}` }), word);
  const since = shown.since === 0 ? "0" : timeText(log, shown.since);
  return [log.names[group], cell, since, forWords(log, shown, t, site.times && site.times[group])];
}

function countedWords(log, t) {
  const [begin, end] = countsOf(log, t), { detector, fronts, rears } = log;
  const wordsOf = (k) => `D${detector[k]}: ${countWords(fronts[k], "front")}, ${countWords(rears[k], "rear")}`;
  return Array.from({ length: end - begin }, (_, at) => wordsOf(begin + at));
}

// The detectors that are covered at the end of a second.
function coveredWords(log, t) {
  const since = ({ turns }) => (lastAtMost(turns, t) % 2 === 0 ? turns[lastAtMost(turns, t)] : 0);
  const covered = log.detectors.filter((detector) => since(detector) > 0);
  return covered.map((detector) => `D${detector.number} is covered, since second ${timeText(log, since(detector))}`);
}

function refusalWords(log, site, t) {
  const words = [], [begin, end] = eventsIn(log.refused.second, t, t), last = Math.min(end, begin + 100);
  for (let k = begin; k < last; k++) words.push(whyRefused(log, site, k));
  return last < end ? [...words, `and ${end - last} more`] : words;
}

// The fault of a second, with the program's line where the program is known.
function faultParts({ log, site }, t) {
  const at = faultAt(log, t);
  if (at < 0) return [];
  const line = log.faults.line[at], words = make("div", {}, faultWords(log.faults.kind[at], line));
  if (!site.program) return [make("h3", {}, "Fault"), words];
  const text = site.program[line - 1], shown = text === undefined ? "The program has no such line." : `${line}  ${text}`;
  return [make("h3", {}, "Fault"), words, make("pre", {}, shown)];
}

const MOST_TOLD = 100;

// The breaches that are complete in a moment, or under way.
function breachItems(log, t) {
  const told = (log.breaches || []).filter((breach) => (breach.since || breach.t) <= t && t <= Math.max(breach.t, breach.since));
  const items = told.slice(0, MOST_TOLD).map((breach) => {
    const at = `${JUDGED_RULES[breach.rule]}, ${momentWord(log)} ${timeText(log, breach.t)}: `;
    return `${at}${breachWords(log, breach)}`;
  });
  return told.length > MOST_TOLD ? [...items, `and ${told.length - MOST_TOLD} more`] : items;
}

const lostWords = (log, t) => lostStarts(log).filter(({ lost }) => lost === t)
  .map(({ group, asked }) => `${log.names[group]} was asked to start from second ${timeText(log, asked)} on; the wish is gone.`);

/** Shows a second in the panel. */
function showSecond(panel, shown, t) {
  const { log, site, clock } = shown, head = ["group", make("th", { class: "word" }, "shows"), "since", "for"];
  panel.replaceChildren(
    make("h2", {}, `${log.unit === 1 ? "Second" : "Time"} ${timeText(log, t)} `, make("small", {}, `at ${clockText(clockAt(log, clock, t))}`)),
    ...(hasStages(log) ? [make("div", {}, stayWords(log, site, t))] : []),
    ...listOf("Breaches", breachItems(log, t)),
    ...listOf("Lost starts", lostWords(log, t)),
    ...listOf("Refused", refusalWords(log, site, t)),
    ...faultParts(shown, t),
    tableOf("Groups", head, log.names.map((_, group) => groupRow(log, site, t, group))),
    ...listOf("Detectors", [...countedWords(log, t), ...coveredWords(log, t)]),
    make("h3", {}, "In the log"), make("code", {}, recordText(log, t)),
  );
}

/** The same in a sentence or two, for those who listen. */
function secondWords({ log, site }, t) {
  const aspects = log.names.map((name, group) => `${name} ${ASPECTS[shownAt(log, group, t).aspect]}`).join(", ");
  const at = faultAt(log, t);
  const fault = at < 0 ? "" : ` Fault: ${faultWords(log.faults.kind[at], log.faults.line[at])}`;
  const begin = `${log.unit === 1 ? "Second" : "Time"} ${timeText(log, t)}${hasStages(log) ? `, ${stayWords(log, site, t)}` : ""}.`;
  const told = [...breachItems(log, t), ...lostWords(log, t), ...refusalWords(log, site, t)].join(" ");
  return `${begin} ${told}${fault} ${aspects}.`;
}

const MOST_ROWS = 200;

/** Shows tables of sums under a title, with what chooses the seconds and what saves them. */
function showTables(section, title, tables, controls) {
  const parts = tables.map(({ title, head, rows }) => {
    const more = rows.length > MOST_ROWS ? [[`and ${rows.length - MOST_ROWS} more`]] : [];
    return tableOf(title, ["", ...head], [...rows.slice(0, MOST_ROWS), ...more]);
  });
  const bar = make("div", { class: "group" }, ...controls);
  section.replaceChildren(make("h2", {}, title), bar, make("div", { class: "tables" }, ...parts));
}
