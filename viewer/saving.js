// The sums of what is shown or of the whole log; and what is saved: SVG, PNG, comma-separated values, paper.
"use strict";

const optionsOf = (pairs) => pairs.map(([value, text]) => make("option", { value }, text));
const sumOptions = optionsOf([["whole", "of the whole log"], ["seen", "of what is visible"]]);
const sumChoice = make("select", { "aria-label": "seconds of the sums" }, ...sumOptions);
const sumSave = make("button", {}, "save as CSV");
let summed = {}; // the log and the site of the sums that stand there, and their seconds

const visibleSeconds = () => secondsIn(state.log, state.layout, state.view);
const sumSeconds = () => (sumChoice.value === "whole" ? [1, state.log.seconds] : visibleSeconds());
const tablesOf = (seconds) => sumTables(state.log, sumsOf(state.log, ...seconds), (place) => placeWords(state.site, place));
const breachSave = make("button", {}, "save breaches as CSV");

// A table of the breaches that are complete between two moments, where the log was judged.
function breachTables(log, [from, to]) {
  if (!log.breaches) return [];
  const all = to === log.seconds ? Infinity : to, found = log.breaches.filter(({ t }) => from <= t && t <= all);
  const head = ["rule", "breach", "shown s", "needed s"].map((word, at) => (at < 2 ? make("th", { class: "word" }, word) : word));
  const rows = found.map((breach) => [
    timeText(log, breach.t), make("td", { class: "word" }, JUDGED_RULES[breach.rule]), make("td", { class: "word" }, breachWords(log, breach)),
    breach.length < 0 ? "" : lengthOf(log, breach.length), breach.needed < 0 ? "" : lengthOf(log, breach.needed),
  ]);
  return rows.length ? [{ title: `Breaches, by ${momentWord(log)}`, head, rows }] : [];
}

/** Shows the sums of the chosen seconds, where they don't stand there. */
function showSums() {
  if (!state.log) return;
  const { log } = state, [from, to] = sumSeconds();
  if (summed.site === state.site && summed.from === from && summed.to === to) return showChart([from, to]);
  summed = { site: state.site, from, to };
  const title = `Sums of ${log.unit === 1 ? "seconds" : "times"} ${timeText(log, from)} to ${timeText(log, to)}`;
  const tables = [...breachTables(log, [from, to]), ...tablesOf([from, to])];
  showTables($("sums"), title, tables, [sumChoice, sumSave, ...(log.breaches ? [breachSave] : [])]);
  return showChart([from, to]);
}

// What is visible as SVG, on a width that prints well.
function pictureOf() {
  const layout = layoutOf(state.log, 1290), surface = new SvgSurface(layout.width, layout.height, LIGHT);
  drawLog(surface, state, layout, { from: state.view.from, scale: layout.plot / shownSeconds() });
  const [from, to] = visibleSeconds(), title = surface.element("title", {});
  const { log } = state, word = log.unit === 1 ? "seconds" : "times";
  title.textContent = `Signal timing diagram of ${state.name}, ${word} ${timeText(log, from)} to ${timeText(log, to)}`;
  surface.svg.prepend(title);
  return surface.svg;
}

// What is visible on a canvas of twice its size.
function canvasOf() {
  const { width, height } = state.layout, canvas = make("canvas", { width: 2 * width, height: 2 * height });
  const context = canvas.getContext("2d");
  context.setTransform(2, 0, 0, 2, 0, 0);
  drawLog(new CanvasSurface(context, LIGHT), state, state.layout, state.view);
  return canvas;
}

function save(content, type, ending, part) {
  const [from, to] = (ending === "csv" ? sumSeconds() : visibleSeconds()).map((t) => timeText(state.log, t));
  const link = make("a", { download: `${state.name.replace(/\.[a-z]+$/, "")}_${part || `${from}_${to}`}.${ending}` });
  link.href = URL.createObjectURL(new Blob([content], { type }));
  link.click();
  setTimeout(() => URL.revokeObjectURL(link.href), 10000);
}

$("svg").onclick = () => save(new XMLSerializer().serializeToString(pictureOf()), "image/svg+xml", "svg");
$("png").onclick = () => canvasOf().toBlob((blob) => save(blob, "image/png", "png"));
$("print").onclick = () => print();
addEventListener("beforeprint", () => state.log && $("printed").replaceChildren(pictureOf()));
addEventListener("afterprint", () => $("printed").replaceChildren());
sumSave.onclick = () => save(sumsCsv(state.log, tablesOf(sumSeconds()), ...sumSeconds()), "text/csv", "csv");
breachSave.onclick = () => save(breachesCsv(state.log, state.log.breaches), "text/csv", "csv", "breaches");
sumChoice.onchange = showSums;
