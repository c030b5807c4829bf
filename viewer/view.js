// What is shown of a log, and how it is moved: the state of the page, its frames, the second that is chosen.
"use strict";

const $ = (id) => document.getElementById(id);
const state = {
  log: null, name: "", remark: "", site: {}, // what was dropped
  layout: null, view: null, chosen: 1, hovered: 0, clock: 0, // what is shown of it
};
const dark = matchMedia("(prefers-color-scheme: dark)");
const MOST_SCALE = 40, FIRST_SECONDS = 300, NEAR_SECONDS = 60, NEAR_SCALE = 14, LEAST_WIDTH = 400; // of seconds
const PAGE_TITLE = document.title;
let isDue = false, isStale = false, toldSecond = 0, sumsTimer = 0;

// Draws on a canvas of this size, for the pixels of the screen.
function drawOn(canvas, width, height, draw) {
  const ratio = devicePixelRatio || 1;
  if (canvas.width !== Math.round(width * ratio) || canvas.height !== Math.round(height * ratio)) {
    Object.assign(canvas, { width: Math.round(width * ratio), height: Math.round(height * ratio), surface: null });
    Object.assign(canvas.style, { width: `${width}px`, height: `${height}px` });
  }
  canvas.surface = canvas.surface || new CanvasSurface(canvas.getContext("2d"), dark.matches ? DARK : LIGHT);
  canvas.surface.context.setTransform(ratio, 0, 0, ratio, 0, 0);
  draw(canvas.surface);
}

const shownSeconds = () => state.layout.plot / state.view.scale;

const scaleWithin = (scale) => Math.min(MOST_SCALE / state.log.unit, Math.max(state.layout.fit, scale));

function clampView() {
  const { view, log } = state;
  view.scale = scaleWithin(view.scale);
  view.from = Math.max(1, Math.min(view.from, log.seconds + 1 - shownSeconds()));
}

function drawChart() {
  drawOn($("chart"), state.layout.width, state.layout.height, (surface) => drawLog(surface, state, state.layout, state.view));
}

// The part of the log that is shown, and the chosen second, over the overview.
function drawWindow({ context, look }) {
  const { layout, view, chosen } = state, whole = { from: 1, scale: layout.fit }, x = xOf(layout, whole, view.from);
  const width = Math.max(4, Math.min(layout.right, xOf(layout, whole, endOf(layout, view))) - x);
  context.clearRect(0, 0, layout.width, OVERVIEW_HEIGHT);
  context.fillStyle = "rgba(47,127,214,0.18)";
  context.strokeStyle = "#2f7fd6";
  context.fillRect(x, 3, width, 50);
  context.strokeRect(x, 3, width, 50);
  context.fillStyle = look.ink;
  context.fillRect(xOf(layout, whole, chosen + 0.5) - 0.5, 0, 1, 56);
}

// The hovered and the chosen second, over the diagram.
function drawCursor({ context }) {
  const { layout, view, chosen, hovered } = state;
  context.clearRect(0, 0, layout.width, layout.height);
  for (const [t, isChosen] of [[hovered, false], [chosen, true]]) {
    const x = xOf(layout, view, t), width = Math.max(1.5, view.scale);
    if (t === 0 || x + width <= layout.left || x >= layout.right) continue;
    context.fillStyle = isChosen ? "rgba(47,127,214,0.25)" : "rgba(128,128,128,0.25)";
    context.strokeStyle = "#2f7fd6";
    context.fillRect(x, TOP + 2, width, layout.end - TOP);
    if (isChosen) context.strokeRect(x, TOP + 2, width, layout.end - TOP);
  }
}

function drawFrame() {
  isDue = false;
  if (!state.log) return;
  if (isStale) drawChart();
  isStale = false;
  drawOn($("window"), state.layout.width, OVERVIEW_HEIGHT, drawWindow);
  drawOn($("cursor"), state.layout.width, state.layout.height, drawCursor);
  const t = state.hovered || state.chosen;
  if (toldSecond !== t) showSecond($("panel"), state, t);
  toldSecond = t;
}

/** Draws at the next frame; the sums of what is visible are made once it rests. */
function changed(isView) {
  if (isView) {
    clampView();
    clearTimeout(sumsTimer);
    sumsTimer = setTimeout(showSums, 200);
  }
  isStale = isStale || isView;
  if (isDue) return;
  isDue = true;
  requestAnimationFrame(drawFrame);
}

// How long a log is, in words.
function sizeWords(log) {
  const groups = countWords(log.names.length, "group");
  return log.unit === 1 ? `${countWords(log.seconds, "second")}, ${groups}` : `${lengthOf(log, log.seconds)} s in tenths, ${groups}`;
}

/** What the log was found to be, in words: how many breaches there are, or why it isn't judged. */
function verdictWords({ log, site }) {
  if (log.breaches) return log.breaches.length ? countWords(log.breaches.length, "breach", "breaches") : "no breach";
  const lacks = ["times", "intergreens"].filter((kind) => !site[kind]).map((kind) => `the table of ${kind}`);
  return `not judged: ${lacks.join(" and ")} ${lacks.length === 1 ? "is" : "are"} missing`;
}

/** Shows what was dropped, from nothing. */
function showAll() {
  const { log, site } = state;
  $("page").hidden = !log;
  $("empty").hidden = !!log;
  $("about").textContent = $("verdict").textContent = "";
  document.title = log ? `${state.name} – log of a signal controller` : PAGE_TITLE;
  if (!log) return;
  const width = Math.max(LEAST_WIDTH, Math.floor($("drawn").getBoundingClientRect().width));
  const known = Object.keys(site).filter((key) => site[key]), sides = known.length ? `; with ${known.join(", ")}` : "";
  $("about").textContent = `${state.name}: ${sizeWords(log)}${sides}${state.remark}`;
  $("verdict").textContent = verdictWords(state);
  $("verdict").className = log.breaches && log.breaches.length ? "broken" : "";
  $("counted").textContent = momentWord(log);
  $("clocked").textContent = log.unit === 1 ? "second 1 begins at" : "0.0 is at";
  Object.assign($("second"), { min: timeText(log, 1), max: timeText(log, log.seconds), step: 1 / log.unit });
  state.layout = layoutOf(log, width);
  state.view = state.view || { from: 1, scale: Math.max(state.layout.fit, state.layout.plot / (FIRST_SECONDS * log.unit)) };
  for (const id of ["overview", "chart", "window", "cursor"]) $(id).surface = null;
  toldSecond = 0;
  drawOn($("overview"), width, OVERVIEW_HEIGHT, (surface) => drawOverview(surface, log, state.layout));
  changed(true);
}

/** Zooms around a place of the diagram, or else around the chosen second. */
function zoom(factor, x = xOf(state.layout, state.view, state.chosen + 0.5)) {
  const { layout, view } = state, held = x < layout.left || x > layout.right ? (layout.left + layout.right) / 2 : x;
  const t = view.from + (held - layout.left) / view.scale;
  view.scale = scaleWithin(view.scale * factor);
  view.from = t - (held - layout.left) / view.scale;
  changed(true);
}

function move(seconds) {
  state.view.from += seconds;
  changed(true);
}

/** Chooses a second, shows it, and says what is there; where `isNear`, in the middle, and not smaller than two minutes. */
function choose(t, isNear = false) {
  const { layout, view, log } = state;
  state.chosen = Math.max(1, Math.min(log.seconds, Math.round(t)));
  state.hovered = 0;
  $("none").textContent = "";
  $("second").value = timeText(log, state.chosen);
  if (isNear && view.scale * log.unit < NEAR_SCALE) view.scale = Math.max(layout.plot / NEAR_SECONDS, NEAR_SCALE) / log.unit;
  const isSeen = view.from <= state.chosen && state.chosen + 1 <= endOf(layout, view);
  if (isNear || !isSeen) view.from = state.chosen + 0.5 - shownSeconds() / 2;
  changed(isNear || !isSeen);
  $("said").textContent = secondWords(state, state.chosen);
}

/** Chooses the next of what is looked for, or the one before. */
function jump(what, isForward) {
  const t = jumpFrom(secondsOf(state.log, what), state.chosen, isForward);
  if (t) choose(t, true);
  else $("said").textContent = $("none").textContent = `none ${isForward ? "after" : "before"} ${momentWord(state.log)} ${timeText(state.log, state.chosen)}`;
}
