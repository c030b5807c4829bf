// Keys, mouse, fingers and buttons. The page begins here.
"use strict";

// Keys

const JUMPS = { b: "breach", l: "lost", r: "refused", f: "fault", g: "group", s: "stage" };
const KEYS = {
  ArrowLeft: (step) => choose(state.chosen - step), ArrowRight: (step) => choose(state.chosen + step), // a tenth of a record
  Home: () => choose(1), End: () => choose(state.log.seconds),
  PageUp: () => move(-shownSeconds()), PageDown: () => move(shownSeconds()),
  "+": () => zoom(1.5), "=": () => zoom(1.5), "-": () => zoom(1 / 1.5), 0: () => zoom(0), j: () => $("second").focus(),
};

addEventListener("keydown", (event) => {
  if (!state.log || event.altKey || event.metaKey || /^(INPUT|SELECT|TEXTAREA)$/.test(event.target.tagName)) return;
  const key = event.key.length === 1 ? event.key.toLowerCase() : event.key;
  if (key.length === 1 && !$("letters").checked) return;
  const isJump = !event.ctrlKey && (JUMPS[key] || key === "n");
  if (!isJump && (!KEYS[key] || (event.ctrlKey && !key.startsWith("Arrow")))) return;
  event.preventDefault();
  if (isJump) jump(JUMPS[key] || $("target").value, !event.shiftKey);
  else KEYS[key](event.ctrlKey ? 60 : event.shiftKey ? 10 : 1);
});

$("second").addEventListener("keydown", (event) => {
  if (event.key === "Enter" || event.key === "Escape") $("cursor").focus();
});

// Mouse and fingers over the diagram

const secondAt = (x) => Math.floor(state.view.from + (x - state.layout.left) / state.view.scale + 1e-9);
const isInPlot = (x) => x >= state.layout.left && x < state.layout.right;
const held = new Map(); // where each pointer that is down is now
let drag = null; // how a movement began: with one pointer or with two

// Where the pointers are: the first one, the middle, and how far they are apart.
function placesHeld() {
  const [x, other = x] = held.values();
  return { x, middle: (x + other) / 2, apart: Math.abs(other - x) };
}

function beginDrag() {
  const { x, middle, apart } = placesHeld(), { view, layout } = state;
  drag = { x, apart, scale: view.scale, t: view.from + (middle - layout.left) / view.scale, isMoved: held.size > 1 };
}

// What lay under the pointer, or in the middle of two, stays there; two that part zoom.
function drags() {
  const { middle, apart } = placesHeld(), { view, layout } = state;
  if (drag.apart > 0) view.scale = scaleWithin((drag.scale * apart) / drag.apart);
  view.from = drag.t - (middle - layout.left) / view.scale;
  changed(true);
}

function hover(t) {
  if (state.hovered === t) return;
  state.hovered = t;
  changed(false);
}

$("cursor").addEventListener("pointerdown", (event) => {
  $("cursor").setPointerCapture(event.pointerId);
  held.set(event.pointerId, event.offsetX);
  beginDrag();
});
$("cursor").addEventListener("pointermove", (event) => {
  if (!held.has(event.pointerId)) {
    const t = secondAt(event.offsetX);
    return hover(isInPlot(event.offsetX) && t >= 1 && t <= state.log.seconds ? t : 0);
  }
  held.set(event.pointerId, event.offsetX);
  drag.isMoved = drag.isMoved || Math.abs(event.offsetX - drag.x) > 3;
  if (drag.isMoved) drags();
});
function release(event) {
  const isClick = held.size === 1 && event.type === "pointerup" && !drag.isMoved;
  if (isClick && isInPlot(event.offsetX)) choose(secondAt(event.offsetX));
  held.delete(event.pointerId);
  if (held.size === 0) return;
  beginDrag();
  drag.isMoved = true;
}
$("cursor").addEventListener("pointerup", release);
$("cursor").addEventListener("pointercancel", release);
$("cursor").addEventListener("pointerleave", () => state.log && hover(0));
$("cursor").addEventListener("wheel", (event) => {
  if (event.ctrlKey || event.offsetX < state.layout.left) return; // over the names it scrolls the page
  event.preventDefault();
  const unit = event.deltaMode === 1 ? 30 : 1, along = event.shiftKey && !event.deltaX ? event.deltaY : event.deltaX;
  if (Math.abs(along) > Math.abs(event.deltaY) || event.shiftKey) move((along * unit) / state.view.scale);
  else zoom(Math.exp(-event.deltaY * unit * 0.002), event.offsetX);
}, { passive: false });

// The overview: what is shown lies around the pointer

function takeWindow(event) {
  if (event.buttons !== 1) return;
  $("window").setPointerCapture(event.pointerId);
  state.view.from = 1 + (event.offsetX - state.layout.left) / state.layout.fit - shownSeconds() / 2;
  changed(true);
}
$("window").addEventListener("pointerdown", takeWindow);
$("window").addEventListener("pointermove", takeWindow);

// Buttons and fields

$("in").onclick = () => zoom(1.5);
$("out").onclick = () => zoom(1 / 1.5);
$("whole").onclick = () => zoom(0);
$("on").onclick = () => jump($("target").value, true);
$("back").onclick = () => jump($("target").value, false);
$("second").onchange = () => $("second").value !== "" && choose(momentOf(state.log, Number($("second").value)), true);
$("skip").onclick = () => $("cursor").focus();
$("clock").onchange = () => {
  const [hours, minutes, seconds = 0] = $("clock").value.split(":").map(Number);
  state.clock = 3600 * hours + 60 * minutes + seconds || 0;
  if (state.log) showAll();
};

// Files

$("files").onchange = () => {
  takeFiles([...$("files").files]);
  $("files").value = "";
};
addEventListener("dragover", (event) => {
  event.preventDefault();
  document.body.classList.add("dropping");
});
addEventListener("dragleave", () => document.body.classList.remove("dropping"));
addEventListener("drop", (event) => {
  event.preventDefault();
  document.body.classList.remove("dropping");
  takeFiles([...event.dataTransfer.files]);
});
new ResizeObserver(() => {
  const width = Math.max(LEAST_WIDTH, Math.floor($("drawn").getBoundingClientRect().width));
  if (state.log && state.layout && state.layout.width !== width) showAll();
}).observe($("drawn"));
addEventListener("hashchange", takeAddress);
dark.addEventListener("change", () => state.log && showAll());
takeAddress();
