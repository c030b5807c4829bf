// Colours, widths and sizes of what is drawn, the same on a canvas and in SVG.
"use strict";

const FONT = "'DejaVu Sans Mono', Consolas, monospace";
const LIGHT = {
  ground: "#fff", ink: "#000", grid: "#d5d9dd",
  red: "#c4161c", amber: "#ffd500", dark: "#000", green: "#00843d", least: "#00532a",
  stage: "#eef1f4", stripe: "#8a9199", word: "#fff", tick: "#404a53", covered: "#b4bcc4", alarm: "#8b008b",
};
const DARK = {
  ground: "#15191d", ink: "#e4e8ec", grid: "#343b42",
  red: "#ff5c5c", amber: "#ffd500", dark: "#000", green: "#1f9d57", least: "#12683a",
  stage: "#2b333b", stripe: "#7d8790", word: "#fff", tick: "#d3dae0", covered: "#56616b", alarm: "#ff8cff",
};

// Words, by kind: their size, where they are held, and whether they are bold. Names of rows and of lower rows, numbers of an
// axis and within bars, names of places (with a halo), the title, the legend, letters of rules, breaches (with a halo).
const WORDS = {
  n: [12, "end"], d: [10, "end"], l: [10, "middle"], k: [10, "middle"],
  m: [12, "middle", true], b: [10, "start", true], h: [13, "start", true], o: [12, "start"], r: [9, "start", true],
};
const HALOED = "mb";
const LETTER_WIDTH = 7; // of the sizes 10 to 12

// Boxes, by kind: their colour, the width from which they have an outline, and its width. Red, red-amber, green and the least
// of it, amber, stage, interstage, a covered detector, what isn't known.
const BOXES = {
  r: ["red", Infinity, 0], u: ["amber", 6, 0.6], g: ["green", 6, 0.6], e: ["least", Infinity, 0], a: ["amber", 6, 0.6],
  s: ["stage", 3, 0.8], i: ["stripe", 3, 0.8], c: ["covered", Infinity, 0],
  "?": ["stripe", 6, 0.6],
};
// Boxes with stripes, where they are wide enough: the colours below and of the stripes, and how thick these are.
const STRIPES = { a: ["amber", "dark", 1.6], i: ["ground", "stripe", 1], "?": ["ground", "stripe", 0.6] };
const LEAST_STRIPED = 4;
const outlineOf = (kind) => (kind === "s" || kind === "i" ? "ink" : "dark");

const COLUMNS = { g: "green", i: "stripe", d: "tick", x: "ink" }; // their colour, by kind
// Grid, axis, fronts, faults, breaches: their colour and width.
const LINES = { b: ["grid", 1], c: ["ink", 1], t: ["tick", 1.4], f: ["ink", 2], v: ["alarm", 2] };
