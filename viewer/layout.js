// Where the rows and the seconds of a log stand in a diagram, and what its axes say.
"use strict";

// Units down: the axis ends at TOP, the band of stages stands below it, then each group and each detector has a row.
const TOP = 50, BAND = 60, BAND_HEIGHT = 18, GROUPS = 84, GROUP_ROW = 20, DETECTOR_ROW = 14, FAULT_ROW = 14;

/** Where the rows of a log stand in a diagram of this width. */
function layoutOf(log, width) {
  const left = 24 + LETTER_WIDTH * Math.max(6, ...log.names.map((name) => name.length));
  const right = Math.max(width - 24, left + 100), plot = right - left;
  const faults = GROUPS + 6 + GROUP_ROW * log.names.length, detectors = faults + (log.faults.second.length ? FAULT_ROW : 0);
  const end = detectors + DETECTOR_ROW * log.detectors.length;
  return {
    width, height: end + 42 + legendHeight(log, width), left, right, plot, faults, detectors, end, fit: plot / log.seconds,
    unit: log.unit,
  };
}

const groupTop = (group) => GROUPS + GROUP_ROW * group;
const detectorTop = (layout, row) => layout.detectors + DETECTOR_ROW * row;

/** Where a second begins; a view is a left second and the units of a second. */
const xOf = (layout, view, t) => layout.left + (t - view.from) * view.scale;

/** The moment at the right side of a view. */
const endOf = (layout, view) => view.from + layout.plot / view.scale;

/** The first and the last second of a view. */
function secondsIn(log, layout, view) {
  return [Math.max(1, Math.floor(view.from)), Math.max(1, Math.min(log.seconds, Math.ceil(endOf(layout, view) - 1e-6) - 1))];
}

const CLOCK_STEPS = [1, 2, 5, 10, 20, 30, 60, 120, 300, 600, 900, 1800, 3600, 7200, 14400, 21600, 43200, 86400, 172800];

/** The least whole time of a clock that has at least so many seconds. */
const clockStep = (least) => CLOCK_STEPS.find((step) => step >= least) || 604800;
const twoDigits = (n) => String(n).padStart(2, "0");

// The number at which the clock of the page stands: second 1 of a log, and time 0.0 of a record.
const originOf = (log) => (log.unit === 1 ? 1 : 0);

/** The seconds after midnight at which a moment of the log begins. */
const clockAt = (log, clock, t) => clock + (log.first + t - 1 - originOf(log)) / log.unit;

/** A moment as a clock shows it, so many seconds after midnight of the first day; a later day is told, and a tenth. */
function clockText(moment) {
  const tenths = Math.round(10 * moment), day = Math.floor(tenths / 864000), rest = Math.floor((tenths % 864000) / 10);
  const tenth = tenths % 10 ? `.${tenths % 10}` : "";
  const clock = `${Math.floor(rest / 3600)}:${twoDigits(Math.floor(rest / 60) % 60)}:${twoDigits(rest % 60)}${tenth}`;
  return `${day ? `+${day}d ` : ""}${clock}`;
}

const UNITS = [[3600, "h"], [60, "min"], [1, "s"]];
/** So many seconds in the largest unit of which they are a whole number. */
function lengthText(seconds) {
  const [unit, name] = UNITS.find(([length]) => seconds % length === 0);
  return `${seconds / unit} ${name}`;
}

// Every how many seconds a number stands above: 1, 2 or 5 of a power of ten, at least 70 units apart.
function labelStep(scale) {
  const power = Math.max(1, 10 ** Math.ceil(Math.log10(70 / scale)));
  const is = (part) => power % part === 0 && (power / part) * scale >= 70;
  return is(5) ? power / 5 : is(2) ? power / 2 : power;
}

/** The seconds above, with lines down through all rows, and the clock below. */
function drawAxes(surface, log, layout, view, clock) {
  const [first, last] = secondsIn(log, layout, view), x = (t) => xOf(layout, view, t);
  const label = labelStep(view.scale), tick = Math.max(1, label / 5), lines = [], ticks = [];
  const isIn = (t) => first <= t && t <= last && x(t) >= layout.left;
  const numberText = (number) => (log.unit > 1 && label % log.unit === 0 ? String(number / log.unit) : lengthOf(log, number));
  for (let number = Math.ceil((log.first + first - 1) / tick) * tick; number <= log.first + last - 1; number += tick) {
    const t = number - log.first + 1;
    if (!isIn(t)) continue;
    ticks.push(x(t), number % label ? TOP - 4 : TOP - 8, x(t), TOP);
    if (number % label) continue;
    lines.push(x(t), TOP, x(t), layout.end + 2);
    surface.text("l", x(t), TOP - 11, numberText(number));
  }
  const step = clockStep(76 / (view.scale * log.unit)), end = clockAt(log, clock, last);
  for (let moment = Math.ceil(clockAt(log, clock, first) / step) * step; moment <= end; moment += step) {
    const t = (moment - clock) * log.unit + originOf(log) - log.first + 1;
    if (!isIn(t)) continue;
    ticks.push(x(t), layout.end + 2, x(t), layout.end + 10);
    surface.text("l", x(t), layout.end + 21, clockText(moment));
  }
  surface.path("b", lines);
  surface.path("c", ticks);
}
