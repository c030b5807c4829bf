// Columns of some time, for stretches in which single seconds are too small to be told apart.
"use strict";

// Columns begin with second 1.
const columnOf = (t, step) => Math.floor((t - 1) / step);
const highest = (rows) => rows.reduce((most, row) => row.reduce((one, other) => Math.max(one, other), most), 0);

// What was made last of columns of this many seconds, so that moving about makes nothing anew.
function kept(log, step, name, make) {
  if (!log.columns || log.columns.step !== step) log.columns = { step };
  log.columns[name] = log.columns[name] || make();
  return log.columns[name];
}

// For each column of the log, the share of its seconds that lie in the stretches that are so.
function sharesOf(log, step, first, isSo) {
  const sums = new Float32Array(columnOf(log.seconds, step) + 1);
  for (let at = 0; at < first.length; at++) {
    const next = isSo(at) ? (at + 1 < first.length ? first[at + 1] : log.seconds + 1) : 0;
    for (let t = first[at], end; t < next; t = end) {
      const column = columnOf(t, step);
      end = Math.min(next, (column + 1) * step + 1);
      sums[column] += end - t;
    }
  }
  return sums.map((sum, column) => sum / Math.min(step, log.seconds - column * step));
}

// For each detector and column of the log, its fronts.
function frontsOf(log, step) {
  const rows = new Map(log.detectors.map(({ number }) => [number, new Float32Array(columnOf(log.seconds, step) + 1)]));
  for (let t = 1, k = 0; t <= log.seconds; t++) {
    const column = columnOf(t, step);
    for (const end = countsOf(log, t)[1]; k < end; k++) rows.get(log.detector[k])[column] += log.fronts[k];
  }
  return [...rows.values()];
}

/** The columns of these seconds as [x, width, height], the height so many times the sum. */
function columnsIn(layout, view, [from, to], step, sums, factor = 1) {
  const boxes = [];
  for (let column = columnOf(from, step); column <= columnOf(to, step); column++) {
    const x = Math.round(Math.max(layout.left, xOf(layout, view, column * step + 1)));
    const end = Math.round(Math.min(layout.right, xOf(layout, view, Math.min(to + 1, (column + 1) * step + 1))));
    if (sums[column] > 0 && end > x) boxes.push([x, end - x, Math.min(sums[column] * factor, 20)]);
  }
  return boxes;
}

/** Draws the shares of green of all groups, and of interstages in the band; tells what the highest columns are. */
function drawShares(surface, log, layout, view, seconds, step) {
  const { first, place } = log.stays, greenOf = (row) => sharesOf(log, step, row.first, (at) => row.aspect[at] === GREEN);
  const between = kept(log, step, "between", () => sharesOf(log, step, first, (at) => isInterstage(place[at])));
  const greens = kept(log, step, "greens", () => log.spans.map(greenOf));
  const whole = Math.max(1, Math.floor(log.seconds / step)); // the last column may be a part of one
  const most = kept(log, step, "most", () => highest(greens.map((shares) => shares.slice(0, whole))) || 1);
  const draw = (kind, y, shares, factor) => surface.columns(kind, y, columnsIn(layout, view, seconds, step, shares, factor));
  surface.box("s", layout.left, BAND, Math.min(layout.right, xOf(layout, view, seconds[1] + 1)) - layout.left, BAND_HEIGHT);
  draw("i", BAND + BAND_HEIGHT, between, BAND_HEIGHT);
  greens.forEach((shares, group) => draw("g", groupTop(group) + 19, shares, 14 / most));
  return `interstages, green (most: ${Math.round(100 * most)} %)`;
}

/** Draws the fronts of all detectors; tells what the highest column is. */
function drawFrontColumns(surface, log, layout, view, seconds, step) {
  const rows = kept(log, step, "fronts", () => frontsOf(log, step)), most = kept(log, step, "mostFronts", () => highest(rows));
  const columns = (sums) => columnsIn(layout, view, seconds, step, sums, 12 / most);
  rows.forEach((sums, row) => surface.columns("d", detectorTop(layout, row) + 13, columns(sums)));
  return `fronts (most: ${most})`;
}

const OVERVIEW_HEIGHT = 58;

/** Draws the whole log as rows: how many commands were refused, how many faults came, and how many breaches where it was judged.
    Heights grow with the logarithm. */
function drawOverview(surface, log, layout) {
  const view = { from: 1, scale: layout.fit }, step = log.unit * clockStep(2 / (log.unit * view.scale));
  surface.ground(layout.width, OVERVIEW_HEIGHT);
  const ofLog = log.unit === 1 ? [["refused", log.refused.second], ["faults", log.faults.second]] : [];
  const rows = [...ofLog, ...(log.breaches ? [["breaches", breachSeconds(log)]] : [])], height = OVERVIEW_HEIGHT / (rows.length || 1);
  rows.forEach(([name, seconds], row) => {
    const y = Math.round((row + 1) * height) - 4, most = Math.min(20, height - 6) - 3;
    const counts = new Float32Array(columnOf(log.seconds, step) + 1);
    for (const t of seconds) counts[columnOf(t, step)]++;
    const top = highest([counts]), heights = counts.map((n) => n && 3 + (most * Math.log(1 + n)) / Math.log(1 + top));
    surface.text("d", layout.left - 12, y - 4, name);
    surface.path("b", [layout.left, y + 0.5, layout.right, y + 0.5]);
    surface.columns("x", y, columnsIn(layout, view, [1, log.seconds], step, heights));
  });
}
