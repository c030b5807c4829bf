// The chart of arrivals against green, of what is visible or of the whole log.
"use strict";

const CHART = { width: 1000, height: 330, left: 46, right: 790, top: 14, bottom: 296 }, MOST_DOTS = 20000;

// What is drawn into: shapes of SVG by their name, attributes and text.
class Chart {
  constructor(title, look) {
    this.look = look;
    this.svg = document.createElementNS(SVG, "svg");
    const { width, height } = CHART;
    this.set(this.svg, { viewBox: `0 0 ${width} ${height}`, role: "img", class: "chart", "font-family": FONT, "font-size": 11 });
    this.put("title", {}, title);
    this.put("rect", { width, height, fill: look.ground });
  }
  set(element, attributes) {
    for (const [key, value] of Object.entries(attributes)) element.setAttribute(key, value);
    return element;
  }
  put(name, attributes, text = "") {
    const element = this.set(document.createElementNS(SVG, name), attributes);
    element.textContent = text;
    return this.svg.appendChild(element);
  }
  line(x1, y1, x2, y2, stroke, width = 1) {
    this.put("line", { x1, y1, x2, y2, stroke, "stroke-width": width });
  }
  text(x, y, words, anchor = "start") {
    this.put("text", { x, y, fill: this.look.ink, "text-anchor": anchor }, words);
  }
}

const chartStep = (most) => [1, 2, 5, 10, 20, 30, 60, 120, 300, 600, 1800, 3600].find((step) => most / step <= 9) || 7200;

// The axes of cycles: seconds of the cycle upwards, the times of the day to the right.
function chartAxes(chart, log, clock, cycles, x, y, longest) {
  const { left, right, bottom } = CHART, { look } = chart, first = cycles[0].begin, last = cycles[cycles.length - 1].end;
  for (let second = 0, step = chartStep(longest); second <= longest; second += step) {
    chart.line(left, y(second), right, y(second), look.grid);
    chart.text(left - 6, y(second) + 4, `${second} s`, "end");
  }
  const step = clockStep((last - first) / 8), begin = clockAt(log, clock, first), end = clockAt(log, clock, last);
  for (let moment = Math.ceil(begin / step) * step; moment <= end; moment += step) {
    const at = x(moment - clock + originOf(log) - log.first + 1);
    chart.line(at, bottom, at, bottom + 4, look.ink);
    chart.text(at, bottom + 17, clockText(moment), "middle");
  }
  chart.line(left, bottom, right, bottom, look.ink);
}

/** The chart of arrivals at a group: a column a cycle with the begin and the end of its green, and a dot for each vehicle. */
function arrivalChart({ log, clock }, group, cycles, look) {
  const { left, right, top, bottom } = CHART, name = log.names[group], chart = new Chart(`Arrivals at ${name} against its green`, look);
  const first = cycles[0].begin, last = cycles[cycles.length - 1].end, longest = Math.max(...cycles.map(({ begin, end }) => end - begin));
  const x = (t) => hundredth(left + ((t - first) * (right - left)) / (last - first)), y = (s) => hundredth(bottom - (s * (bottom - top)) / longest);
  chartAxes(chart, log, clock, cycles, x, y, longest);
  let dots = 0;
  for (const { begin, end, green: [from, to], arrivals } of cycles) {
    const width = hundredth(x(end) - x(begin));
    chart.put("rect", { x: x(begin), y: y(to), width, height: hundredth(y(from) - y(to)), fill: look.green, opacity: 0.2 });
    chart.line(x(begin), y(from), x(end), y(from), look.green, 2);
    chart.line(x(begin), y(to), x(end), y(to), look.red, 2);
    arrivals.forEach(([at, isGreen], k) => {
      if (dots++ > MOST_DOTS) return;
      const cx = hundredth(x(begin) + width * (0.25 + (0.5 * ((7 * k) % 5)) / 4)), fill = isGreen ? look.ink : "none";
      chart.put("circle", { cx, cy: y(at + 0.5), r: 2, fill, stroke: look.ink, "stroke-width": 0.8 });
    });
  }
  const { came, inGreen, share, ratio } = arrivalNumbers(cycles), percent = (part) => `${Math.round(100 * part)} %`;
  const told = came ? [`${percent(inGreen)} came in green (full dots)`, `platoon ratio ${ratio.toFixed(2)}`] : [];
  const words = [countWords(cycles.length, "cycle"), countWords(came, "vehicle"), ...told, `${percent(share)} of the time is green`,
    "lower line: green begins", "upper line: green ends"];
  words.forEach((text, row) => chart.text(right + 16, top + 12 + 17 * row, text));
  return chart.svg;
}

const chartGroup = make("select", { "aria-label": "group of the chart" }), chartLead = make("input", { type: "number", min: 0, max: 600, value: 0 });
const chartDetectors = make("input", { type: "text", value: "1", size: 8, spellcheck: "false" });
let charted = ""; // what the chart that stands there was drawn of

/** Shows the chart of the chosen group and detectors, of these seconds, where the log has detectors. */
function showChart(seconds) {
  const { log, clock } = state, section = $("charts");
  section.hidden = log.detectors.length === 0;
  if (section.hidden) return;
  if (chartGroup.log !== log) {
    chartGroup.replaceChildren(...log.names.map((name, value) => make("option", { value }, name)));
    Object.assign(chartGroup, { log });
    Object.assign(chartDetectors, { value: log.detectors[0].number });
    charted = "";
  }
  const detectors = chartDetectors.value.split(/[ ,;]+/).map(Number), group = Number(chartGroup.value), lead = Number(chartLead.value) || 0;
  const wanted = JSON.stringify([group, detectors, lead, seconds, clock, dark.matches]);
  if (wanted === charted) return;
  charted = wanted;
  const cycles = cyclesOf(log, group, detectors, lead, seconds);
  const drawn = cycles.length ? arrivalChart(state, group, cycles, dark.matches ? DARK : LIGHT) : make("p", {}, `${log.names[group]} has no whole cycle here.`);
  const controls = make("div", { class: "group" }, make("label", {}, "group ", chartGroup), make("label", {}, " detectors ", chartDetectors),
    make("label", {}, " seconds to the stop line ", chartLead));
  if (section.children.length) section.lastChild.replaceWith(drawn);
  else section.replaceChildren(make("h2", {}, "Arrivals against green"), controls, drawn);
}

for (const field of [chartGroup, chartDetectors, chartLead]) field.onchange = () => showChart(sumSeconds());
