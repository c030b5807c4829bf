// Makes the same boxes, words, lines and marks as elements of SVG.
"use strict";

const SVG = "http://www.w3.org/2000/svg";
const STRIPE_IDS = { "?": "unknown" };
const hundredth = (value) => +value.toFixed(2);

class SvgSurface {
  constructor(width, height, look) {
    this.look = look;
    this.svg = this.element("svg", { width, height, viewBox: `0 0 ${width} ${height}`, "font-family": FONT, role: "img" });
    const defs = this.put("defs", {});
    for (const [kind, [ground, ink, thick]] of Object.entries(STRIPES)) {
      const size = { width: 5, height: 5 }, units = { patternUnits: "userSpaceOnUse", patternTransform: "rotate(45)" };
      const pattern = defs.appendChild(this.element("pattern", { id: `stripes-${STRIPE_IDS[kind] || kind}`, ...size, ...units }));
      pattern.append(this.element("rect", { ...size, fill: look[ground] }));
      pattern.append(this.element("rect", { ...size, width: thick, fill: look[ink] }));
    }
  }
  element(name, attributes) {
    const element = document.createElementNS(SVG, name);
    const textOf = (value) => (typeof value === "number" ? hundredth(value) : value);
    for (const [key, value] of Object.entries(attributes)) element.setAttribute(key, textOf(value));
    return element;
  }
  put(name, attributes) {
    return this.svg.appendChild(this.element(name, attributes));
  }
  ground(width, height) {
    this.put("rect", { width, height, fill: this.look.ground });
  }
  box(kind, x, y, width, height) {
    const { look } = this, [colour, leastOutlined, thick] = BOXES[kind];
    const fill = STRIPES[kind] && width >= LEAST_STRIPED ? `url(#stripes-${STRIPE_IDS[kind] || kind})` : look[colour];
    this.put("rect", { x, y, width, height, fill });
    if (kind === "u") this.put("rect", { x, y, width, height: height / 2, fill: look.red });
    const stroke = { fill: "none", stroke: look[outlineOf(kind)], "stroke-width": thick };
    if (width >= leastOutlined) this.put("rect", { x, y, width, height, ...stroke });
  }
  text(kind, x, y, words) {
    const [size, anchor, isBold] = WORDS[kind], { look } = this;
    const fill = kind === "k" ? look.word : kind === "b" ? look.alarm : look.ink;
    const bold = isBold ? { "font-weight": "bold" } : {};
    const round = { "paint-order": "stroke", stroke: look.ground, "stroke-width": 4, "stroke-linejoin": "round" };
    const halo = HALOED.includes(kind) ? round : {};
    this.put("text", { x, y, "font-size": size, "text-anchor": anchor, fill, ...bold, ...halo }).textContent = words;
  }
  path(kind, points) {
    const [colour, width] = LINES[kind], at = (k) => hundredth(points[k]);
    let d = "";
    for (let k = 0; k < points.length; k += 4) d += `M${at(k)} ${at(k + 1)}L${at(k + 2)} ${at(k + 3)}`;
    this.put("path", { d, fill: "none", stroke: this.look[colour], "stroke-width": width });
  }
  triangles(tips) {
    const d = tips.map(([x, y]) => `M${hundredth(x)} ${hundredth(y)}l3.5 -6.5h-7z`).join("");
    this.put("path", { d, fill: this.look.ink });
  }
  columns(kind, y, boxes) {
    const pathOf = ([x, width, height]) => `M${x} ${y}v${-height}h${width}v${height}z`;
    const d = boxes.map((box) => pathOf(box.map(hundredth))).join("");
    this.put("path", { d, fill: this.look[COLUMNS[kind]] });
  }
}
