// Draws boxes, words, lines and marks on a canvas.
"use strict";

class CanvasSurface {
  constructor(context, look) {
    Object.assign(this, { context, look });
    this.stripes = Object.fromEntries(Object.entries(STRIPES).map(([kind, stripes]) => [kind, this.striped(...stripes)]));
  }
  striped(ground, ink, width) {
    const tile = document.createElement("canvas"), context = tile.getContext("2d");
    tile.width = tile.height = 28; // four stripes of 7 across are 5 units apart
    context.fillStyle = this.look[ground];
    context.fillRect(0, 0, 28, 28);
    context.strokeStyle = this.look[ink];
    context.lineWidth = 4 * width;
    for (let x = -28; x <= 56; x += 28) {
      context.moveTo(x, 28);
      context.lineTo(x + 28, 0);
    }
    context.stroke();
    const pattern = this.context.createPattern(tile, "repeat");
    pattern.setTransform(new DOMMatrix().scale(0.25));
    return pattern;
  }
  ground(width, height) {
    this.context.fillStyle = this.look.ground;
    this.context.fillRect(0, 0, width, height);
  }
  box(kind, x, y, width, height) {
    const { context, look } = this, [colour, leastOutlined, outline] = BOXES[kind];
    const isStriped = STRIPES[kind] && width >= LEAST_STRIPED;
    context.fillStyle = isStriped ? this.stripes[kind] : look[colour];
    if (isStriped) { // stripes move with their box
      context.translate(x, y);
      context.fillRect(0, 0, width, height);
      context.translate(-x, -y);
    } else context.fillRect(x, y, width, height);
    if (kind === "u") {
      context.fillStyle = look.red;
      context.fillRect(x, y, width, height / 2);
    }
    if (width < leastOutlined) return;
    context.strokeStyle = look[outlineOf(kind)];
    context.lineWidth = outline;
    context.strokeRect(x, y, width, height);
  }
  text(kind, x, y, words) {
    const { context, look } = this, [size, anchor, isBold] = WORDS[kind];
    context.font = `${isBold ? "bold " : ""}${size}px ${FONT}`;
    context.textAlign = anchor === "middle" ? "center" : anchor;
    if (HALOED.includes(kind)) {
      context.strokeStyle = look.ground;
      context.lineWidth = 4;
      context.lineJoin = "round";
      context.strokeText(words, x, y);
    }
    context.fillStyle = kind === "k" ? look.word : kind === "b" ? look.alarm : look.ink;
    context.fillText(words, x, y);
  }
  path(kind, points) { // lines of two points each; those across and down are filled, which is faster than strokes
    const { context, look } = this, [colour, width] = LINES[kind];
    context.fillStyle = context.strokeStyle = look[colour];
    context.lineWidth = width;
    for (let k = 0; k < points.length; k += 4) {
      const [x, y, right, end] = [points[k], points[k + 1], points[k + 2], points[k + 3]];
      if (x === right) context.fillRect(x - width / 2, Math.min(y, end), width, Math.abs(end - y));
      else if (y === end) context.fillRect(x, y - width / 2, right - x, width);
      else this.slope(x, y, right, end);
    }
  }
  slope(x, y, right, end) {
    this.context.beginPath();
    this.context.moveTo(x, y);
    this.context.lineTo(right, end);
    this.context.stroke();
  }
  triangles(tips) {
    const { context } = this;
    context.fillStyle = this.look.ink;
    for (const [x, y] of tips) {
      context.beginPath();
      context.moveTo(x, y);
      context.lineTo(x + 3.5, y - 6.5);
      context.lineTo(x - 3.5, y - 6.5);
      context.fill();
    }
  }
  columns(kind, y, boxes) { // boxes of [x, width, height] that stand on y
    this.context.fillStyle = this.look[COLUMNS[kind]];
    for (const [x, width, height] of boxes) this.context.fillRect(x, y - height, width, height);
  }
}
