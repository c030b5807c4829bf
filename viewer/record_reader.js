// Reads a record in tenths (VAPRECORD 1) into the columns of a log of tenths, piece by piece. It refuses what log_report does, in
// its order and words.
"use strict";

const RETURN = 13, RECORD_LINE = /^(0|[1-9][0-9]{0,7})\.([0-9])$/;

/** Takes the bytes of a record, and gives its columns in the end. It throws a Refusal at the first line that is none. */
class RecordReader {
  constructor() {
    Object.assign(this, { lines: 0, first: -1, last: -1, isOver: false, before: 0, rest: new Uint8Array(0) });
  }

  feed(piece) {
    let bytes = piece, at = 0;
    if (this.rest.length > 0) {
      bytes = new Uint8Array(this.rest.length + piece.length);
      bytes.set(this.rest);
      bytes.set(piece, this.rest.length);
    }
    for (let end = bytes.indexOf(FEED); end >= 0; end = bytes.indexOf(FEED, at)) {
      this.line(bytes.subarray(at, end), this.before + at);
      at = end + 1;
    }
    this.rest = bytes.slice(at);
    this.before += at;
    if (this.rest.length > LONGEST_LINE + 1) this.line(this.rest, this.before);
  }

  end() {
    if (this.rest.length > 0) this.line(this.rest, this.before);
    if (this.lines === 0) throw new Refusal(1, "Header");
    if (!this.isOver) throw new Refusal(this.lines + 1, "MissingEnd");
    const seconds = this.last - this.first, none = { second: new Int32Array(0), rule: new Uint8Array(0) };
    return {
      names: this.names, unit: 10, first: this.first, seconds,
      place: new Uint16Array(seconds), inter: new Uint8Array(seconds), countAt: new Uint32Array(seconds),
      detector: new Uint8Array(0), fronts: new Uint32Array(0), rears: new Uint32Array(0),
      spans: this.spans.map(doneColumns), refused: { ...none, one: new Uint8Array(0), other: new Uint8Array(0) },
      faults: { second: none.second, kind: none.rule, line: none.second },
    };
  }

  // A carriage return right before the end of a line belongs to that end.
  line(bytes, before) {
    const line = bytes[bytes.length - 1] === RETURN ? bytes.subarray(0, bytes.length - 1) : bytes;
    const text = TEXT.decode(line.subarray(0, LONGEST_LINE + 1));
    const why = line.length > LONGEST_LINE ? "LineTooLong" : this.lines === 0 ? this.takeHeader(text) : this.takeLine(text);
    if (why) throw new Refusal(this.lines + 1, why, text.slice(0, 200), before);
    this.lines++;
  }

  // These two tell the reason to refuse their line, or nothing.

  takeHeader(text) {
    this.names = text.startsWith("VAPRECORD 1 ") ? namesIn(text.slice(12)) : null;
    if (this.names === null) return "Header";
    this.spans = this.names.map(() => columnsOf({ first: Int32Array, aspect: Uint8Array }));
    this.shown = this.names.map(() => -1);
    return null;
  }

  takeLine(text) {
    if (this.isOver) return "AfterEnd";
    const bar = text.indexOf("|"), [, whole, tenth] = RECORD_LINE.exec(text.slice(0, Math.max(bar, 0))) || [];
    if (whole === undefined) return "Time";
    const at = 10 * whole + +tenth, letters = text.slice(bar + 1);
    if (at <= this.last) return "Order";
    if (this.first < 0) this.first = at;
    if (at - this.first > MOST_TENTHS) return "TooManySeconds";
    this.last = at;
    this.isOver = letters === "-";
    const isUnknown = letters === "?";
    if (!this.isOver && !isUnknown && !(letters.length === this.names.length && /^[RUGA]+$/.test(letters))) return "Aspects";
    if (!this.isOver) this.spans.forEach((spans, group) => this.show(group, isUnknown ? UNKNOWN : ASPECT_LETTERS.indexOf(letters[group])));
    return null;
  }

  show(group, aspect) {
    if (this.shown[group] === aspect) return;
    this.shown[group] = aspect;
    this.spans[group].first.push(this.last - this.first + 1);
    this.spans[group].aspect.push(aspect);
  }
}
