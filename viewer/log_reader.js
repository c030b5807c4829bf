// Reads a log into columns, piece by piece, up to a watcher's line. It refuses what log_report does, in its order and words.
"use strict";

const SPACE = 32, PLUS = 43, DASH = 45, COLON = 58, BAR = 124, FEED = 10, ZERO = 48, LETTER_I = 73, LETTER_S = 83;
const TEXT = new TextDecoder("latin1"); // one letter for each byte
const WATCH = Uint8Array.from("WATCH ", (letter) => letter.charCodeAt(0));

/** A typed array that grows. */
class Column {
  constructor(Cells) {
    this.cells = new Cells(256);
    this.length = 0;
  }
  push(cell) {
    if (this.length === this.cells.length) {
      const more = new this.cells.constructor(2 * this.length);
      more.set(this.cells);
      this.cells = more;
    }
    this.cells[this.length++] = cell;
  }
  done() {
    return this.cells.slice(0, this.length);
  }
}

const columnsOf = (kinds) => Object.fromEntries(Object.entries(kinds).map(([name, Cells]) => [name, new Column(Cells)]));
const doneColumns = (columns) => Object.fromEntries(Object.entries(columns).map(([name, column]) => [name, column.done()]));

// The decimal number that these bytes are, where it is one from `least` to `most`; else -1.
function numberIn(b, from, to, least, most) {
  if (from >= to || (b[from] === ZERO && to - from > 1)) return -1;
  let value = 0;
  for (let i = from; i < to; i++) {
    const digit = b[i] - ZERO;
    if (digit < 0 || digit > 9 || value > most) return -1;
    value = 10 * value + digit;
  }
  return least <= value && value <= most ? value : -1;
}

// Where this byte stands first, or -1.
function findByte(b, byte, from, to) {
  for (let i = from; i < to; i++) if (b[i] === byte) return i;
  return -1;
}

/** The names of groups in a text, each after one space; null where they aren't 1 to 64 different ones. */
function namesIn(text) {
  const names = text.split(" "), areNew = new Set(names.map((name) => name.toLowerCase())).size === names.length;
  const areNames = names.every((name) => /^[A-Za-z_][A-Za-z0-9_]{0,31}$/.test(name));
  return names.length <= MOST_GROUPS && areNew && areNames ? names : null;
}

const isDash = (b, from, to) => to - from === 1 && b[from] === DASH;

// Whether the line is a watcher's, which stands behind a log.
function isWatch(b, from, to) {
  for (let i = 0; i < WATCH.length; i++) if (from + i >= to || b[from + i] !== WATCH[i]) return false;
  return to - from <= LONGEST_LINE;
}
const stageIn = (text) => (/^([1-9]|[12][0-9]|3[0-2])$/.test(text) ? Number(text) : 0);

// A refused command, as its rule and its groups or stages; null where the text is none.
function refusalIn(item, groups) {
  const parts = item.split(":"), rule = RULES.indexOf(parts[1]);
  const one = groups.get(parts[0]), other = groups.get(parts[2]);
  if (one !== undefined && parts.length === 2 && 0 <= rule && rule < FIRST_PAIR_RULE) return [rule, one, NO_OTHER];
  const isPair = FIRST_PAIR_RULE <= rule && rule < FIRST_COMMAND_RULE;
  if (one !== undefined && other !== undefined && parts.length === 3 && isPair) return [rule, one, other];
  const stages = parts[0].split("-").map(stageIn);
  const isCommand = rule >= FIRST_COMMAND_RULE && parts.length === 2 && stages.length === 2 && stages[0] > 0 && stages[1] > 0;
  return isCommand ? [rule, ...stages] : null;
}

// Stage commands, and then turns; null where one is none of these, or stands where it may not.
function refusalsIn(text, groups) {
  const items = text.split(" ").map((item) => refusalIn(item, groups));
  if (items.includes(null)) return null;
  const commands = items.filter(([rule]) => rule >= FIRST_COMMAND_RULE).length;
  const isInOrder = items.slice(0, commands).every(([rule]) => rule >= FIRST_COMMAND_RULE);
  return isInOrder && commands <= MOST_COMMANDS && items.length - commands <= MOST_TURNS ? items : null;
}

/** Takes the bytes of a log, and gives its columns in the end. It throws a Refusal at the first line that is no record. */
class LogReader {
  constructor() {
    this.lines = 0; // lines read, and so the place of the second that comes next
    this.first = 1; // the number of the first second
    this.over = false; // a watcher's line was read, and nothing behind it is
    this.before = 0; // bytes before the piece that is read
    this.rest = new Uint8Array(0); // the beginning of a line whose end has not come
    this.bars = new Int32Array(5);
    this.known = new Map(); // what fields of refused commands say
    this.seconds = columnsOf({ place: Uint16Array, inter: Uint8Array, countAt: Uint32Array });
    this.counts = columnsOf({ detector: Uint8Array, fronts: Uint32Array, rears: Uint32Array });
    this.refused = columnsOf({ second: Int32Array, rule: Uint8Array, one: Uint8Array, other: Uint8Array });
    this.faults = columnsOf({ second: Int32Array, kind: Uint8Array, line: Int32Array });
  }

  feed(piece) {
    if (this.over) return;
    let bytes = piece, at = 0;
    if (this.rest.length > 0) {
      bytes = new Uint8Array(this.rest.length + piece.length);
      bytes.set(this.rest);
      bytes.set(piece, this.rest.length);
    }
    for (let end = bytes.indexOf(FEED); end >= 0 && !this.over; end = bytes.indexOf(FEED, at)) {
      this.line(bytes, at, end);
      at = end + 1;
    }
    this.rest = bytes.slice(at);
    this.before += at;
    if (!this.over && this.rest.length > LONGEST_LINE) this.line(this.rest, 0, this.rest.length);
  }

  end() {
    if (!this.over && this.rest.length > 0) this.line(this.rest, 0, this.rest.length);
    if (this.lines === 0) throw new Refusal(1, "Header");
    return {
      names: this.names, unit: 1, first: this.first, seconds: this.lines - 1, ...doneColumns(this.seconds), ...doneColumns(this.counts),
      spans: this.spans.map(doneColumns), refused: doneColumns(this.refused), faults: doneColumns(this.faults),
    };
  }

  line(b, from, to) {
    this.over = isWatch(b, from, to);
    if (this.over) return;
    const why = this.lines === MOST_LINES ? "TooManySeconds" : to - from > LONGEST_LINE ? "LineTooLong"
      : this.lines === 0 ? this.takeHeader(TEXT.decode(b.subarray(from, to))) : this.takeRecord(b, from, to);
    const begin = () => TEXT.decode(b.subarray(from, Math.min(to, from + 200)));
    if (why) throw new Refusal(this.lines + 1, why, begin(), this.before + from);
    this.lines++;
  }

  // The next two tell the reason to refuse their line, or nothing; those after them whether a field has its form.

  takeHeader(text) {
    const names = text.startsWith("VAPLOG 1 ") ? namesIn(text.slice(9)) : null;
    if (names === null) return "Header";
    this.names = names;
    this.groups = new Map(names.map((name, place) => [name, place]));
    this.letters = new Uint8Array(names.length); // of the second before
    this.spans = names.map(() => columnsOf({ first: Int32Array, aspect: Uint8Array }));
    return null;
  }

  takeRecord(b, from, to) {
    const bars = this.bars;
    let count = 0;
    for (let i = from; i < to && count < 5; i++) if (b[i] === BAR) bars[count++] = i;
    if (count < 5) return "Fields";
    const due = this.first + this.lines - 1, isFirst = this.lines === 1;
    const second = numberIn(b, from, bars[0], isFirst ? 1 : due, isFirst ? MOST_FIRST : due);
    if (second < 0) return "Second";
    if (isFirst) this.first = second;
    if (!this.takePlace(b, bars[0] + 1, bars[1])) return "Stage";
    if (!this.takeAspects(b, bars[1] + 1, bars[2])) return "Aspects";
    if (!this.takeCounts(b, bars[2] + 1, bars[3])) return "Counts";
    if (!this.takeRefused(b, bars[3] + 1, bars[4])) return "Refused";
    return this.takeFault(b, bars[4] + 1, to) ? null : "Fault";
  }

  // A place is 0 for none, the number of a stage, or 64 times the stage that an interstage leads from and the one it leads to.
  takePlace(b, from, to) {
    let place = -1, t = 0;
    if (isDash(b, from, to)) place = 0;
    else if (b[from] === LETTER_S) place = numberIn(b, from + 1, to, 1, MOST_STAGES);
    else if (b[from] === LETTER_I) {
      const dash = findByte(b, DASH, from, to), plus = dash < 0 ? -1 : findByte(b, PLUS, dash, to);
      const [one, other] = [numberIn(b, from + 1, dash, 1, MOST_STAGES), numberIn(b, dash + 1, plus, 1, MOST_STAGES)];
      t = plus < 0 ? -1 : numberIn(b, plus + 1, to, 0, LAST_INTERSTAGE_SECOND);
      if (one > 0 && other > 0) place = 64 * one + other;
    }
    this.seconds.place.push(place);
    this.seconds.inter.push(t);
    return place >= 0 && t >= 0;
  }

  takeAspects(b, from, to) {
    if (to - from !== this.names.length) return false;
    for (let g = 0; g < this.names.length; g++) {
      const letter = b[from + g];
      if (letter === this.letters[g]) continue;
      const aspect = ASPECT_LETTERS.indexOf(String.fromCharCode(letter));
      if (aspect < 0) return false;
      this.letters[g] = letter;
      this.spans[g].first.push(this.lines);
      this.spans[g].aspect.push(aspect);
    }
    return true;
  }

  takeCounts(b, from, to) {
    const { detector, fronts, rears } = this.counts;
    this.seconds.countAt.push(detector.length);
    if (isDash(b, from, to)) return true;
    for (let at = from, last = 0; at <= to; ) {
      const space = findByte(b, SPACE, at, to), end = space < 0 ? to : space;
      const one = findByte(b, COLON, at, end), two = one < 0 ? -1 : findByte(b, COLON, one + 1, end);
      if (two < 0) return false;
      last = numberIn(b, at, one, last + 1, MOST_DETECTORS);
      const front = numberIn(b, one + 1, two, 0, MOST_COUNT), rear = numberIn(b, two + 1, end, 0, MOST_COUNT);
      if (last < 0 || front < 0 || rear < 0 || front + rear === 0) return false;
      detector.push(last);
      fronts.push(front);
      rears.push(rear);
      at = end + 1;
    }
    return true;
  }

  takeRefused(b, from, to) {
    if (isDash(b, from, to)) return true;
    const text = TEXT.decode(b.subarray(from, to));
    let items = this.known.get(text);
    if (items === undefined) {
      items = refusalsIn(text, this.groups);
      if (text.length < 200 && this.known.size < 5000) this.known.set(text, items);
    }
    for (const [rule, one, other] of items || []) {
      this.refused.second.push(this.lines);
      this.refused.rule.push(rule);
      this.refused.one.push(one);
      this.refused.other.push(other);
    }
    return items !== null;
  }

  takeFault(b, from, to) {
    if (isDash(b, from, to)) return true;
    const [, kind, line] = /^([A-Za-z]+)@(0|[1-9][0-9]{0,6})$/.exec(TEXT.decode(b.subarray(from, to))) || [];
    if (!FAULTS.includes(kind) || Number(line) > LAST_PROGRAM_LINE) return false;
    this.faults.second.push(this.lines);
    this.faults.kind.push(FAULTS.indexOf(kind));
    this.faults.line.push(Number(line));
    return true;
  }
}
