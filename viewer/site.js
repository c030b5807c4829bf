// Reads what may come with a log: the tables of times and of intergreens, and the names of stages from the PUA file.
// Tables are judged by the rules of docs/formats.md, for the groups of the log; of the PUA file no more is read than is shown.
"use strict";

const MOST_SITE_BYTES = 1048576;

// The records of comma-separated values: fields may stand in double quotes, and blank lines are none.
function csvRecords(text) {
  const records = [];
  let fields = [""], isQuoted = false, isBegun = false;
  const end = () => {
    if (isBegun) records.push(fields);
    [fields, isBegun] = [[""], false];
  };
  for (let i = text.startsWith("\ufeff") ? 1 : 0; i < text.length; i++) {
    const letter = text[i], last = fields.length - 1;
    if (isQuoted && letter === '"' && text[i + 1] === '"') fields[last] += text[i++];
    else if (isQuoted && letter === '"') isQuoted = false;
    else if (isQuoted) fields[last] += letter;
    else if (letter === "\n" || letter === "\r") end();
    else {
      isBegun = true;
      if (letter === ",") fields.push("");
      else if (letter === '"' && fields[last] === "") isQuoted = true;
      else fields[last] += letter;
    }
  }
  end();
  return records;
}

const firstLine = (text) => text.split(/[\r\n]/).find((line) => line !== "") || "";
const csvHeader = (text) => (csvRecords(firstLine(text))[0] || []).join().toLowerCase();
const isTimes = (text) => /^group,min_green,red_amber,amber(,min_red)?$/.test(csvHeader(text));
const isIntergreens = (text) => csvHeader(text) === "from,to,seconds";
const isPlan = (text) => /^[ \t\ufeff]*\$SIGNAL_GROUPS/im.test(text);

// The number of a field in moments, where it is one from `least` to `most` seconds; else -1. In tables of a record a decimal may
// stand.
function fieldNumber(field, least, most, unit) {
  const [, whole, tenth = "0"] = /^(0|[1-9][0-9]{0,2})(?:\.([0-9]))?$/.exec(field) || [];
  const moments = whole === undefined || (unit === 1 && field.includes(".")) ? -1 : unit * whole + (unit * tenth) / 10;
  return unit * least <= moments && moments <= unit * most ? moments : -1;
}

// Judges each record behind the header; `judge` is told its fields, what finds a group and its number, and tells the reason to
// refuse, or nothing.
function eachRecord(names, text, judge) {
  const groups = new Map(names.map((name, place) => [name.toLowerCase(), place]));
  const [header, ...records] = csvRecords(text);
  records.forEach((fields, at) => {
    const why = fields.length !== header.length ? "Fields" : judge(fields, (name) => groups.get(name.toLowerCase()), at + 2);
    if (why) throw new Refusal(at + 2, why, fields.join());
  });
}

/** The minimum green, red-amber, amber and minimum red of each group, in moments of which a second has so many. */
function readTimes(names, text, unit = 1) {
  const times = names.map(() => null);
  eachRecord(names, text, ([name, ...numbers], groupOf) => {
    const rangeOf = (at) => (at === 0 || at === 3 ? [1, 255] : [0, 9]); // of a minimum, and of red-amber and amber
    const [minGreen, redAmber, amber, minRed = unit] = numbers.map((field, at) => fieldNumber(field, ...rangeOf(at), unit));
    const group = groupOf(name);
    if ([minGreen, redAmber, amber, minRed].includes(-1)) return "Number";
    if (group === undefined) return "UnknownName";
    if (times[group]) return "Twice";
    times[group] = { minGreen, redAmber, amber, minRed };
    return null;
  });
  if (times.includes(null)) throw new Refusal(0, `Missing ${names[times.indexOf(null)]}`);
  return times;
}

const pairOf = (one, other) => 64 * one + other;

/** The moments from the end of green of one group to the green of another, by the pair. */
function readIntergreens(names, text, unit = 1) {
  const seconds = new Map(), records = new Map();
  eachRecord(names, text, ([from, to, field], groupOf, record) => {
    const needed = fieldNumber(field, 0, 99, unit), [one, other] = [groupOf(from), groupOf(to)], pair = pairOf(one, other);
    if (needed < 0) return "Number";
    if (one === undefined || other === undefined) return "UnknownName";
    if (seconds.has(pair)) return "Twice";
    if (one === other) return "SelfConflict";
    seconds.set(pair, needed);
    records.set(pair, record);
    return null;
  });
  for (const [pair, record] of records) {
    const [one, other] = [pair >> 6, pair & 63];
    if (!seconds.has(pairOf(other, one))) throw new Refusal(record, `OneWay ${names[one]} ${names[other]}`);
  }
  return seconds;
}

// The rows of the sections of groups and of stages, each as its words.
function planRows(text) {
  const rows = { SIGNAL_GROUPS: [], STAGES: [] };
  let section = "";
  for (const line of text.replace(/^\ufeff/, "").split("\n")) {
    const words = line.split(/[ \t\r]+/).filter((word) => word !== "");
    const [, begun] = /^\$(SIGNAL_GROUPS|STAGES|STARTING_STAGE|INTERSTAGE|END)/i.exec(words[0] || "") || [];
    if (begun) section = begun.toUpperCase();
    else if (words.length > 0 && !words[0].startsWith("$") && rows[section]) rows[section].push(words);
  }
  return rows;
}

/** The names of the stages, by their number from 1, of a plan that has the groups of the log; none where it says no more than
    the number. */
function readStages(names, text) {
  const { SIGNAL_GROUPS, STAGES } = planRows(text);
  const groups = SIGNAL_GROUPS.map(([name, number], at) => [name.toLowerCase(), Number(number ?? at + 1)]);
  const inOrder = groups.sort(([, one], [, other]) => one - other).map(([name]) => name).join(" ");
  if (inOrder !== names.join(" ").toLowerCase()) throw new Error("its groups aren't those of the log");
  const stages = STAGES.map(([name]) => name).filter((name) => name.toLowerCase() !== "red");
  return [undefined, ...stages.map((name, at) => (name.toUpperCase() === `S${at + 1}` ? undefined : name))];
}

/** The name of a stage, where it is known and says more than its number. */
const stageName = (site, place) => site.stages && site.stages[place];
