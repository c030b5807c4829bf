// Logs that are made to be refused, or to be just accepted: each with what log_report says of it.
"use strict";
const fs = require("fs"), path = require("path");

const HEADER = "VAPLOG 1 K1 K2\n", RECORD = "1|S1|RR|-|-|-\n";
const names = (count) => Array.from({ length: count }, (_, k) => `K${k}`).join(" ");
const times = (count, word) => Array(count).fill(word).join(" ");
const all = (texts, wanted, logOf) => texts.map((text) => [logOf(text), wanted]);

const headers = [
  ...all(["", "\n", "VAPLOG 1\n", "VAPLOG 1 \n", "VAPLOG 2 K1\n", "VAPLOG 1 K1 k1\n", "VAPLOG 1 K1  K2\n", "VAPLOG 1 K1\r\n",
    "\xef\xbb\xbfVAPLOG 1 K1\n", "JUNCTION 1 0\n", `VAPLOG 1 ${names(65)}\n`, `VAPLOG 1 ${"a".repeat(33)}\n`,
    "VAPLOG 1 <img>\n", "VAPLOG 1 1K\n", "WATCH 1 1 RR\n", `WATCH 1 1 RR\n${HEADER}`], "1: Header", (text) => text),
  ...all([`VAPLOG 1 ${names(64)}\n`, `VAPLOG 1 ${"a".repeat(32)}\n`, HEADER, HEADER.trim()], "accepted", (text) => text),
];
const lines = [
  ...all([RECORD, RECORD.trim()], "accepted", (text) => HEADER + text),
  ...all(["\n", "1|S1|RR|-|-\n", "7|S9x|Q|x|x\n", "x".repeat(262144)], "2: Fields", (text) => HEADER + text),
  ...all(["\n", "WATCH\n", " WATCH 1 1 RR\n", "watch 1 1 RR\n", "WATCHER 1 1 RR\n"], "3: Fields",
    (text) => HEADER + RECORD + text),
  ...all(["0", "01", "", "-1", "1 ", "1000000000"], "2: Second", (text) => `${HEADER}${text}|S1|RR|-|-|-\n`),
  ...all(["2", "999999999"], "accepted", (text) => `${HEADER}${text}|S1|RR|-|-|-\n`), // a part of a log
  [`${HEADER}7|S1|RR|-|-|-\n9|S1|RR|-|-|-\n`, "3: Second"],
  [HEADER + RECORD + RECORD, "3: Second"],
  [`${HEADER}${"x".repeat(262145)}\n`, "2: LineTooLong"],
  [`${HEADER + RECORD}${"x".repeat(300000)}`, "3: LineTooLong"],
  ["x".repeat(300000), "1: LineTooLong"],
  [`${HEADER}1|S9x|Q|x|x|x\n`, "2: Stage"],
  [`${HEADER}1|S1|Q|x|x|x\n`, "2: Aspects"],
  [`${HEADER}1|S1|RR|x|x|x\n`, "2: Counts"],
  [`${HEADER}1|S1|RR|-|x|x\n`, "2: Refused"],
];

// From a watcher's line on nothing is read.
const watched = [
  ...all(["WATCH 1 1 RR\n", "WATCH ", "WATCH 1 1 RR\nWATCH 2 0 RR\n", `WATCH 1 1 RR\n${RECORD}`, `WATCH \n\n${HEADER}`,
    `WATCH \n${"x".repeat(300000)}\n`, `WATCH ${"x".repeat(262138)}\n`], "accepted", (text) => HEADER + RECORD + text),
  [`${HEADER}WATCH 1 0 RR\n`, "accepted"],
  [`${HEADER}WATCH ${"x".repeat(262139)}\n`, "2: LineTooLong"],
  [`${HEADER}1|S9x|Q|x|x|x\nWATCH 1 1 RR\n`, "2: Stage"],
];

const place = (text) => `${HEADER}1|${text}|RR|-|-|-\n`, letters = (text) => `${HEADER}1|S1|${text}|-|-|-\n`;
const counts = (text) => `${HEADER}1|S1|RR|${text}|-|-\n`, refused = (text) => `${HEADER}1|S1|RR|-|${text}|-\n`;
const fault = (text) => `${HEADER}1|S1|RR|-|-|${text}\n`;
const fields = [
  ...all(["S0", "S33", "S01", "S", "", "s1", "I1-2", "I1-2+126", "I1-33+0", "I1+2-0", "I1-2+", "--", "I-2+0", "I1-2+0x",
    "I1-2-3+0"], "2: Stage", place),
  ...all(["S32", "-", "I1-2+125", "I3-3+0"], "accepted", place),
  ...all(["R", "RRR", "RX", "Rr", "", "R "], "2: Aspects", letters),
  ...all(["", "1:1", "1:1:1:1", "0:1:1", "65:1:1", "2:1:1 1:1:1", "1:1:1 1:1:1", "1:0:0", "1:01:1", "1:1:1 ", " 1:1:1",
    "1:4294967296:0", "-1:1:1", "- ", "1:1:1  2:1:1"], "2: Counts", counts),
  ...all(["64:0:1", "1:4294967295:0", "1:1:1 2:0:1 64:99:99"], "accepted", counts),
  ...all(["", "K3:MinRed", "k1:MinRed", "K1:Minred", "K1:MinRed:K2", "K1:Conflict", "K1:Conflict:K3", "K1:Conflict:K2:K2",
    "K1:Running", "1-2:MinRed", "0-1:Running", "1-33:Running", "1-2-3:Running", "1-2:Running:1", "K1:MinRed 1-2:Running",
    "K1:MinRed ", "-:Running", "toString:MinRed", "__proto__:MinRed", times(65, "K1:MinRed"),
    times(10001, "1-2:Running")], "2: Refused", refused),
  ...all(["1-2:Running K1:MinRed K2:Conflict:K1", "1-1:WrongStage", "K1:Conflict:K1", times(64, "K1:MinRed"),
    times(10000, "1-2:Running")], "accepted", refused),
  ...all(["", "-\r", "--", "Number@", "number@7", "Number@07", "Number@1048578", "Number@7 ", "Number@-1", "Number@7|", "-|",
    "None@1", "Number@99999999999", "constructor@1"], "2: Fault", fault),
  ...all(["Number@0", "Budget@1048577", "ZeroDivisor@10"], "accepted", fault),
];

// The lines of a part whose title begins with a backslash: `\HH` is a byte, and a backslash at the end of a line no line end.
const unescaped = (text) =>
  text.replace(/\\([0-9a-f]{2})|\\\n/g, (_, digits) => (digits ? String.fromCharCode(parseInt(digits, 16)) : ""));

/** The logs of a file of cases of `log_report sums l`, each with how it is accepted or refused. */
function casesOfTheGate(file) {
  const text = fs.readFileSync(file, "latin1");
  return text.split(/^(?:===|###) .*\n/m).slice(1).map((one) => {
    const parts = {};
    for (const [, escapes, title, lines] of one.matchAll(/^--- (\\?)(.*)\n((?:(?!--- ).*\n)*)/gm)) parts[title] = escapes ? unescaped(lines) : lines;
    const told = /^log_report: l:([0-9]+: \w+)\n$/.exec(parts.notes || "");
    return [parts.l, told ? told[1] : "accepted"];
  });
}

module.exports = { hostile: [...headers, ...lines, ...watched, ...fields], casesOfTheGate, HEADER };
