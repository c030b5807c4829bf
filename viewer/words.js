// The words and limits of a log, and what they mean: as docs/log_report.md and docs/reasons.md tell it.
"use strict";

const MOST_LINES = 604802, MOST_FIRST = 999999999, MOST_TENTHS = 6048000, LONGEST_LINE = 262144, LAST_PROGRAM_LINE = 1048577, MOST_COUNT = 4294967295;
const MOST_GROUPS = 64, MOST_STAGES = 32, MOST_DETECTORS = 64, LAST_INTERSTAGE_SECOND = 125;
const MOST_COMMANDS = 10000, MOST_TURNS = 64; // that are refused in a second

const ASPECTS = ["red", "red-amber", "green", "amber", "not known"], ASPECT_LETTERS = "RUGA?";
const RED = 0, RED_AMBER = 1, GREEN = 2, AMBER = 3, UNKNOWN = 4;

// Rules of turns, from `Conflict` on with another group, and from `Running` on those of stage commands.
const RULES = ["Sequence", "MinGreen", "MinRed", "Conflict", "Intergreen", "Running", "WrongStage", "NoInterstage"];
const FIRST_PAIR_RULE = 3, FIRST_COMMAND_RULE = 5, NO_OTHER = 255;
const RULE_LETTERS = "SGRCIrwn"; // what stands beside the mark of a refused command

const FAULTS = ["Budget", "Overflow", "ZeroDivisor", "Index", "Number"];

// Why a line of a log is refused: "the line ..".
const REASONS = {
  TooManySeconds: "is one more than there may be",
  LineTooLong: "has more bytes than there may be",
  Header: "is line 1, and not `VAPLOG 1` with 1 to 64 different names of groups, each after one space; or there is no line",
  Fields: "has fewer than six fields",
  Second: "has another number than that of its second, counted from 1",
  Stage: "has no `S` and a stage from 1 to 32, no `I` and an interstage with its second from 0 to 125, and no dash",
  Aspects: "has not one letter `R`, `U`, `G` or `A` for each group",
  Counts: "has no dash, and not rising detectors from 1 to 64 with fronts and rears, of which one is not 0",
  Refused: "has no dash, and not refused stage commands and then refused turns, of groups and rules that there are",
  Fault: "has no dash, and no kind of fault with `@` and a line",
};

// Why a line of a record in tenths is refused: "the line ..".
const RECORD_REASONS = {
  LineTooLong: "has more bytes than there may be",
  Header: "is line 1, and not `VAPRECORD 1` with 1 to 64 different names of groups, each after one space; or there is no line",
  AfterEnd: "stands behind the end",
  Time: "has no time with exactly one decimal, as `12.3`, before its first bar",
  Order: "has no later time than the line before it",
  TooManySeconds: "is more than a week after the first one",
  Aspects: "has not one letter `R`, `U`, `G` or `A` for each group, nor `?` or `-` alone",
  MissingEnd: "isn't there: the record ends without its end, `TIME|-`",
};

// What a fault of the program means.
const FAULT_MEANS = {
  Budget: "more than 10,000 statements in one second",
  Index: "a cell that the array doesn't have",
  Number: "a detector, group, stage or cycle length that isn't there",
  Overflow: "a result beyond ±2,147,483,647",
  ZeroDivisor: "a division by 0",
};

/** Why a file is refused: its line or record, the reason, how the line begins, and how many bytes of the file stand before
    it. */
class Refusal extends Error {
  constructor(line, why, text = "", before = 0) {
    super(`${line}: ${why}`);
    Object.assign(this, { line, why, text, before });
  }
}
