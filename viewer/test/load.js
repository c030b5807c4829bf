// Loads scripts of the page without a browser, and reads logs by them.
"use strict";
const fs = require("fs"), path = require("path"), vm = require("vm");

const viewer = path.join(__dirname, ".."), repository = path.join(viewer, "..");
const context = vm.createContext({ TextDecoder });
for (const name of ["words", "log_reader", "record_reader", "site", "model", "judge", "sums", "why", "arrivals"]) {
  vm.runInContext(fs.readFileSync(path.join(viewer, `${name}.js`), "utf8"), context, { filename: `${name}.js` });
}

/** What the scripts have under these names. */
const page = (...names) => vm.runInContext(`({ ${names.join(", ")} })`, context);
const { LogReader, RecordReader, Refusal, withPast } = page("LogReader", "RecordReader", "Refusal", "withPast");

/** Reads a log, or a record in tenths, from its bytes, fed in pieces of this size. */
const readLog = (bytes, piece) => readBy(new LogReader(), bytes, piece);
const readRecord = (bytes, piece) => readBy(new RecordReader(), bytes, piece);

function readBy(reader, bytes, piece = 4194304) {
  for (let at = 0; at < bytes.length; at += piece) reader.feed(new Uint8Array(bytes.subarray(at, at + piece)));
  return withPast(reader.end());
}

/** How a reader refuses: `accepted`, or the message. */
function refusalOf(read) {
  try {
    read();
    return "accepted";
  } catch (error) {
    if (!(error instanceof Refusal)) throw error;
    return error.message;
  }
}

let passed = 0;
/** Runs a test and tells it. */
function test(name, body) {
  body();
  console.log(`ok ${++passed} ${name}`);
}

module.exports = { page, readLog, readRecord, refusalOf, test, repository };
