// The judge of the page against breaches that were told apart from it (data/judge/breaches.json: logs by seconds and records in tenths, with
// their tables), and on the field records: node judge_test.js [LOG_REPORT]; where the program is named, it is asked about them too.
"use strict";
const assert = require("assert"), fs = require("fs"), path = require("path"), { spawnSync } = require("child_process");
const { page, readLog, readRecord, refusalOf, test, repository } = require("./load.js");
const { readTimes, readIntergreens, breachesOf, breachesCsv, breachWords, timeText, momentOf, recordText, partsOf } = page(
  "readTimes", "readIntergreens", "breachesOf", "breachesCsv", "breachWords", "timeText", "momentOf", "recordText", "partsOf",
);
const [reporter] = process.argv.slice(2), records = path.join(repository, "tools", "records");
const readAny = (text) => (text.startsWith("VAPRECORD") || !text.startsWith("VAPLOG") ? readRecord : readLog)(Buffer.from(text, "latin1"));
const EMPTY = "second,rule,group,other,shown,since,seconds,needed\n";

function tablesOf(log, times, intergreens) {
  return { times: readTimes(log.names, times, log.unit), intergreens: readIntergreens(log.names, intergreens, log.unit) };
}

const cases = JSON.parse(fs.readFileSync(path.join(__dirname, "data", "judge", "breaches.json"), "utf8"));
test(`the breaches of ${cases.filter(({ told }) => told).length} logs and records`, () => {
  for (const { name, log: text, times, intergreens, told } of cases.filter((one) => one.told)) {
    const log = readAny(text);
    const found = log.seconds > 0 ? breachesCsv(log, breachesOf(log, tablesOf(log, times, intergreens))) : EMPTY;
    assert.strictEqual(found, told, name);
  }
});

test(`${cases.filter(({ refused }) => refused).length} records and tables that are refused`, () => {
  for (const { name, log: text, times, intergreens, refused: wanted } of cases.filter((one) => one.refused)) {
    const [file, why] = wanted, pieces = [4194304, 1, 7].map((piece) => refusalOf(() => readRecord(Buffer.from(text, "latin1"), piece)));
    assert.strictEqual(new Set(pieces).size, 1, name);
    if (file === "record.txt") assert.strictEqual(pieces[0], why, name);
    if (file === "record.txt" || pieces[0] !== "accepted") continue;
    const log = readAny(text), read = file === "times.csv" ? readTimes : readIntergreens;
    const table = file === "times.csv" ? times : intergreens;
    // a name that the record lacks is Missing of the one table and UnknownName of the other, as the program says
    assert.strictEqual(refusalOf(() => read(log.names, table, log.unit)), why, name);
  }
});

test("the field records have the breaches that are known of them", () => {
  for (const name of ["german", "events"]) {
    const textOf = (file) => fs.readFileSync(path.join(records, name, file), "latin1"), log = readAny(textOf("record.txt"));
    const breaches = breachesOf(log, tablesOf(log, textOf("times.csv"), textOf("intergreens.csv")));
    assert.strictEqual(breachesCsv(log, breaches), textOf("breaches.csv"), name);
    assert.ok(breaches.every((breach) => !/undefined|NaN|null/.test(breachWords(log, breach))), name);
  }
});

test("without a table nothing is judged", () => {
  const log = readAny("VAPRECORD 1 K1\n0.0|R\n1.0|-\n");
  assert.strictEqual(breachesOf(log, {}), null);
  assert.strictEqual(breachesOf(log, { times: [] }), null);
});

test("a record is a log of tenths", () => {
  const log = readAny("VAPRECORD 1 K1 K2\n7.5|RR\n8.0|UR\n9.0|GR\n11.0|?\n12.0|RG\n12.5|-\n");
  assert.deepStrictEqual([log.unit, log.first, log.seconds], [10, 75, 50]);
  assert.deepStrictEqual([timeText(log, 1), timeText(log, 50), momentOf(log, 9), momentOf(log, 0), momentOf(log, 99)],
    ["7.5", "12.4", 16, 1, 50]);
  assert.deepStrictEqual([recordText(log, 1), recordText(log, 20), recordText(log, 40)], ["7.5|RR", "9.0|GR", "11.0|?"]);
  assert.deepStrictEqual(JSON.stringify(partsOf(log)), "[[1,36],[46,51]]");
});

test("a log may begin with any second", () => {
  const log = readAny("VAPLOG 1 K1\n301|S1|R|-|-|-\n302|S1|G|-|-|-\n");
  assert.deepStrictEqual([timeText(log, 1), timeText(log, 2), momentOf(log, 302)], ["301", "302", 2]);
  assert.strictEqual(recordText(log, 2), "302|S1|G|-|-|-");
});

if (reporter) {
  const asked = cases.filter(({ log }) => log.startsWith("VAPRECORD"));
  const folder = fs.mkdtempSync(path.join(require("os").tmpdir(), "viewer_"));
  const files = ["record.txt", "times.csv", "intergreens.csv"].map((file) => path.join(folder, file));
  const ask = ({ log, times, intergreens }) => {
    [log, times, intergreens].forEach((text, at) => fs.writeFileSync(files[at], text, "latin1"));
    const { status, stdout } = spawnSync(reporter, ["breaches", ...files, "--csv"]);
    return { status, told: stdout.toString("latin1") };
  };
  if (ask(asked.find(({ told }) => told)).status === 5) {
    console.log(`skipped: ${reporter} judges no record in tenths`);
  } else {
    test(`${asked.length} records, as ${reporter} tells them`, () => {
      for (const one of asked) {
        const { status, told } = ask(one);
        assert.strictEqual(one.refused ? status : told, one.refused ? 5 : one.told, one.name);
      }
    });
  }
  fs.rmSync(folder, { recursive: true });
}
