// The reader of the page: node reader_test.js [LOG_REPORT]. It reads what log_report reads, and refuses at the same line for
// the same reason; where the program is named, it is asked too.
"use strict";
const assert = require("assert"), fs = require("fs"), os = require("os"), path = require("path");
const { spawnSync } = require("child_process");
const { page, readLog, refusalOf, test, repository } = require("./load.js");
const { hostile, casesOfTheGate, HEADER } = require("./hostile.js");
const { recordText, secondsOf, jumpFrom } = page("recordText", "secondsOf", "jumpFrom");
const [reporter] = process.argv.slice(2), examples = path.join(repository, "crates", "test_told", "data");
const bytesOf = (text) => Buffer.from(text, "latin1"), start = (text) => JSON.stringify(text.slice(0, 90));

const found = fs.readdirSync(examples, { recursive: true }).filter((name) => path.basename(name) === "log.txt");
const logs = [...found.map((name) => path.join(examples, name)), path.join(__dirname, "data", "faults.log")];
test(`${logs.length} logs of runs are read, and written again byte for byte`, () => {
  for (const file of logs) {
    const bytes = fs.readFileSync(file), log = readLog(bytes), lines = [`VAPLOG 1 ${log.names.join(" ")}`];
    for (let t = 1; t <= log.seconds; t++) lines.push(recordText(log, t));
    assert.ok(bytesOf(`${lines.join("\n")}\n`).equals(bytes), file);
    if (bytes.length > 50000) continue;
    for (const piece of [1, 7, 1000]) assert.deepStrictEqual(JSON.stringify(readLog(bytes, piece)), JSON.stringify(log), file);
  }
});

const ofTheGate = casesOfTheGate(path.join(examples, "report_lines.txt")), cases = [...hostile, ...ofTheGate];
test(`${cases.length} hostile logs, ${ofTheGate.length} of them those of the gate`, () => {
  assert.ok(ofTheGate.length >= 30, "the cases of the gate aren't found");
  for (const [text, wanted] of cases) {
    const pieces = [4194304, ...(text.length < 2000 ? [1, 3] : [65536])];
    for (const piece of pieces) assert.strictEqual(refusalOf(() => readLog(bytesOf(text), piece)), wanted, start(text));
  }
});
if (reporter) {
  test(`${cases.length} hostile logs, as ${reporter} tells them`, () => {
    const folder = fs.mkdtempSync(path.join(os.tmpdir(), "viewer_")), file = path.join(folder, "hostile.log");
    for (const [text, wanted] of cases) {
      fs.writeFileSync(file, text, "latin1");
      const { status, stderr } = spawnSync(reporter, ["sums", file]);
      const told = status === 0 ? "accepted" : /([0-9]+: \w+)\s*$/.exec(stderr.toString())?.[1];
      // the program adds up logs from second 1 on alone
      const isLater = /^[^\n]*\n(?!1\|)[1-9][0-9]{0,8}\|/.test(text) && !/^[12]: /.test(wanted);
      const own = isLater ? "2: Second" : wanted;
      assert.strictEqual(told, own, start(text));
    }
    fs.rmSync(folder, { recursive: true });
  });
}
test("a week is accepted, and one second more refused", () => {
  const week = HEADER + Array.from({ length: 604801 }, (_, k) => `${k + 1}|S1|RR|-|-|-\n`).join("");
  const refusal = (more) => refusalOf(() => readLog(bytesOf(week + more)));
  assert.strictEqual(refusal(""), "accepted");
  assert.strictEqual(refusal("WATCH 1 604801 RR\n"), "accepted");
  assert.strictEqual(refusal("604802|S1|RR|-|-|-\n"), "604803: TooManySeconds");
  assert.strictEqual(refusal(`${"x".repeat(300000)}\n`), "604803: TooManySeconds");
});
test("a refusal tells how many bytes stand before its line, and these are accepted", () => {
  const accepted = `${HEADER}1|S1|RR|-|-|-\n2|S1|RR|-|-|-\n`;
  for (const piece of [1, 5, 40, 1000]) {
    try {
      readLog(bytesOf(`${accepted}3|S1|RR|-|-\n`), piece);
      assert.fail();
    } catch (error) {
      assert.deepStrictEqual([error.before, error.text], [accepted.length, "3|S1|RR|-|-"]);
    }
  }
  assert.strictEqual(readLog(bytesOf(accepted)).seconds, 2);
});
test("a log is read up to the first line of a watcher", () => {
  const log = `${HEADER}1|S1|RR|-|-|-\n2|S1|RG|-|-|-\n`;
  for (const piece of [1, 5, 40, 1000]) {
    const watched = readLog(bytesOf(`${log}WATCH 1 2 RG\nWATCH 2 0 RR\n3|S1|RR|-|-|-\n`), piece);
    assert.deepStrictEqual(JSON.stringify(watched), JSON.stringify(readLog(bytesOf(log))));
  }
});
test("jumps lead to the next and to the one before", () => {
  const log = readLog(fs.readFileSync(path.join(examples, "four_arms", "log.txt")));
  const next = (what, t) => jumpFrom(secondsOf(log, what), t, true);
  const last = (what, t) => jumpFrom(secondsOf(log, what), t, false);
  assert.deepStrictEqual([next("refused", 0), next("refused", 3), last("refused", 60)], [1, 0, 3]);
  assert.deepStrictEqual([next("group 2", 1), next("group", 4), next("stage 2", 1), last("stage 2", 36)], [34, 34, 36, 0]);
});
