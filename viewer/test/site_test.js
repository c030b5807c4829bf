// Tables, names of stages, and sentences on refused commands: node site_test.js
"use strict";
const assert = require("assert"), fs = require("fs"), path = require("path");
const { page, readLog, refusalOf, test, repository } = require("./load.js");
const { readTimes, readIntergreens, readStages } = page("readTimes", "readIntergreens", "readStages");
const { whyRefused, shownAt } = page("whyRefused", "shownAt");
const examples = path.join(repository, "crates", "test_told", "data");
const TIMES = "group,min_green,red_amber,amber", INTERGREENS = "from,to,seconds", names = ["K1", "K2"];

test("tables are judged by the rules of docs/formats.md", () => {
  const times = (rows, header = TIMES) => refusalOf(() => readTimes(names, [header, ...rows].join("\n")));
  const intergreens = (...rows) => refusalOf(() => readIntergreens(names, [INTERGREENS, ...rows].join("\r\n")));
  assert.strictEqual(times(["K1,10,1,3", "", "k2,8,0,9"]), "accepted");
  assert.strictEqual(times(['"K1",10,1,3,255', "K2,8,1,3,1"], `${TIMES},MIN_RED`), "accepted");
  assert.strictEqual(times(["K1,10,1,3,4", "K2,8,1,3,1"]), "2: Fields");
  const wrong = ["K1,0,1,3", "K1,256,1,3", "K1,05,1,3", "K1,10,10,3", "K1,10,1, 3", "K1,10,1,3.5"];
  for (const row of wrong) assert.strictEqual(times([row]), "2: Number");
  assert.strictEqual(times(["K3,10,1,3"]), "2: UnknownName");
  assert.strictEqual(times(["K1,10,1,3", "K1,10,1,3"]), "3: Twice");
  assert.strictEqual(times(["K1,10,1,3"]), "0: Missing K2");
  assert.strictEqual(intergreens("K1,K2,5", "K2,K1,4"), "accepted");
  assert.strictEqual(intergreens("K1,K2,5"), "2: OneWay K1 K2");
  assert.strictEqual(intergreens("K1,K1,5"), "2: SelfConflict");
  assert.strictEqual(intergreens("K1,K2,100"), "2: Number");
});

test("stages have the names of the PUA file, where it has the groups of the log", () => {
  const plan = [
    "$ a comment", "$SIGNAL_GROUPS", " k2 7", "K1 3", "$STAGES", "Main K1", "red K2", "", "Side K2", "s3 K1",
    "$STARTING_STAGE", "Main", "",
  ].join("\r\n");
  assert.deepStrictEqual([...readStages(names, plan)], [undefined, "Main", "Side", undefined]);
  assert.throws(() => readStages(["K1", "K3"], plan), { message: "its groups aren't those of the log" });
  const leftTurn = fs.readFileSync(path.join(examples, "left_turn", "junction.pua"), "utf8");
  assert.deepStrictEqual([...readStages(["K1", "K2", "K3L", "K4"], leftTurn)], [undefined, "Main", "Left", "Side"]);
});

const read = (...lines) => readLog(Buffer.from(`${lines.join("\n")}\n`));
const sentences = (log, site) => Array.from(log.refused.second, (_, k) => whyRefused(log, site, k));
test("each rule has its sentence, and with the tables its numbers", () => {
  const log = read(
    "VAPLOG 1 K1 K2", "1|S1|RR|-|K1:Intergreen:K2|-", "2|S1|UR|-|-|-", "3|S1|GR|-|-|-",
    "4|S1|GR|-|1-2:NoInterstage K1:MinGreen K2:Conflict:K1|-", "5|S1|AR|-|2-1:WrongStage|-",
    "6|I1-2+0|AR|-|1-2:Running K1:Sequence K2:Intergreen:K1|-", "7|I1-2+1|RR|-|K1:MinRed|Number@7",
  );
  const times = readTimes(names, `${TIMES},min_red\nK1,10,1,2,4\nK2,8,1,3,1\n`);
  const intergreens = readIntergreens(names, `${INTERGREENS}\nK1,K2,5\nK2,K1,4\n`);
  const ends = [
    "K1 may not start: the intergreen from K2 hasn't passed. K2 counts as having ended in second 0, 1 s ago.",
    "The interstage from stage 1 to 2 may not begin: the plan has none from 1 to 2.",
    "K1 may not end: it has been green for 1 s, since second 3.",
    "K2 may not start: K1, in conflict with it, is green, and has been red-amber or green since second 2, for 2 s.",
    "The interstage from stage 2 to 1 may not begin: stage 2 isn't active, but stage 1.",
    "The interstage from stage 1 to 2 may not begin: that from 1 to 2 runs, in its second 0.",
    "K1 may not start: it was amber in second 5.",
    "K2 may not start: the intergreen from K1 hasn't passed. K1 ended 1 s ago, in second 5.",
    "K1 may not start: it has been red for 0 s, since second 7.",
  ];
  assert.deepStrictEqual(sentences(log, {}), ends);
  const told = [...ends];
  told[0] += " 4 s are needed up to the green of K1, which follows 1 s after its start; 2 s are left: earliest start second 3.";
  told[2] = "K1 may not end: it has been green for 1 s of 10, since second 3. This rule lets it end from second 13 on.";
  told[7] += " 5 s are needed up to the green of K2, which follows 1 s after its start; 3 s are left: earliest start second 9.";
  told[8] = "K1 may not start: it has been red for 0 s of 4, since second 7. This rule lets it start from second 11 on.";
  assert.deepStrictEqual(sentences(log, { times, intergreens }), told);
});

// With the right tables each sentence has its numbers, and an earliest start is true: before it the group doesn't start.
test("sentences on the runs of the examples are true", () => {
  let count = 0;
  const files = fs.readdirSync(examples, { recursive: true }).filter((name) => path.basename(name) === "times.csv");
  for (const folder of files.map((name) => path.dirname(path.join(examples, name)))) {
    const textOf = (name) => fs.readFileSync(path.join(folder, name), "utf8"), log = readLog(Buffer.from(textOf("log.txt")));
    const times = readTimes(log.names, textOf("times.csv"));
    const intergreens = readIntergreens(log.names, textOf("intergreens.csv"));
    sentences(log, { times, intergreens }).forEach((sentence, k) => {
      const t = log.refused.second[k], where = `${folder} ${t} ${sentence}`;
      assert.ok(!/is it the table|NaN|undefined|null/.test(sentence), where);
      const [start] = /(?<=lets it start from second )[0-9]+|(?<=earliest start second )[0-9]+(?=\.$)/.exec(sentence) || [0];
      const aspectAt = (s) => shownAt(log, log.refused.one[k], s).aspect;
      for (let s = t; s < Math.min(start, log.seconds); s++) assert.strictEqual(aspectAt(s), 0, where);
      count++;
    });
  }
  assert.ok(count >= 50);
});

const { cyclesOf, arrivalNumbers } = page("cyclesOf", "arrivalNumbers");
test("arrivals against green are those of a count by hand, and of the four arms", () => {
  const fronts = { 2: 1, 4: 1, 7: 2, 10: 1 };
  const log = read("VAPLOG 1 K1", ...[..."RGGRRRGGGRRG"].map((letter, k) => `${k + 1}|-|${letter}|${fronts[k + 1] ? `1:${fronts[k + 1]}:0` : "-"}|-|-`));
  const told = (travel) => JSON.stringify(cyclesOf(log, 0, [1], travel, [1, log.seconds]));
  assert.strictEqual(told(0), JSON.stringify([{ begin: 4, end: 10, green: [3, 6], arrivals: [[0, false], [3, true], [3, true]] }]));
  assert.strictEqual(told(2), JSON.stringify([{ begin: 4, end: 10, green: [3, 6], arrivals: [[0, false], [2, false], [5, true], [5, true]] }]));
  const four = readLog(fs.readFileSync(path.join(examples, "four_arms", "log.txt"))), cycles = cyclesOf(four, 0, [1, 2], 0, [1, four.seconds]);
  const { came, inGreen, share, ratio } = arrivalNumbers(cycles);
  assert.deepStrictEqual([cycles.length, came, Math.round(100 * inGreen), Math.round(100 * share), ratio.toFixed(2)], [41, 1077, 26, 27, "0.98"]);
});
