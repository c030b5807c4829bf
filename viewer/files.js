// Takes the files that are dropped, opened, or named in the address. What a file is, is told by what stands in it.
"use strict";

const PIECE = 4194304;
const READERS = { times: readTimes, intergreens: readIntergreens, stages: readStages }; // what depends on the groups of the log
const NOT_ASKED_FOR = "a file of detectors isn't asked for here: the log has its counts.";
let texts = {}; // the name and the text of each file beside the log, by its kind

async function readLog(file) {
  const isRecord = (await file.slice(0, 9).text()) === "VAPRECORD", reader = isRecord ? new RecordReader() : new LogReader();
  for (let at = 0; at < file.size; at += PIECE) {
    reader.feed(new Uint8Array(await file.slice(at, at + PIECE).arrayBuffer()));
    $("about").textContent = `${file.name}: ${Math.round((100 * Math.min(at + PIECE, file.size)) / file.size)} %`;
  }
  return withPast(reader.end());
}

async function kindOf(file) {
  const text = await file.slice(0, 3000).text();
  if (/^VAP(LOG|RECORD)/.test(text)) return "log";
  if (/^JUNCTION [0-9]+ [0-9]+\n/.test(text)) return "net";
  if (isTimes(text)) return "times";
  if (isIntergreens(text)) return "intergreens";
  if (isPlan(text)) return "stages";
  if (/\.vap$/i.test(file.name) || /\bPROGRAM\s+\w+\s*;/i.test(text)) return "program";
  return /^\d+:\d+:\d+( \d+:\d+:\d+)*$/.test(firstLine(text)) ? "detectors" : "log";
}

// What is told of a file that was refused.
function refusedNote(name, error) {
  if (!(error instanceof Refusal)) return `${name}: ${error.message}`;
  const { line, why, text } = error, word = (error.isRecord ? RECORD_REASONS : REASONS)[why];
  const reason = (word ? ` The line ${word}.` : "") + causeOf(error);
  const begin = text ? `\nIt begins: ${text.slice(0, 160).replace(/[^ -~]/g, "·")}` : "";
  return `${name}: ${line}: ${why}.${reason}${begin}`;
}

// What a file is that isn't the log it should be, where its first bytes or its line tell.
function causeOf({ line, why, text }) {
  if (why === "Header" && text.startsWith("\u00ef\u00bb\u00bf")) return " A byte order mark stands before it: save the file without one.";
  if (why === "Header" && /^(\u00ff\u00fe|\u00fe\u00ff)/.test(text)) return " It is UTF-16: save it as plain text, in ASCII or UTF-8.";
  if (text.endsWith("\r")) return " It ends with a carriage return, as files of Windows do: a log has line feeds alone.";
  if (why === "Second" && line > 2) return " A part was left out, or another log begins here.";
  return "";
}

// Of a log whose beginning is accepted, what shows that one.
function beginningButton(file, { line, why, before, isRecord }) {
  const seconds = line - 2;
  if (!(seconds > 0) || isRecord) return [];
  const button = make("button", {}, `show the ${countWords(seconds, "second")} before line ${line}`);
  button.onclick = async () => {
    await takeFiles([new File([file.slice(0, before)], file.name)]);
    state.remark = `; line ${line} is refused (${why}), and what stands before it is shown`;
    showAll();
  };
  return [button];
}

// Reads what came beside the log, for its groups; tells what is refused, and forgets it.
function readSite() {
  const notes = [];
  state.site = { program: texts.program && texts.program.text.split("\n") };
  for (const [kind, read] of Object.entries(READERS)) {
    if (!state.log || !texts[kind]) continue;
    try {
      state.site[kind] = read(state.log.names, texts[kind].text, state.log.unit);
    } catch (error) {
      notes.push(refusedNote(texts[kind].name, error));
      delete texts[kind];
    }
  }
  if (state.log) judgeLog();
  return notes;
}

// Judges the log by its tables, where both are there.
function judgeLog() {
  const { log, site } = state, chosen = $("target").value;
  log.breaches = breachesOf(log, site);
  $("target").replaceChildren(...targetsOf(log).map(([value, text]) => make("option", { value }, text)));
  if ([...$("target").options].some(({ value }) => value === chosen)) $("target").value = chosen;
}

// What can be jumped to in a log, each with its words.
function targetsOf(log) {
  const breaches = log.breaches ? [["breach", "breach"]] : [], groups = log.names.map((name, at) => [`group ${at}`, `start of ${name}`]);
  if (log.unit > 1) return [...breaches, ["group", "start of a group"], ...groups];
  const stages = [...new Set(log.place)].filter((place) => place > 0 && !isInterstage(place)).sort((one, other) => one - other);
  return [
    ...breaches, ["refused", "refused command"], ["lost", "lost start"], ["fault", "fault"],
    ["group", "start of a group"], ...groups,
    ["stage", "start of a stage"], ...stages.map((stage) => [`stage ${stage}`, `start of stage ${stage}`]),
  ];
}

function takeLog(log, name) {
  Object.assign(state, { log: log.seconds > 0 ? log : null, name, remark: "", chosen: 1, hovered: 0, view: null });
  if (!state.log) return [`${name}: the ${log.unit === 1 ? "log has no second" : "record has no time"}.`];
  $("second").value = timeText(log, 1);
  return [];
}

// Of what `net` writes, a button for each junction, which shows its log.
async function takeNet(file) {
  const text = await file.text(), parts = text.split(/^JUNCTION ([0-9]+) [0-9]+\n/m).slice(1), buttons = [];
  for (let at = 0; at < parts.length; at += 2) {
    const button = make("button", {}, `junction ${parts[at]}`), name = `${file.name}, junction ${parts[at]}`;
    button.onclick = () => takeFiles([new File([parts[at + 1]], name)]);
    buttons.push(button);
  }
  return [make("span", {}, `${file.name} has the logs of ${countWords(buttons.length, "junction")}: `, ...buttons)];
}

async function takeFile(file, kind) {
  if (kind === "log") return takeLog(await readLog(file), file.name);
  if (kind === "net") return takeNet(file);
  if (kind === "detectors") return [`${file.name}: ${NOT_ASKED_FOR}`];
  if (file.size > MOST_SITE_BYTES) return [`${file.name}: TooLong`];
  texts[kind] = { name: file.name, text: await file.text() };
  return [];
}

// Takes files that were dropped together. What came beside a log that was shown before isn't that of the next one.
async function takeTogether(files) {
  const notes = [], kinds = await Promise.all(files.map((file) => kindOf(file).catch(() => "log")));
  if (state.log && kinds.includes("log")) texts = {};
  for (const [at, file] of files.entries()) {
    try {
      notes.push(...(await takeFile(file, kinds[at])));
    } catch (error) {
      const begin = await file.slice(0, 9).text().catch(() => ""), isLog = /^VAP(LOG|RECORD)/.test(begin);
      error.isRecord = begin === "VAPRECORD";
      if (isLog) Object.assign(state, { log: null, name: "" });
      notes.push(refusedNote(file.name, error), ...(isLog ? beginningButton(file, error) : []));
    }
  }
  notes.push(...readSite());
  $("message").replaceChildren(...notes.map((note) => make("div", {}, note)));
  showAll();
  if (state.log) $("said").textContent = `${$("about").textContent}; ${$("verdict").textContent}.`;
  if (state.log && [document.body, $("files")].includes(document.activeElement)) $("cursor").focus({ preventScroll: true });
}

// One drop after another, so that the last one is the one that is shown.
let queue = Promise.resolve();
const takeFiles = (files) => (queue = queue.catch(() => {}).then(() => takeTogether(files)));

const FROM_FILE = location.protocol !== "file:" ? ""
  : " A page opened from a file may not read others: drop the file here, or serve the folder with: python3 -m http.server";

/** Takes the files of the address, `#log=NAME&times=NAME..&second=N`: those beside the page, of a local server. */
async function takeAddress() {
  const wanted = new URLSearchParams(location.hash.slice(1)), files = [];
  for (const key of ["log", "times", "intergreens", "stages", "program"]) {
    if (!wanted.get(key)) continue;
    try {
      const answer = await fetch(wanted.get(key), { mode: "same-origin" });
      if (!answer.ok) throw new Error(`the server answers ${answer.status}`);
      files.push(new File([await answer.blob()], wanted.get(key)));
    } catch (error) {
      $("message").textContent = `${wanted.get(key)}: can't be read (${error.message}).${FROM_FILE}`;
      return;
    }
  }
  if (files.length) await takeFiles(files);
  if (state.log && Number(wanted.get("second"))) choose(momentOf(state.log, Number(wanted.get("second"))), true);
}
