// The runs and the tests, as the page's JSON has them, with what the other parts look up.

const HISTORY = JSON.parse(document.getElementById("data").textContent);
const { runs: RUNS, binaries: BINARIES, messages: MESSAGES } = HISTORY;

// A run in which a test isn't has an empty cell.
const ABSENT = "-";
const ENDED = ".~F", GOOD = ".~", BAD = "~F";

function package_of(binary) {
  return binary.split("::")[0];
}

function prepare_run(run, at) {
  run.at = at;
  run.told = [
    run.commit ? `commit ${run.commit}${run.changed ? " with changes" : ""}` : "",
    run.branch ? `branch ${run.branch}` : "",
    run.partial ? "not all tests" : "",
  ].filter(Boolean);
}

function prepare_test(test, rank) {
  test.rank = rank;
  test.place = BINARIES[test.binary];
  test.shown = shown(test.name);
  test.sought = `${test.place}::${test.name} ${test.place}`.toLowerCase();
}

RUNS.forEach(prepare_run);
HISTORY.tests.forEach(prepare_test);
const TESTS = HISTORY.tests;

// The values of a test by the places of its runs; `of` says which marks have one.
function by_run(test, values, of) {
  let next = 0;
  return Array.from(test.marks, (mark) => (of.includes(mark) ? values[next++] : undefined));
}

// In seconds.
function times_of(test) {
  test.seconds ??= by_run(test, test.times, ENDED).map((time) => time && time / 1000);
  return test.seconds;
}

function message_of(test, run) {
  test.messages ??= by_run(test, test.said ?? [], BAD);
  return MESSAGES[test.messages[run.at]] ?? "";
}

function verdict_of(test, run) {
  return VERDICTS[test.marks[run.at]];
}

// Whether a test passed in a run, at its first attempt or a later one.
function is_good(test, run) {
  return GOOD.includes(test.marks[run.at]);
}

// The recorded run that has a test; several may count as one.
function recorded_run(test, run) {
  return run.runs[Number.parseInt(run.first?.[test.rank] ?? "0", 36)];
}

// The address of the page of a run at a test, nothing if the page isn't beside this one.
function address_in_run(test, run) {
  const { page } = recorded_run(test, run);
  return page ? `${encodeURI(page)}#${address_of(test.place, test.name)}` : "";
}

function words_for_verdict(test, run) {
  const verdict = verdict_of(test, run), seconds = times_of(test)[run.at];
  if (!verdict) return "not in this run";
  const word = verdict === "flaky" ? "failed, then passed" : STATES[verdict].word;
  return seconds === undefined ? word : `${word}, ${duration(seconds)}`;
}

function kind_mark(kind) {
  const made = element("span", `mark is-${KINDS[kind].state}`, KINDS[kind].mark);
  made.setAttribute("role", "img");
  made.setAttribute("aria-label", KINDS[kind].word);
  return made;
}
