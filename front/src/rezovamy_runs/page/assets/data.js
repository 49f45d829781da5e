// The run, as the page's JSON has it, with what the other parts look up.

const RUN = JSON.parse(document.getElementById("data").textContent);
const BINARIES = RUN.binaries;
const OUTPUTS = RUN.outputs;

// The band of a slot in the page of a group: that of a shard. Undefined in the page of a run.
function band_of(slot) {
  return RUN.bands.findLast((band) => band.slot <= slot);
}

// A slot's number in its own run.
function slot_number(slot) {
  return slot - (band_of(slot)?.slot ?? 0);
}

function slot_text(slot) {
  const band = band_of(slot), number = `slot ${slot_number(slot)}`;
  return band ? `${shown(band.name)}, ${number}` : number;
}

const STATES_OF_TESTS = Object.keys(STATES).filter((state) => state !== "script");

// What an attempt is drawn as: by its own end, and by what came after it.
function kind_of(test, attempt, is_last) {
  if (attempt.result === "unfinished") return "unfinished";
  if (attempt.bad) return is_last ? "failed" : "retried";
  return test.state === "script" ? "script" : test.attempts.length > 1 ? "flaky" : "passed";
}

// Slices come as begin, end, begin, end, in microseconds since the run's begin.
function prepare_attempt(test, attempt, at) {
  attempt.test = test;
  attempt.at = at;
  attempt.is_script = test.state === "script";
  attempt.outputs ??= [];
  attempt.kind = kind_of(test, attempt, at === test.attempts.length - 1);
  const times = attempt.slices ?? [];
  attempt.slices = [];
  for (let place = 0; place < times.length; place += 2) {
    attempt.slices.push([times[place] / 1e6, times[place + 1] / 1e6]);
  }
  attempt.begin = attempt.slices[0]?.[0];
  attempt.end = attempt.slices.at(-1)?.[1];
}

function prepare_test(test, index) {
  test.index = index;
  test.place = test.state === "script" ? "setup script" : BINARIES[test.binary];
  if (test.stress !== undefined) test.place += ` (sub-run ${test.stress + 1})`;
  test.attempts ??= [];
  test.attempts.forEach((attempt, at) => prepare_attempt(test, attempt, at));
  // A setup script is in a state of its own, whether it failed or not.
  test.end = test.state === "script" ? test.attempts[0]?.kind ?? "script" : test.state;
  test.seconds = test.attempts.reduce((sum, attempt) => sum + (attempt.seconds ?? 0), 0);
  const drawn = test.attempts.filter((one) => one.slices.length);
  test.start = Math.min(Infinity, ...drawn.map((one) => one.begin));
  test.shown = shown(test.name);
  test.sought = `${test.place}::${test.name} ${test.place}`.toLowerCase();
  return test;
}

const TESTS = RUN.tests.map(prepare_test);
const ATTEMPTS = TESTS.flatMap((test) => test.attempts).filter((attempt) => attempt.slices.length);
const RETRIED = TESTS.filter(
  (test) => test.attempts.filter((attempt) => attempt.slices.length).length > 1,
);
// Not by `Math.max(...)`: a stack has no room for very many arguments.
const LONGEST = TESTS.filter((test) => test.state !== "script")
  .reduce((most, test) => Math.max(most, test.seconds), 1e-9);

// How long a test took, where that is known.
function time_of(test) {
  const is_known = test.attempts.some((attempt) => attempt.seconds !== undefined);
  return is_known ? duration(test.seconds) : "";
}

// How many tests are in each state; scripts are no tests. A test counts once, however often it was
// tried, and also if the run doesn't say its name.
const COUNTS = Object.fromEntries(Object.keys(STATES).map((state) => [state, 0]));
TESTS.forEach((test) => COUNTS[test.state]++);
COUNTS["not-started"] += RUN.unnamed;
const TEST_COUNT = TESTS.length - COUNTS.script + RUN.unnamed;

// What failed or never ended, in the order of the causes.
const CAUSES = RUN.causes.map(({ title, tests, shared: is_shared }) => (
  { title, is_shared, tests: tests.map((at) => TESTS[at]) }));
const FAILURES = CAUSES.flatMap((cause) => cause.tests);
const FAILED_SCRIPTS = TESTS.filter((test) => test.state === "script" && test.end !== "script");

// An output in lower case, in which it is put once, when it is first searched.
const low_outputs = [];
function low_output(at) {
  low_outputs[at] ??= OUTPUTS[at].text.toLowerCase();
  return low_outputs[at];
}

// Whether a text stands in the outputs or errors of a test.
function has_said(test, wanted) {
  return test.attempts.some(({ error, outputs }) => error?.toLowerCase().includes(wanted)
    || outputs.some(([, at]) => low_output(at).includes(wanted)));
}
