// Which tests and which runs are shown, and in which order.

const search = document.getElementById("search");
const sort = document.getElementById("sort");
const branch = document.getElementById("branch");
const package_choice = document.getElementById("package");
const age = document.getElementById("age");
const shown_kinds = new Set(Object.keys(KINDS));
const DAY = 86400;
// In days up to the newest run.
const AGES = { 1: "the last day", 7: "the last 7 days", 30: "the last 30 days",
  90: "the last 90 days" };
let tests = [], runs = [], sums = new Map();

function compare(one, other) {
  return one < other ? -1 : one > other ? 1 : 0;
}

function by_name(one, other) {
  return compare(one.place, other.place) || compare(one.name, other.name);
}

// The one in the middle of values in their order.
function median(ordered) {
  const half = ordered.length >> 1;
  if (!ordered.length) return undefined;
  return ordered.length % 2 ? ordered[half] : (ordered[half - 1] + ordered[half]) / 2;
}

// How often a test ended in each way in the runs that are shown, and its times where it passed.
function sum_of(test) {
  if (sums.has(test)) return sums.get(test);
  const sum = { passed: 0, flaky: 0, failed: 0, skipped: 0, unfinished: 0 }, times = [];
  for (const run of runs) {
    const verdict = verdict_of(test, run);
    if (verdict) sum[verdict]++;
    if (is_good(test, run)) times.push(times_of(test)[run.at]);
  }
  times.sort((one, other) => one - other);
  Object.assign(sum, { usual: median(times), shortest: times[0], longest: times.at(-1) ?? 0 });
  sums.set(test, sum);
  return sum;
}

const ORDERS = {
  trust: (one, other) => one.rank - other.rank,
  slowest: (one, other) => (sum_of(other).usual ?? -1) - (sum_of(one).usual ?? -1)
    || one.rank - other.rank,
  name: by_name,
};

function sought() {
  return search.value.trim().toLowerCase();
}

function is_shown_run(run) {
  const newest = RUNS.reduce((most, one) => Math.max(most, one.started), 0);
  return (!branch.value || run.branch === branch.value)
    && (!age.value || run.started >= newest - age.value * DAY);
}

function refresh() {
  runs = RUNS.filter(is_shown_run);
  sums = new Map();
  const words = sought().split(/\s+/), wanted = package_choice.value;
  const is_all = runs.length === RUNS.length;
  const found = TESTS.filter((test) => words.every((word) => test.sought.includes(word))
    && (!wanted || package_of(test.place) === wanted)
    && (is_all || runs.some((run) => test.marks[run.at] !== ABSENT)));
  draw_kinds(found);
  tests = found.filter((test) => shown_kinds.has(test.kind)).sort(ORDERS[sort.value]);
  tests.forEach((test, at) => { test.row = at; });
  document.getElementById("found").textContent = words_for_found();
  show_newest();
}

function words_for_found() {
  if (!runs.length) return "No run is found. Choose another branch or age.";
  if (!tests.length) return "No test is found. Try fewer letters, or more kinds.";
  const of = (some, all, word) => (some === all ? plural(all, word)
    : `${whole(some)} of ${plural(all, word)}`);
  return `${of(tests.length, TESTS.length, "test")}, ${of(runs.length, RUNS.length, "run")}`;
}

// A first click shows that kind alone, as one means it; further clicks add others. With none left
// all are shown.
function toggle_kind(kind) {
  const all = Object.keys(KINDS);
  if (all.every((one) => shown_kinds.has(one))) show_kinds([kind]);
  else if (shown_kinds.has(kind)) show_kinds([...shown_kinds].filter((one) => one !== kind));
  else show_kinds([...shown_kinds, kind]);
  refresh();
  document.querySelector(`#kinds [data-kind="${kind}"]`)?.focus();
}

function show_kinds(kinds) {
  const wanted = kinds.filter((one) => KINDS[one]);
  shown_kinds.clear();
  (wanted.length ? wanted : Object.keys(KINDS)).forEach((one) => shown_kinds.add(one));
}

function draw_kinds(found) {
  const counts = Object.fromEntries(Object.keys(KINDS).map((kind) => [kind, 0]));
  found.forEach((test) => counts[test.kind]++);
  const there = new Set(TESTS.map((test) => test.kind));
  const buttons = Object.keys(KINDS).filter((kind) => there.has(kind)).map((kind) => {
    const mark = element("span", `mark is-${KINDS[kind].state}`, KINDS[kind].mark);
    mark.setAttribute("aria-hidden", "true");
    const count = element("b", "", whole(counts[kind]));
    const button = element("button", "", mark, count, KINDS[kind].word);
    button.type = "button";
    button.dataset.kind = kind;
    button.setAttribute("aria-pressed", String(shown_kinds.has(kind)));
    button.addEventListener("click", () => toggle_kind(kind));
    return button;
  });
  document.getElementById("kinds").replaceChildren(...buttons);
}

function option(value, text) {
  const made = element("option", "", text);
  made.value = value;
  return made;
}

// A choice of one thing alone isn't shown.
function fill_choice(choice, all, values) {
  choice.replaceChildren(option("", all), ...values.map(([value, text]) => option(value, text)));
  choice.parentElement.hidden = values.length < 2;
}

// The ages by which some of the runs are left out.
function ages() {
  const times = RUNS.map((run) => run.started).sort((one, other) => one - other);
  const span = times.length ? (times.at(-1) - times[0]) / DAY : 0;
  return Object.entries(AGES).filter(([days]) => days < span);
}

function start_filter() {
  const unique = (values) => [...new Set(values)].sort(compare).map((one) => [one, shown(one)]);
  fill_choice(branch, "all", unique(RUNS.map((run) => run.branch).filter(Boolean)));
  fill_choice(package_choice, "all", unique(BINARIES.map(package_of)));
  fill_choice(age, "all ages", ages());
  age.parentElement.hidden = !ages().length;
  let waiting = 0;
  search.addEventListener("input", () => {
    clearTimeout(waiting);
    waiting = setTimeout(refresh, 60);
  });
  search.addEventListener("keydown", (event) => {
    if (event.key !== "ArrowDown" && event.key !== "Enter") return;
    clearTimeout(waiting);
    refresh();
    grid.focus();
    if (tests.length) choose(tests[0]);
    event.preventDefault();
  });
  for (const choice of [branch, package_choice, age, sort]) {
    choice.addEventListener("change", refresh);
  }
}
