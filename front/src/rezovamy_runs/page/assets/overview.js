// What is told of the run where no test is chosen: failures by their causes first, then what was
// tried again, the slowest tests, and binaries.

const MOST_ITEMS = 50;

function first_line(text) {
  return text.split("\n").map((line) => line.trim()).find(Boolean) ?? "";
}

function why(test) {
  if (test.state === "failed" && !test.attempts.at(-1).bad) {
    return "it passed at a later attempt, which counts as a failure";
  }
  const last = test.attempts.findLast((attempt) => attempt.bad || attempt.result === "unfinished")
    ?? (ran_beside(test) ? test.attempts.at(-1) : null);
  if (!last) return "";
  return last.error ? first_line(last.error) : ending_of(last);
}

// Such a test ran in a process that another one crashed, and passed by itself.
function ran_beside(test) {
  return Boolean(test.attempts.at(-1)?.error?.startsWith("ran beside a crash"));
}

function item(test, { reason = "", bar = false } = {}) {
  const button = element("button", "item");
  button.type = "button";
  const place = element("span", "place", safe_nodes(test.place));
  const name = element("span", "name", safe_nodes(test.name), " ", place);
  titled(name, `${test.name} ${test.place}`);
  const tries = test.attempts.length > 1 ? `${test.attempts.length} attempts` : "";
  const excused = test.quarantine ? "in quarantine" : "";
  const took = [excused, tries, time_of(test)].filter(Boolean).join(", ");
  button.append(state_mark(test.end), name, element("span", "took", took));
  if (reason) button.append(element("span", "why", safe_nodes(reason)));
  if (bar) {
    const part = element("i");
    part.style.width = `${100 * test.seconds / LONGEST}%`;
    const long = element("span", "long", part);
    long.setAttribute("aria-hidden", "true");
    button.append(long);
  }
  button.addEventListener("click", () => choose(test, { from: "overview" }));
  return element("li", "", button);
}

function items_of(tests, options) {
  const shown_items = tests.slice(0, MOST_ITEMS).map((test) => item(test, options(test)));
  const items = element("ul", "items", ...shown_items);
  const left = tests.length - MOST_ITEMS;
  if (left > 0) items.append(element("li", "more", `${whole(left)} more are in the list`));
  return items;
}

function part(title, tests, options) {
  if (!tests.length) return "";
  return element("section", "", element("h3", "", title), items_of(tests, options));
}

const SHARED = "One of these tests crashed the process, or several did. The others ran beside it.";

// A cause of several tests is closed where there are many, so that all causes are in sight.
function cause_of_several({ title, tests, is_shared }) {
  const count = element("b", "", whole(tests.length));
  const told = titled(element("span", "name", safe_nodes(title)), title);
  const summary = element("summary", "", state_mark(tests[0].end), count, " ", told);
  const group = element("details", "cause", summary);
  group.setAttribute("aria-label", `${plural(tests.length, "test")}: ${shown(title)}`);
  if (is_shared) group.append(element("p", "beside", SHARED));
  group.append(items_of(tests, (test) => ({ reason: why(test) })));
  group.open = FAILURES.length <= 12;
  return group;
}

// The failures in a state: those with a cause of their own are a list, the others a group each.
function failures(words, is_wanted) {
  const causes = CAUSES.map((cause) => ({ ...cause, tests: cause.tests.filter(is_wanted) }))
    .filter(({ tests }) => tests.length);
  const count = causes.reduce((sum, { tests }) => sum + tests.length, 0);
  if (!count) return "";
  const several = causes.filter(({ tests }) => tests.length > 1).map(cause_of_several);
  const alone = causes.filter(({ tests }) => tests.length === 1).flatMap(({ tests }) => tests);
  const told = several.length ? `, ${plural(causes.length, "cause")}` : "";
  const list = alone.length ? items_of(alone, (test) => ({ reason: why(test) })) : "";
  return element("section", "", element("h3", "", words(count) + told), ...several, list);
}

function all_failures() {
  const is_test = (state) => (test) => test.state === state;
  return [
    failures((count) => `${whole(count)} failed`, is_test("failed")),
    failures((count) => `${whole(count)} unfinished`, is_test("unfinished")),
    failures((count) => `${plural(count, "setup script")} failed`, is_test("script")),
  ];
}

// Those that the run doesn't name are counted, and have no line of their own.
function never_started() {
  const count = COUNTS["not-started"];
  if (!count) return "";
  const named = TESTS.filter((test) => test.state === "not-started");
  const told = `${whole(RUN.unnamed)} ${named.length ? "more " : ""}without a name`;
  return element("section", "", element("h3", "", `${whole(count)} never started`),
    named.length ? items_of(named, () => ({})) : "",
    RUN.unnamed ? element("p", "more", told) : "");
}

function line_of_binary(name, sum, states) {
  const style = (state) => (!sum[state] ? "zero" : state === "failed" ? "is-failed" : "");
  const cells = states.map((state) => element("td", style(state), whole(sum[state])));
  const named = titled(element("span", "cut", safe_nodes(name)), name);
  const time = element("td", "", duration(sum.seconds));
  return element("tr", "", element("td", "", named), ...cells, time);
}

const HOW_TESTS_COUNT = "Each number counts a test once, by how it ended at last. "
  + "Setup scripts aren't tests.";

function sum_of_no_test() {
  return { ...Object.fromEntries(STATES_OF_TESTS.map((state) => [state, 0])), seconds: 0 };
}

// How many tests of each binary are in each state, and how long they took.
function sums_of_binaries() {
  const sums = new Map();
  for (const test of TESTS.filter((one) => one.state !== "script")) {
    if (!sums.has(test.binary)) sums.set(test.binary, sum_of_no_test());
    const sum = sums.get(test.binary);
    sum[test.state]++;
    sum.seconds += test.seconds;
  }
  return sums;
}

function head_of_column(word) {
  const cell = element("th", "", word);
  cell.scope = "col";
  return cell;
}

function table_of_binaries() {
  const sums = sums_of_binaries();
  if (!sums.size) return "";
  const states = STATES_OF_TESTS.filter((state) => COUNTS[state]);
  const words = ["Binary", ...states.map((state) => STATES[state].word), "time"];
  const head = element("thead", "", element("tr", "", ...words.map(head_of_column)));
  if (RUN.unnamed) sums.set(null, { ...sum_of_no_test(), "not-started": RUN.unnamed });
  const worst = [...sums].sort(
    ([, one], [, other]) => other.failed - one.failed || other.seconds - one.seconds,
  );
  const body = worst.slice(0, MOST_ITEMS)
    .map(([binary, sum]) => line_of_binary(BINARIES[binary] ?? "without a name", sum, states));
  const table = element("table", "", head, element("tbody", "", ...body));
  const left = worst.length - body.length;
  const told = `${plural(left, "binary", "binaries")} more aren't shown`;
  return element("section", "binaries", element("h3", "", "Binaries"),
    element("div", "wide-table", table), left ? element("p", "more", told) : "",
    element("p", "more", HOW_TESTS_COUNT));
}

function about_run() {
  const { run } = RUN;
  const told = ([from, to]) => `${duration(to - from)} at ${duration(from)}`;
  const pauses = PAUSES.slice(0, 5).map(told);
  if (PAUSES.length > 5) pauses.push(`and ${plural(PAUSES.length - 5, "time")} more`);
  const facts = [
    ["Run", run.id], ["Started", run.when], ["Took", duration(run.seconds)], ["Ended", run.ended],
    ["Profile", run.profile], ["Arguments", run.args.join(" ")], ["Paused", pauses.join(", ")],
    ["Bundle", run.bundle],
  ];
  const about = element("dl", "about");
  facts.push(...RUN.facts.map(({ name, text, link }) => [name, text, link]));
  for (const [name, value, link] of facts) {
    if (value) about.append(element("dt", "", safe_nodes(name)), fact_of_run(value, link));
  }
  return element("section", "", element("h3", "", "This run"), about);
}

// What is too long for some lines is whole in a field that scrolls.
function fact_of_run(value, link) {
  const told = safe_nodes(value);
  const made = element("dd", "", link ? web_link(link, told) : told);
  if (value.length > 500) made.tabIndex = 0;
  return made;
}

function draw_run() {
  const tests = TESTS.filter((test) => test.state !== "script" && test.attempts.length);
  const flaky = tests.filter((test) => test.state === "flaky");
  const beside = tests.filter((test) => test.state === "passed" && ran_beside(test));
  const slowest = [...tests].sort(ORDERS.slowest).slice(0, 10);
  const notes = [missing, ...RUN.notes].filter(Boolean);
  const warnings = notes.map((note) => element("p", "warning", note));
  const with_reason = (test) => ({ reason: why(test) });
  details.replaceChildren(
    ...warnings,
    ...all_failures(),
    never_started(),
    part(`${whole(flaky.length)} flaky, passed when tried again`, flaky, with_reason),
    part(`${whole(beside.length)} ran beside a crash, and passed alone`, beside, with_reason),
    element("div", "pair",
      part("Slowest tests", slowest, () => ({ bar: true })),
      element("div", "", table_of_binaries(), slots_part(), path_part(), about_run())),
  );
  const first = details.querySelector("h3");
  if (first && !warnings.length) first.style.marginTop = "0";
  details.scrollTop = 0;
}
