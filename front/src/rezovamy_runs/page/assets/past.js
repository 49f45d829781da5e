// How the test that is chosen ended in the last runs up to this one, and how long it took.

const PAST = RUN.past;
const PAST_DIGITS = "0123456789ABCDEFGHIJKLMNOPQRSTUVWXYZabcdefghijklmnopqrstuvwxyz-_";
const PAST_STEPS = 340, PAST_SHORTEST = 1e-6;

// In seconds, of two digits; undefined for blanks, which are a time that isn't known.
function past_time(digits) {
  const [high, low] = Array.from(digits, (one) => PAST_DIGITS.indexOf(one));
  return high < 0 ? undefined : PAST_SHORTEST * 10 ** ((64 * high + low) / PAST_STEPS);
}

// Setup scripts stand before the tests, and have no past.
function past_place(test) {
  return test.index - COUNTS.script;
}

// The runs that have a test, the oldest first: how it ended there, and how many seconds it took.
function past_results(test) {
  if (!PAST || test.state === "script") return [];
  const place = past_place(test), { runs } = PAST, marks = PAST.marks[PAST.tests[place]];
  return runs.map((run, at) => {
    const from = 2 * (place * runs.length + at);
    const seconds = past_time(PAST.times.slice(from, from + 2));
    return { run, state: VERDICTS[marks[at]], seconds };
  }).filter(({ state }) => state);
}

function words_for_past_run({ when, commit, changed }) {
  return when + (commit ? `, at commit ${commit}${changed ? " with changes" : ""}` : "");
}

// Since when a test fails, which may be before the first of these runs.
function words_for_failing(results) {
  const known = results.filter(({ state }) => !["skipped", "unfinished"].includes(state));
  const passed = known.findLastIndex(({ state }) => state !== "failed");
  const failing = known.slice(passed + 1);
  if (!failing.length) return "";
  const since = words_for_past_run(failing[0].run), times = plural(failing.length, "time");
  if (passed < 0) return `It failed each time in these runs, since ${since}, or longer.`;
  const before = words_for_past_run(known[passed].run);
  return `It failed ${times} since ${since}. It passed last on ${before}.`;
}

function words_for_times(results) {
  const times = results.filter(({ state }) => ["passed", "flaky"].includes(state))
    .map(({ seconds }) => seconds);
  if (times.length < 2) return "";
  const ordered = times.toSorted((one, other) => one - other);
  const usual = ordered[ordered.length >> 1];
  return `It takes ${duration(usual)} usually, from ${duration(ordered[0])} to `
    + `${duration(ordered.at(-1))}; last ${duration(times.at(-1))}.`;
}

function past_item({ run, state, seconds }, longest) {
  const took = seconds === undefined ? "" : `, ${duration(seconds)}`;
  const told = `${STATES[state].word}${took}, ${words_for_past_run(run)}`;
  const bar = element("i", `is-cell-${state}`), mark = element("b", "", STATES[state].mark);
  // A thin bar says that a time isn't known, or is next to none.
  bar.style.height = `${Math.max(8, (100 * (seconds ?? 0)) / longest)}%`;
  for (const one of [bar, mark]) one.setAttribute("aria-hidden", "true");
  const item = element("li", `is-${state}`, bar, mark, element("span", "unseen", told));
  item.title = told;
  return item;
}

// Nothing for a test of which only this run is known.
function past_part(test) {
  const results = past_results(test);
  if (results.length < 2) return "";
  const longest = results.reduce((most, { seconds }) => Math.max(most, seconds ?? 0), 1e-9);
  const kind = KINDS[PAST.kinds[past_place(test)]];
  const flaky = kind?.state === "flaky" ? `Flaky: it ${kind.word}.` : "";
  const told = [flaky, words_for_failing(results), words_for_times(results)].filter(Boolean);
  const count = plural(results.length, "result");
  const title = element("h3", "", `The last ${count}, this run at the end`);
  const items = element("ol", "past", ...results.map((one) => past_item(one, longest)));
  return element("section", "before", title, items,
    ...told.map((one) => element("p", "told", one)));
}
