// The list of tests: what is sought and shown, in which order, and the rows that can be seen.

const list = document.getElementById("list");
const list_space = document.getElementById("list-space");
const search = document.getElementById("search");
const in_outputs = document.getElementById("in-outputs");
const sort = document.getElementById("sort");
const shown_states = new Set(Object.keys(STATES));
let listed = [];

function compare(one, other) {
  return one < other ? -1 : one > other ? 1 : 0;
}

// Tests that never started, as skipped ones, stand behind those that did.
function by_start(one, other) {
  return compare(one.start, other.start) || one.index - other.index;
}

const ORDERS = {
  failures: (one, other) => STATES[one.end].rank - STATES[other.end].rank || by_start(one, other),
  slowest: (one, other) => other.seconds - one.seconds || one.index - other.index,
  start: by_start,
  name: (one, other) => compare(one.place, other.place) || compare(one.name, other.name)
    || one.index - other.index,
};

function row_height() {
  return matchMedia("(max-width: 760px)").matches ? 40 : 28;
}

function sought() {
  return search.value.trim().toLowerCase();
}

// A test is found where each of the words stands in its name or its binary, or all of them as they
// are in an output.
function is_found(test, wanted, words) {
  if (!wanted || words.every((word) => test.sought.includes(word))) return true;
  return in_outputs.checked && has_said(test, wanted);
}

function refresh_list() {
  const wanted = sought(), words = wanted.split(/\s+/);
  const is_wanted = (test) => shown_states.has(test.state) && is_found(test, wanted, words);
  listed = TESTS.filter(is_wanted).sort(ORDERS[sort.value]);
  listed.forEach((test, at) => { test.listed_at = at; });
  list.scrollTop = 0;
  draw_rows();
  say_found(listed.filter((test) => test.state !== "script").length);
}

function say_found(count) {
  document.getElementById("found").textContent = words_for_found(count);
}

function words_for_found(count) {
  const nameless = RUN.unnamed ? `; ${plural(RUN.unnamed, "has", "have")} no name` : "";
  if (listed.length === TESTS.length && !nameless) return `All ${whole(TEST_COUNT)} shown`;
  if (listed.length) return `${whole(count)} of ${whole(TEST_COUNT)} shown${nameless}`;
  return "No test is found. Try fewer letters, or more states.";
}

function row_of(test, at, height, wanted) {
  const row = element("div", "row");
  row.id = `row-${test.index}`;
  row.style.top = `${at * height}px`;
  row.setAttribute("role", "option");
  row.setAttribute("aria-setsize", listed.length);
  row.setAttribute("aria-posinset", at + 1);
  row.setAttribute("aria-selected", String(test === chosen));
  const name = element("span", "name", marked_safely(test.name, wanted));
  name.title = test.shown;
  const place = element("span", "place", marked_safely(test.place, wanted));
  // A narrow row has no room for where it panicked.
  const cause = test.end === "failed" ? why(test).replace(/^panicked at \S+:\d+:\d+: /, "") : "";
  if (cause) place.append(element("span", "only-narrow", safe_nodes(` · ${cause}`)));
  const count = test.attempts.length;
  const tries = count > 1 ? element("span", "tries", `${count}×`) : null;
  if (tries) tries.setAttribute("aria-label", `${count} attempts`);
  const bar = element("i");
  bar.style.width = `${Math.min(100, 100 * test.seconds / LONGEST)}%`;
  const long = element("span", "long", bar);
  long.setAttribute("aria-hidden", "true");
  row.append(state_mark(test.end), name, place, ...(tries ? [tries] : []),
    element("span", "took", time_of(test) || (test.reason ?? "")), long);
  row.addEventListener("click", () => choose(test, { from: "list" }));
  return row;
}

function marked_safely(text, wanted) {
  const low = text.toLowerCase();
  const words = wanted ? wanted.split(/\s+/).filter((word) => low.includes(word)) : [];
  return safe_nodes(text, words.sort((one, other) => other.length - one.length)[0] ?? "");
}

// Only the rows in sight are there, and a few above and below.
function draw_rows() {
  const height = row_height(), wanted = sought();
  list_space.style.height = `${listed.length * height}px`;
  const first = Math.max(0, Math.floor(list.scrollTop / height) - 6);
  const end = Math.min(listed.length, Math.ceil((list.scrollTop + list.clientHeight) / height) + 6);
  const rows = listed.slice(first, end).map((test, at) => row_of(test, first + at, height, wanted));
  const is_out = is_listed(chosen) && (chosen.listed_at < first || chosen.listed_at >= end);
  if (is_out) rows.push(row_of(chosen, chosen.listed_at, height, wanted));
  list_space.replaceChildren(...rows);
  if (is_listed(chosen)) list.setAttribute("aria-activedescendant", `row-${chosen.index}`);
  else list.removeAttribute("aria-activedescendant");
}

function is_listed(test) {
  return test !== null && listed[test.listed_at] === test;
}

function reveal_row(test) {
  if (!is_listed(test)) return;
  const top = test.listed_at * row_height(), bottom = top + row_height();
  if (top < list.scrollTop) list.scrollTop = top;
  else if (bottom > list.scrollTop + list.clientHeight) list.scrollTop = bottom - list.clientHeight;
}

function step_list(steps) {
  if (!listed.length) return;
  const from = is_listed(chosen) ? chosen.listed_at : steps > 0 ? -1 : listed.length;
  const at = Math.max(0, Math.min(listed.length - 1, from + steps));
  choose(listed[at], { from: "list", quiet: true });
}

function list_key(event) {
  const page = Math.max(1, Math.floor(list.clientHeight / row_height()) - 1);
  const whole_list = listed.length;
  const steps = {
    ArrowDown: 1, ArrowUp: -1, PageDown: page, PageUp: -page, Home: -whole_list, End: whole_list,
  }[event.key];
  if (event.altKey || event.ctrlKey || event.metaKey) return;
  if (steps) step_list(steps);
  else if (event.key === "Enter" && chosen) open_details();
  else return;
  event.preventDefault();
}

function draw_states() {
  const buttons = states_of_run().map((state) => {
    const word = STATES[state].short ?? STATES[state].word;
    const count = element("b", "", whole(COUNTS[state]));
    const button = element("button", "", state_mark(state, true), count, word);
    button.type = "button";
    button.dataset.state = state;
    button.setAttribute("aria-pressed", "true");
    button.addEventListener("click", () => toggle_state(state));
    return button;
  });
  document.getElementById("states").replaceChildren(...buttons);
}

// The states that tests of the run are in.
function states_of_run() {
  return Object.keys(STATES).filter((state) => COUNTS[state]);
}

// A first click shows that state alone, as one means it; further clicks add others. With none left
// all are shown.
function toggle_state(state) {
  if (states_of_run().every((one) => shown_states.has(one))) show_states([state]);
  else if (shown_states.has(state)) show_states([...shown_states].filter((one) => one !== state));
  else show_states([...shown_states, state]);
}

function show_states(states) {
  const there = states_of_run(), wanted = states.filter((one) => there.includes(one));
  shown_states.clear();
  (wanted.length ? wanted : there).forEach((one) => shown_states.add(one));
  for (const button of document.querySelectorAll("#states button")) {
    button.setAttribute("aria-pressed", String(shown_states.has(button.dataset.state)));
  }
  refresh_list();
}

function start_list() {
  draw_states();
  document.getElementById("foot").append(link_button("this filter", words_for_filter));
  let waiting = 0;
  search.addEventListener("input", () => {
    clearTimeout(waiting);
    waiting = setTimeout(refresh_list, 60);
  });
  search.addEventListener("keydown", (event) => {
    if (event.key === "ArrowDown" || event.key === "Enter") {
      clearTimeout(waiting);
      refresh_list();
      list.focus();
      if (listed.length) choose(listed[0], { from: "list", quiet: event.key !== "Enter" });
      event.preventDefault();
    }
  });
  in_outputs.addEventListener("change", refresh_list);
  sort.addEventListener("change", refresh_list);
  list.addEventListener("scroll", draw_rows, { passive: true });
  list.addEventListener("keydown", list_key);
  refresh_list();
}
