// What the address of the page leads to: a test or an attempt of it, a filter of the list, and a
// stretch of the timeline: `#BINARY/NAME/ATTEMPT?find=..&states=..&sort=..&from=..&to=..`. Each
// part may be left out.

const MISSING = "The address leads to a test that isn't in this run. Search for it by name.";
let waiting_address = 0, missing = "";

function words_for_test(test, attempt = null) {
  const number = attempt && test.attempts.length > 1 ? [String(attempt.number)] : [];
  return address_of(test.place, test.name, ...number);
}

function words_for_filter() {
  const words = new URLSearchParams(), states = states_of_run();
  const chosen_states = states.filter((one) => shown_states.has(one));
  if (search.value.trim()) words.set("find", search.value.trim());
  if (in_outputs.checked) words.set("outputs", "yes");
  if (chosen_states.length < states.length) words.set("states", chosen_states.join(" "));
  if (sort.value !== "failures") words.set("sort", sort.value);
  return `?${words}`;
}

function words_for_stretch({ from, to }) {
  return `?from=${from.toFixed(6)}&to=${to.toFixed(6)}`;
}

// A key that is held chooses faster than browsers let an address change.
function keep_in_address(test, attempt, is_held) {
  clearTimeout(waiting_address);
  const keep = () => set_address(test ? words_for_test(test, attempt) : "");
  missing = "";
  if (is_held) waiting_address = setTimeout(keep, 200);
  else keep();
}

function follow_filter(wanted) {
  if (!["find", "outputs", "states", "sort"].some((name) => wanted.has(name))) return;
  const states = (wanted.get("states") ?? "").split(" ").filter((one) => COUNTS[one]);
  search.value = wanted.get("find") ?? "";
  in_outputs.checked = wanted.has("outputs");
  sort.value = Object.hasOwn(ORDERS, wanted.get("sort")) ? wanted.get("sort") : "failures";
  show_states(states);
}

function follow_stretch(wanted) {
  const from = Number.parseFloat(wanted.get("from")), to = Number.parseFloat(wanted.get("to"));
  select(from < to ? { from: Math.max(0, from), to: Math.min(WHOLE, to) } : null);
  if (from < to) look(from, to);
}

function follow_test(words) {
  const [place, name, number] = decoded(words);
  const found = name === undefined ? undefined
    : TESTS.find((test) => shown(test.place) === place && test.shown === name);
  const attempt = found?.attempts.find((one) => String(one.number) === number) ?? null;
  missing = found ? "" : MISSING;
  choose(found ?? null, { from: "address", attempt });
}

function follow_address() {
  const [words, query = ""] = location.hash.slice(1).split(/\?(.*)/s);
  const wanted = new URLSearchParams(query);
  missing = "";
  follow_filter(wanted);
  if (words.includes("/")) follow_test(words);
  else if (!words) choose(null, { from: "address" });
  follow_stretch(wanted);
}
