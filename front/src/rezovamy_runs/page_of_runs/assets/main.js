// Which test and which run are chosen, and the address that leads to them and to what is shown.

const said = document.getElementById("said");
const MISSING = "The address leads to a test that isn't on this page. Search for it by name.";
let chosen = null, chosen_run = null, missing = "", waiting_address = 0;

function announce(text) {
  said.textContent = text;
}

function is_narrow() {
  return matchMedia("(max-width: 760px)").matches;
}

// A key that is held chooses faster than browsers let an address change.
function keep_in_address(is_held) {
  clearTimeout(waiting_address);
  const keep = () => set_address(chosen ? words_for_choice() : "");
  if (is_held) waiting_address = setTimeout(keep, 200);
  else keep();
}

function words_for_choice() {
  const run = chosen_run ? [chosen_run.runs[0].id] : [];
  return address_of(chosen.place, chosen.name, ...run);
}

// Shows a test and its cell of a run, or neither.
function choose(test, run = null, is_held = false) {
  chosen = test;
  chosen_run = test ? run : null;
  missing = "";
  keep_in_address(is_held);
  if (test) reveal(test, run);
  draw_details();
  redraw();
  if (is_narrow() && test && !is_held) open_details();
}

function open_details() {
  details.focus();
  if (is_narrow()) details.scrollIntoView();
}

function words_for_filter() {
  const words = new URLSearchParams(), kinds = [...shown_kinds];
  if (search.value.trim()) words.set("find", search.value.trim());
  if (branch.value) words.set("branch", branch.value);
  if (package_choice.value) words.set("package", package_choice.value);
  if (age.value) words.set("days", age.value);
  if (kinds.length < Object.keys(KINDS).length) words.set("kinds", kinds.join(" "));
  if (sort.value !== "trust") words.set("sort", sort.value);
  return `?${words}`;
}

// A word that no choice has chooses what it does without one.
function set_choice(choice, word, otherwise = "") {
  const values = [...choice.options].map(({ value }) => value);
  choice.value = values.includes(word) ? word : otherwise;
}

function follow_filter(wanted) {
  search.value = wanted.get("find") ?? "";
  set_choice(branch, wanted.get("branch"));
  set_choice(package_choice, wanted.get("package"));
  set_choice(age, wanted.get("days"));
  set_choice(sort, wanted.get("sort"), "trust");
  show_kinds((wanted.get("kinds") ?? "").split(" "));
  refresh();
}

function follow_test(words) {
  const [place, name, id] = decoded(words);
  const found = TESTS.find((test) => shown(test.place) === place && test.shown === name) ?? null;
  chosen = found;
  chosen_run = found && (RUNS.find((run) => run.runs.some((one) => one.id === id)) ?? null);
  missing = found ? "" : MISSING;
  if (found) reveal(found, chosen_run);
}

// An address is `#BINARY/NAME/RUNID`, or `#?find=..&branch=..`; each part may be left out.
function follow_address() {
  const [words, query = ""] = location.hash.slice(1).split(/\?(.*)/s);
  follow_filter(new URLSearchParams(query));
  missing = "";
  if (words.includes("/")) follow_test(words);
  draw_details();
  redraw();
}

function draw_head() {
  const headline = document.getElementById("headline");
  headline.textContent = `${plural(TESTS.length, "test")} over ${plural(RUNS.length, "run")}`;
  const times = [...RUNS].sort((one, other) => one.started - other.started);
  const commits = new Set(RUNS.map((run) => run.code).filter((code) => code >= 0)).size;
  const days = times.length ? [times[0], times.at(-1)].map(({ when }) => when.slice(0, 10)) : [];
  const facts = [HISTORY.project, [...new Set(days)].join(" to "),
    commits ? plural(commits, "commit") : ""];
  const spans = facts.filter(Boolean).map((one) => element("span", "", safe_nodes(one)));
  document.getElementById("known-by").replaceChildren(...spans);
}

// On paper the details come after the grid.
function lay_on_paper() {
  const rows = Math.min(PAPER_ROWS, tests.length), wide = PAPER_WIDE, high = HEAD + rows * row_high;
  const left = Math.max(0, gutter() + runs.length * cell_wide - wide);
  paper = { left, top: 0, wide, high };
  draw_all();
}

function start_paper() {
  addEventListener("beforeprint", lay_on_paper);
  addEventListener("afterprint", () => { paper = null; redraw(); });
}

document.addEventListener("theme", () => { read_colours(); redraw(); });
start_theme();
start_help();
start_paper();
draw_head();
draw_legend();
start_filter();
start_keys();
grid.addEventListener("scroll", redraw, { passive: true });
document.getElementById("foot").append(link_button("this filter", words_for_filter));
follow_address();
addEventListener("hashchange", follow_address);
new ResizeObserver(resize_grid).observe(grid);
draw_all();
document.documentElement.dataset.ready = "yes";
