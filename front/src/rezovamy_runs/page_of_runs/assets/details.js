// What is known of the test that is chosen: how it ended in the run that is chosen, its times, and
// its runs as a list. Where no test is chosen, what the page has.

const details = document.getElementById("details");
const MOST_ITEMS = 100;

// A word as a shell reads it.
function quoted(word) {
  return /^[\w@%+=:,./-]+$/.test(word) ? word : `'${word.replaceAll("'", `'"'"'`)}'`;
}

function command_part(words, what) {
  const button = copy_button("Copy", `Copy the command that ${what}`, () => words);
  return element("div", "command", element("code", "", words), button);
}

function link_to_run(test, run, ...contents) {
  const link = element("a", "", ...contents);
  link.href = address_in_run(test, run);
  return link;
}

// The page of a run at the test, or the commands that make it and print what the test said.
function ways_to_run(test, run) {
  if (address_in_run(test, run)) {
    return [element("p", "told", link_to_run(test, run, "Open the page of this run at this test"))];
  }
  const { id } = recorded_run(test, run);
  const page = command_part(`rezovamy-runs page ${id}`, "makes the page of this run");
  if (SPECIAL_TEXT.test(test.name)) return [page];
  const show = `rezovamy-runs show ${id} ${quoted(test.name)}`;
  return [page, command_part(show, "prints what this test said")];
}

function run_card(test, run) {
  const verdict = verdict_of(test, run), words = words_for_verdict(test, run);
  const part = verdict ? recorded_run(test, run).part : "";
  const told = [run.when, ...run.told, part].filter(Boolean);
  const card = element("article", "attempt", element("header", "",
    element("h3", "", "Run"),
    element("span", `result is-${verdict ?? "skipped"}`, words),
    ...told.map((one) => element("span", "also", safe_nodes(one)))));
  card.setAttribute("aria-current", "true");
  const said = verdict ? message_of(test, run) : "";
  if (said) card.append(element("div", "error mono", safe_nodes(said)));
  if (verdict) card.append(...ways_to_run(test, run));
  return card;
}

function item(test, run) {
  const verdict = verdict_of(test, run), seconds = times_of(test)[run.at];
  const told = [run.when, ...run.told].join(", ");
  const parts = [
    state_mark(verdict), element("span", "name", safe_nodes(told)),
    element("span", "took", seconds === undefined ? "" : duration(seconds)),
  ];
  const said = message_of(test, run);
  if (said) parts.push(element("span", "why", safe_nodes(said)));
  const button = element("button", "item", ...parts);
  button.type = "button";
  if (run === chosen_run) button.setAttribute("aria-current", "true");
  button.addEventListener("click", () => choose(test, run));
  return element("li", "", button);
}

function list_of_runs(test) {
  const there = runs.filter((run) => verdict_of(test, run)).reverse();
  const items = element("ul", "items", ...there.slice(0, MOST_ITEMS).map((run) => item(test, run)));
  const left = there.length - MOST_ITEMS;
  if (left > 0) items.append(element("li", "more", `${whole(left)} earlier ones are in the grid`));
  return element("section", "", element("h3", "", "Runs, the newest first"), items);
}

function words_for_sum(test) {
  const sum = sum_of(test);
  const told = ["failed", "flaky", "passed", "skipped", "unfinished"].filter((one) => sum[one])
    .map((one) => `${whole(sum[one])} ${STATES[one].word}`);
  return told.join(", ");
}

function draw_test(test) {
  const link = link_button("this test", () => address_of(test.place, test.name));
  const name = element("span", "", safe_nodes(test.name));
  const head = element("div", "test-head", element("h2", "", kind_mark(test.kind), name), link);
  const facts = [test.place, KINDS[test.kind].word, words_for_sum(test)].filter(Boolean);
  const under = element("p", "under", ...facts.map((one) => element("span", "", safe_nodes(one))));
  details.replaceChildren(head, under, ...(chosen_run ? [run_card(test, chosen_run)] : []),
    trend_part(test, chosen_run), list_of_runs(test));
  details.scrollTop = 0;
}

const ABOUT = [
  "A row is a test, and a column is a run; the newest run is at the right end. Runs of one commit "
  + "stand together.",
  "The least trusted tests come first: those that failed and passed at one commit. Their order is "
  + "by all runs of this page.",
  "A click on a cell opens the page of its run at this test, if that page is beside this one. "
  + "Otherwise the command that makes it is here.",
];

function draw_page() {
  const warning = missing ? [element("p", "warning", missing)] : [];
  details.replaceChildren(...warning, ...ABOUT.map((line) => element("p", "told", line)));
}

function draw_details() {
  if (chosen) draw_test(chosen);
  else draw_page();
  details.setAttribute("aria-label", chosen ? `Details of ${chosen.shown}` : "About this page");
}
