// The top of the page: how the run ended, in a line, and whose it is.

function draw_headline() {
  const bad = COUNTS.failed + COUNTS.unfinished + COUNTS["not-started"] + FAILED_SCRIPTS.length;
  const is_green = !bad;
  const parts = STATES_OF_TESTS.filter((state) => COUNTS[state]).map((state) => {
    const is_loud = state === "failed" || (state === "passed" && is_green);
    return [is_loud ? state : "rest", `${whole(COUNTS[state])} ${STATES[state].word}`];
  });
  const scripts = FAILED_SCRIPTS.length;
  if (scripts) parts.unshift(["failed", `${plural(scripts, "setup script")} failed`]);
  const headline = document.getElementById("headline");
  headline.replaceChildren(...(parts.length ? [] : ["No test ran"]));
  parts.forEach(([style, told], at) => {
    const comma = at < parts.length - 1 ? element("span", "rest", ",") : "";
    headline.append(element("span", "", element("span", style, told), comma), " ");
  });
}

function draw_facts() {
  const { run } = RUN;
  const facts = document.getElementById("facts");
  const id = element("span", "mono", run.id.slice(0, 8));
  id.title = run.id;
  const told = [
    plural(TEST_COUNT, "test"),
    duration(run.seconds),
    run.status === "completed" ? "" : run.status,
    run.exit ? `exit code ${run.exit}` : "",
    run.when,
    `profile ${run.profile}`,
  ];
  const span = (fact) => titled(element("span", "", safe_nodes(fact)), fact);
  facts.replaceChildren(...told.filter(Boolean).map(span), id);
  const brief = RUN.facts.filter((fact) => fact.brief);
  document.getElementById("known-by").replaceChildren(...brief.map(brief_fact));
}

// A narrow window has room for these below alone.
const WIDE_FACTS = ["Command", "Build", "Rust"];

// What the run is known by, each with its name for a screen reader and in its tip. A length of time
// needs its name to be understood.
function brief_fact({ name, text, link }) {
  const told = link ? web_link(link, safe_nodes(text)) : element("span", "", safe_nodes(text));
  const named = element("span", name === "Build" ? "" : "unseen", `${name}: `);
  const made = element("span", WIDE_FACTS.includes(name) ? "only-wide" : "", named, told);
  made.title = `${name}: ${shown(text)}`;
  return made;
}

// A thin line that shows the shares of the states.
function draw_share() {
  const share = document.getElementById("share");
  for (const state of STATES_OF_TESTS) {
    if (!COUNTS[state]) continue;
    const part = element("i");
    part.style.flex = `${COUNTS[state]} 0 0`;
    part.style.background = `var(--${state})`;
    share.append(part);
  }
}

// What is closed on the screen can't be opened on paper.
let opened_for_paper = [];

function open_for_paper() {
  opened_for_paper = [...document.querySelectorAll(".cause:not([open]), .output:not([open])")];
  opened_for_paper.forEach((one) => { one.open = true; });
}

function close_after_paper() {
  opened_for_paper.forEach((one) => { one.open = false; });
}

function start_head() {
  draw_headline();
  draw_facts();
  draw_share();
  start_theme();
  addEventListener("beforeprint", open_for_paper);
  addEventListener("afterprint", close_after_paper);
  start_help();
}
