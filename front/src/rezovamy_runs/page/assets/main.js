// Which test is chosen, and the keys of the whole page.

let chosen = null;
const said = document.getElementById("said");

function announce(text) {
  said.textContent = text;
}

function is_narrow() {
  return matchMedia("(max-width: 760px)").matches;
}

// Shows a test, or the whole run. `from` says where it was chosen, and `quiet` that the keyboard
// stays there.
function choose(test, { from = "", attempt = null, quiet = false } = {}) {
  chosen = test;
  if (from !== "address") keep_in_address(test, attempt, quiet);
  if (test) draw_test(test);
  else draw_run();
  document.body.classList.toggle("chosen", Boolean(test) && !quiet);
  details.setAttribute("aria-label", test ? `Details of ${test.shown}` : "Overview of the run");
  if (test) reveal_row(test);
  draw_rows();
  if (test && from !== "timeline") {
    cursor = attempt ?? test.attempts.findLast((one) => one.slices.length) ?? cursor;
    reveal_test(test);
  } else redraw();
  if (!test) cursor = null;
  if (is_narrow() && test && !quiet) open_details();
  if (attempt && test.attempts.length > 1) show_attempt(attempt);
}

function show_attempt(attempt) {
  const card = document.getElementById(`attempt-${attempt.at}`);
  card.setAttribute("aria-current", "true");
  if (attempt.at) card.scrollIntoView({ block: "nearest" });
}

// Goes to the outputs. In a narrow window they take the place of the list.
function open_details() {
  document.body.classList.add("chosen");
  details.focus();
  if (is_narrow()) scrollTo(0, 0);
}

function step_failure(steps) {
  if (!FAILURES.length) return announce("No test failed");
  const at = FAILURES.indexOf(chosen), first = steps > 0 ? 0 : FAILURES.length - 1;
  const next = FAILURES[at < 0 ? first : (at + steps + FAILURES.length) % FAILURES.length];
  choose(next, { from: "keys", quiet: !document.body.classList.contains("chosen") });
  announce(`${next.shown}, ${why(next)}`);
}

function escape() {
  if (document.activeElement === search && search.value) {
    search.value = "";
    refresh_list();
  } else if (details.contains(document.activeElement) && chosen && !is_narrow()) list.focus();
  else if (chosen) back_to_run();
  else select(null);
}

function back_to_run() {
  choose(null);
  list.focus();
}

function page_key(event) {
  if (event.altKey || event.ctrlKey || event.metaKey) return;
  if (event.key === "Escape") {
    escape();
    event.preventDefault();
    return;
  }
  if (event.target.matches("[type=search], select")) return;
  if (event.key === "/") {
    if (is_narrow() && chosen) choose(null);
    search.focus();
    search.select();
  } else if (event.key === "n") step_failure(1);
  else if (event.key === "p") step_failure(-1);
  else if (event.key === "?") document.getElementById("keys").click();
  else return;
  event.preventDefault();
}

start_head();
start_list();
start_timeline();
choose(null, { from: "address" });
follow_address();
addEventListener("hashchange", follow_address);
addEventListener("resize", draw_rows);
document.addEventListener("keydown", page_key);
document.documentElement.dataset.ready = "yes";
