// The mouse and the keys.

const tip = document.getElementById("tip");
const cell_link = document.getElementById("cell-link");
let hovered = null;

// A link lies over the cell below the mouse, so that it opens as any link does, also in a new tab.
function hover(event) {
  const found = event.pointerType === "mouse" ? cell_at(event) : null;
  if (found?.test === hovered?.test && found?.run === hovered?.run) return;
  hovered = found;
  const address = found && verdict_of(found.test, found.run)
    ? address_in_run(found.test, found.run) : "";
  cell_link.hidden = !address;
  if (address) place_link(found, address);
  tip.hidden = !found;
  if (found) show_tip(found);
  redraw();
}

function place_link({ test, run }, address) {
  cell_link.href = address;
  cell_link.style.left = `${gutter() + runs.indexOf(run) * cell_wide}px`;
  cell_link.style.top = `${HEAD + test.row * row_high}px`;
  cell_link.style.width = `${cell_wide}px`;
  cell_link.style.height = `${row_high}px`;
}

function show_tip({ test, run }) {
  const lines = [words_for_verdict(test, run), [run.when, ...run.told].join(", "),
    verdict_of(test, run) ? message_of(test, run) : ""];
  const spans = lines.filter(Boolean).map((line) => element("span", "", safe_nodes(line)));
  tip.replaceChildren(element("b", "", safe_nodes(test.name)), ...spans);
  const box = grid.getBoundingClientRect(), around = grid.parentElement.getBoundingClientRect();
  const left = box.left - around.left + x_of(runs.indexOf(run)) + cell_wide + 8;
  const most = around.width - tip.offsetWidth - 8;
  tip.style.left = `${Math.max(0, Math.min(left, most))}px`;
  const below = box.top - around.top + y_of(test.row) + row_high + 4;
  const is_low = below + tip.offsetHeight > box.bottom - around.top;
  tip.style.top = `${is_low ? below - row_high - tip.offsetHeight - 8 : below}px`;
}

function leave() {
  hovered = null;
  tip.hidden = true;
  redraw();
}

function click(event) {
  const found = cell_at(event);
  if (found) choose(found.test, found.run);
}

function step_test(steps) {
  if (!tests.length) return;
  const from = is_listed(chosen) ? chosen.row : steps > 0 ? -1 : tests.length;
  const at = Math.max(0, Math.min(tests.length - 1, from + steps));
  choose(tests[at], chosen_run, true);
  announce_cell();
}

// To the run before or after, of those that are wanted.
function step_run(steps, is_wanted = () => true) {
  if (!is_listed(chosen)) return step_test(1);
  let at = runs.indexOf(chosen_run);
  at = at < 0 ? (steps > 0 ? -1 : runs.length) : at;
  do at += steps; while (runs[at] && !is_wanted(runs[at]));
  if (!runs[at]) return announce("No further run");
  choose(chosen, runs[at], true);
  announce_cell();
}

function announce_cell() {
  if (!chosen_run) return;
  const said = verdict_of(chosen, chosen_run) ? message_of(chosen, chosen_run) : "";
  const told = [words_for_verdict(chosen, chosen_run), chosen_run.when, ...chosen_run.told, said];
  announce(told.filter(Boolean).map(shown).join(", "));
}

function step_failure(steps) {
  step_run(steps, (run) => BAD.includes(chosen.marks[run.at]));
}

function open_cell() {
  const address = chosen_run && verdict_of(chosen, chosen_run)
    ? address_in_run(chosen, chosen_run) : "";
  if (address) location.href = address;
  else open_details();
}

function grid_key(event) {
  if (event.altKey || event.ctrlKey || event.metaKey) return;
  const page = Math.max(1, Math.floor((grid.clientHeight - HEAD) / row_high) - 1);
  const all = tests.length;
  const steps = {
    ArrowDown: 1, ArrowUp: -1, PageDown: page, PageUp: -page, Home: -all, End: all,
  }[event.key];
  if (steps) step_test(steps);
  else if (event.key === "ArrowLeft") step_run(-1);
  else if (event.key === "ArrowRight") step_run(1);
  else if (event.key === "Enter" && chosen) open_cell();
  else return;
  event.preventDefault();
}

function escape() {
  if (document.activeElement === search && search.value) {
    search.value = "";
    refresh();
  } else if (details.contains(document.activeElement)) grid.focus();
  else choose(null);
}

function page_key(event) {
  if (event.altKey || event.ctrlKey || event.metaKey) return;
  const is_typing = event.target.matches("[type=search], select");
  if (event.key === "Escape") escape();
  else if (is_typing) return;
  else if (event.key === "/") search.focus();
  else if (event.key === "n") step_failure(1);
  else if (event.key === "p") step_failure(-1);
  else if (event.key === "?") document.getElementById("keys").click();
  else return;
  event.preventDefault();
}

function start_keys() {
  grid.addEventListener("pointermove", hover);
  grid.addEventListener("pointerleave", leave);
  grid.addEventListener("scroll", () => { leave(); cell_link.hidden = true; }, { passive: true });
  grid.addEventListener("click", click);
  grid.addEventListener("keydown", grid_key);
  document.addEventListener("keydown", page_key);
}
