// The grid: the names of tests as elements, of which only those in sight are there, and where its
// cells are. The newest run is at the right end.

const grid = document.getElementById("grid");
const space = document.getElementById("space");
const names = document.getElementById("names");
const corner = document.getElementById("corner");
const HEAD = 62;
let row_high = 22, cell_wide = 14, names_wide = 300, trend_wide = 72;
let waiting_frame = 0, paper = null;

// On paper nothing scrolls: it has the first tests and the newest runs.
const PAPER_ROWS = 40, PAPER_WIDE = 700;

function gutter() {
  return names_wide + trend_wide;
}

function sight() {
  const { scrollLeft: left, scrollTop: top, clientWidth: wide, clientHeight: high } = grid;
  return paper ?? { left, top, wide, high };
}

function x_of(column) {
  return gutter() + column * cell_wide - sight().left;
}

function y_of(row) {
  return HEAD + row * row_high - sight().top;
}

// The first row in sight, and the one after the last.
function rows_in_sight() {
  const { top, high } = sight();
  return [Math.floor(top / row_high), Math.min(tests.length, Math.ceil((top + high) / row_high))];
}

function columns_in_sight() {
  const { left, wide } = sight();
  const right = left + Math.max(0, wide - gutter());
  return [Math.floor(left / cell_wide), Math.min(runs.length, Math.ceil(right / cell_wide))];
}

function resize_grid() {
  const narrow = is_narrow();
  row_high = narrow ? 32 : 22;
  cell_wide = narrow ? 20 : 14;
  names_wide = narrow ? 150 : Math.max(220, Math.min(380, Math.round(innerWidth * 0.24)));
  trend_wide = narrow ? 0 : 72;
  space.style.width = `${gutter() + runs.length * cell_wide + 8}px`;
  space.style.height = `${HEAD + tests.length * row_high + 4}px`;
  for (const one of [names, corner]) one.style.width = `${names_wide}px`;
  redraw();
}

function show_newest() {
  resize_grid();
  grid.scrollTop = 0;
  grid.scrollLeft = grid.scrollWidth;
}

function redraw() {
  waiting_frame ||= requestAnimationFrame(draw_all);
}

function draw_all() {
  waiting_frame = 0;
  draw_names();
  draw_cells();
}

function row_of(test) {
  const row = element("div", "row");
  row.id = `row-${test.rank}`;
  row.style.top = `${HEAD + test.row * row_high}px`;
  row.style.height = `${row_high}px`;
  row.setAttribute("role", "option");
  row.setAttribute("aria-setsize", tests.length);
  row.setAttribute("aria-posinset", test.row + 1);
  row.setAttribute("aria-selected", String(test === chosen));
  // A narrow row has room for the last part of a path, which tells it.
  const told = is_narrow() ? test.name.split("::").at(-1) : test.name;
  const name = element("span", "name", safe_nodes(told));
  row.title = `${test.shown} ${shown(test.place)}`;
  row.append(kind_mark(test.kind), name, element("span", "place", safe_nodes(test.place)));
  row.addEventListener("click", () => choose(test));
  return row;
}

function draw_names() {
  const [first, end] = rows_in_sight();
  const rows = tests.slice(Math.max(0, first), end).map(row_of);
  const is_out = is_listed(chosen) && (chosen.row < first || chosen.row >= end);
  if (is_out) rows.push(row_of(chosen));
  names.replaceChildren(...rows);
  if (is_listed(chosen)) grid.setAttribute("aria-activedescendant", `row-${chosen.rank}`);
  else grid.removeAttribute("aria-activedescendant");
}

function is_listed(test) {
  return test !== null && tests[test.row] === test;
}

// Brings a test into sight, and its cell of a run.
function reveal(test, run) {
  if (!is_listed(test)) return;
  const top = test.row * row_high, room = grid.clientHeight - HEAD - row_high;
  grid.scrollTop = Math.min(top, Math.max(top - room, grid.scrollTop));
  const column = runs.indexOf(run);
  if (column < 0) return;
  const left = column * cell_wide, wide = grid.clientWidth - gutter() - 2 * cell_wide;
  grid.scrollLeft = Math.min(left, Math.max(left - wide, grid.scrollLeft));
}

// The test and the run at a place in the window, nothing where no cell is.
function cell_at({ clientX, clientY }) {
  const box = grid.getBoundingClientRect();
  const x = clientX - box.left - grid.clientLeft, y = clientY - box.top - grid.clientTop;
  if (x < gutter() || y < HEAD || x > grid.clientWidth || y > grid.clientHeight) return null;
  const run = runs[Math.floor((x - gutter() + grid.scrollLeft) / cell_wide)];
  const test = tests[Math.floor((y - HEAD + grid.scrollTop) / row_high)];
  return run && test ? { test, run } : null;
}
