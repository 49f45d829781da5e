// The timeline's rows and what of them is in sight: by slot, or by binary and slot as the trace has
// them.

const lanes = document.getElementById("lanes");
const lanes_space = document.getElementById("lanes-space");
const canvas = document.getElementById("canvas");
const row_buttons = [...document.querySelectorAll("[data-rows]")];
const AXIS = 22, NEAREST = 20e-6;
const PAUSES = RUN.pauses.map(([from, to]) => [from / 1e6, to / 1e6]);
const WHOLE = Math.max(1e-3, RUN.end / 1e6, ...PAUSES.map(([, to]) => to)) * 1.004;
const view = { from: 0, to: WHOLE };
let rows_by = "slot", rows = [], hovered = null, cursor = null, waiting_frame = 0;
let lane = 22, gutter = 64, width = 0, height = 0, paint = {};

for (const attempt of ATTEMPTS) attempt.end = Math.max(attempt.end, attempt.begin);

// Rows with their attempts in the order of time. Setup scripts stand above the tests.
function make_rows() {
  const found = new Map();
  const row_for = (key, label, under) => {
    if (!found.has(key)) found.set(key, { label, under, attempts: [], first: false });
    return found.get(key);
  };
  const by_start = [...ATTEMPTS].sort((one, other) => one.begin - other.begin);
  for (const one of by_start.filter((each) => each.is_script)) {
    row_for(`script ${one.slot}`, one.test.shown, "").attempts.push(one);
  }
  const of_tests = by_start.filter((one) => !one.is_script);
  if (rows_by === "slot") {
    const slots = [...new Set(of_tests.map((one) => one.slot))].sort((one, other) => one - other);
    rows_of_slots(slots, row_for);
    of_tests.forEach((one) => row_for(one.slot).attempts.push(one));
  } else rows_of_binaries(of_tests, row_for);
  rows = [...found.values()];
  rows.forEach((row, at) => row.attempts.forEach((one) => { one.row = at; }));
}

// In the page of a group, the first row of each band has its name.
function rows_of_slots(slots, row_for) {
  slots.forEach((slot, at) => {
    const band = band_of(slot);
    if (!band) row_for(slot, `slot ${slot}`, "");
    else {
      const first = !at || band_of(slots[at - 1]) !== band;
      row_for(slot, first ? shown(band.name) : "", `${slot_number(slot)}`).first = first;
    }
  });
}

function rows_of_binaries(attempts, row_for) {
  const slots = new Map();
  for (const { test, slot } of attempts) {
    slots.set(test.binary, (slots.get(test.binary) ?? new Set()).add(slot));
  }
  for (const [binary, used] of slots) {
    [...used].sort((one, other) => one - other).forEach((slot, at) => {
      const name = at ? "" : shown(BINARIES[binary]);
      const row = row_for(`${binary} ${slot}`, name, `${slot_number(slot)}`);
      row.first = at === 0;
    });
  }
  attempts.forEach((one) => row_for(`${one.test.binary} ${one.slot}`).attempts.push(one));
}

function time_at(x) {
  return view.from + (x - gutter) / (width - gutter) * (view.to - view.from);
}

function x_at(time) {
  return gutter + (time - view.from) / (view.to - view.from) * (width - gutter);
}

// Shows the stretch from one time to another, kept within the run.
function look(from, to) {
  const length = Math.min(WHOLE, Math.max(NEAREST, to - from));
  view.from = Math.max(0, Math.min(WHOLE - length, from));
  view.to = view.from + length;
  redraw();
}

function zoom(factor, x = gutter + (width - gutter) / 2) {
  const time = time_at(x), length = (view.to - view.from) * factor;
  const share = (time - view.from) / (view.to - view.from);
  look(time - share * length, time + (1 - share) * length);
}

// The first attempt of a row that may end after a time; attempts of a row don't overlap.
function first_after(attempts, time) {
  let low = 0, high = attempts.length;
  while (low < high) {
    const middle = (low + high) >> 1;
    if (attempts[middle].end < time) low = middle + 1;
    else high = middle;
  }
  return low;
}

// The attempts of a row that may be seen between two times.
function between(attempts, from, to) {
  const first = first_after(attempts, from);
  let end = first;
  while (end < attempts.length && attempts[end].begin <= to) end++;
  return attempts.slice(first, end);
}

const LOUD = { failed: 3, unfinished: 2, retried: 2, flaky: 1 };

// Whether an attempt runs between two times, or at one of them.
function runs_between(attempt, from, to) {
  return attempt.slices.some(([begin, end]) => begin <= to && from <= end);
}

// The attempt at a place of the canvas, or the one next to it within three pixels; of several the
// loudest.
function attempt_at(x, y) {
  const row = rows[Math.floor((y - AXIS + lanes.scrollTop) / lane)];
  if (!row || y < AXIS || x < gutter) return null;
  const from = time_at(x - 3), to = time_at(x + 3), at = time_at(x);
  const worth = (one) => (LOUD[one.kind] ?? 0) + (runs_between(one, at, at) ? 4 : 0);
  const near = between(row.attempts, from, to).filter((one) => runs_between(one, from, to));
  return near.reduce((best, one) => (best && worth(best) >= worth(one) ? best : one), null);
}

// Brings an attempt into sight.
function reveal_attempt(attempt) {
  const length = view.to - view.from, { begin, end } = attempt;
  if (begin < view.from || end > view.to) {
    const middle = end - begin > length ? begin + length * 0.4 : (begin + end) / 2;
    look(middle - length / 2, middle + length / 2);
  }
  const top = attempt.row * lane, room = lanes.clientHeight - AXIS;
  if (top < lanes.scrollTop) lanes.scrollTop = top;
  else if (top + lane > lanes.scrollTop + room) lanes.scrollTop = top + lane - room;
  redraw();
}

function redraw() {
  waiting_frame ||= requestAnimationFrame(() => {
    waiting_frame = 0;
    draw_all();
  });
}

function draw_all() {
  draw_lanes();
  draw_overview();
}

function fit_canvas(target, wide, high) {
  const scale = devicePixelRatio || 1;
  target.width = Math.round(wide * scale);
  target.height = Math.round(high * scale);
  target.style.height = `${high}px`;
  target.style.width = `${wide}px`;
  target.getContext("2d").setTransform(scale, 0, 0, scale, 0, 0);
}

// Gives the timeline its size: no more than its rows need, and never most of the window.
function resize_lanes() {
  const narrow = matchMedia("(max-width: 760px)").matches;
  lane = narrow ? 20 : rows.length <= 8 ? 24 : 20;
  const needed = AXIS + rows.length * lane + 8;
  const most = narrow ? 190 : Math.max(130, Math.round(innerHeight * 0.36));
  lanes.style.height = `${Math.min(needed, most)}px`;
  lanes_space.style.height = `${needed}px`;
  width = lanes.clientWidth;
  height = lanes.clientHeight;
  gutter = gutter_width(narrow);
  if (!width) return;
  fit_canvas(canvas, width, height);
  resize_overview();
  redraw();
}

function gutter_width(narrow) {
  const context = canvas.getContext("2d");
  context.font = FONT;
  const most = narrow ? 92 : 200;
  const room_for = (row) => context.measureText(row.label).width + (row.under ? 26 : 0);
  const widest = Math.max(0, ...rows.slice(0, 500).map(room_for));
  return Math.ceil(Math.min(most, Math.max(narrow ? 50 : 70, widest + 26)));
}

function set_rows(by) {
  rows_by = by;
  for (const button of row_buttons) {
    button.setAttribute("aria-pressed", String(button.dataset.rows === by));
  }
  make_rows();
  const pauses = PAUSES.length ? `, with ${plural(PAUSES.length, "pause")}` : "";
  const counts = `${plural(ATTEMPTS.length, "attempt")} in ${plural(rows.length, "row")}`;
  const told = `${counts} by ${by}, over ${duration(WHOLE / 1.004)}`;
  lanes.setAttribute("aria-label", told + pauses);
  resize_lanes();
  if (chosen) reveal_test(chosen);
}

function reveal_test(test) {
  const last = test.attempts.findLast((one) => one.slices.length);
  if (last) reveal_attempt(last);
  redraw();
}
