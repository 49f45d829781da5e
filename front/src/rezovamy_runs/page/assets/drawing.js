// Draws the timeline on its canvas: pauses, slices, retries, the axis and the names of rows.

const FAMILIES = [
  "system-ui", "-apple-system", '"Segoe UI"', "Roboto", '"Liberation Sans"', "Arial", "sans-serif",
];
const FONT = `11px ${FAMILIES.join(", ")}`;
const COLOURS = [
  "panel", "ink", "muted", "faint", "line", "accent", "on-slice", "on-failed", "pause",
  "pause-line", "edge", "hover",
];
const KINDS_OF_SLICES = ["passed", "script", "flaky", "retried", "unfinished", "failed"];

function read_colours() {
  const style = getComputedStyle(document.documentElement);
  const colour = (name) => style.getPropertyValue(`--${name}`).trim();
  paint = Object.fromEntries(KINDS_OF_SLICES.map((kind) => [kind, colour(`slice-${kind}`)]));
  paint.edges = Object.fromEntries(KINDS_OF_SLICES.map((kind) => [kind, colour(`edge-${kind}`)]));
  for (const name of COLOURS) paint[name] = colour(name);
  paint.strong = colour("failed");
  paint.slow = colour("flaky");
  paint.hatch = hatching();
}

// A pattern of thin slanted lines, in which nothing ran.
function hatching() {
  const tile = document.createElement("canvas");
  const scale = devicePixelRatio || 1, size = 8;
  tile.width = tile.height = size * scale;
  const context = tile.getContext("2d");
  context.scale(scale, scale);
  context.fillStyle = paint.pause;
  context.fillRect(0, 0, size, size);
  context.strokeStyle = paint["pause-line"];
  for (const shift of [-size, 0, size]) {
    context.beginPath();
    context.moveTo(shift, size);
    context.lineTo(shift + size, 0);
    context.stroke();
  }
  const pattern = context.createPattern(tile, "repeat");
  pattern.setTransform(new DOMMatrix().scale(1 / scale));
  return pattern;
}

// Where a row begins on the canvas.
function top_of(row) {
  return AXIS + row * lane - lanes.scrollTop;
}

function draw_lanes() {
  if (!width) return;
  const context = canvas.getContext("2d");
  context.clearRect(0, 0, width, height);
  context.font = FONT;
  context.textBaseline = "middle";
  const first = Math.max(0, Math.floor(lanes.scrollTop / lane));
  const end = Math.min(rows.length, Math.ceil((lanes.scrollTop + height) / lane));
  context.save();
  context.beginPath();
  context.rect(gutter, AXIS, width - gutter, height - AXIS);
  context.clip();
  draw_bands(context, first, end);
  draw_grid(context, first, end);
  draw_pauses(context);
  draw_retries(context, false);
  for (let at = first; at < end; at++) draw_row(context, rows[at], top_of(at));
  draw_retries(context, true);
  draw_chosen(context);
  draw_marks(context);
  draw_selection(context);
  context.restore();
  draw_names(context, first, end);
  draw_axis(context);
}

// Every second row is a band, and so is the time of setup scripts over all rows.
function draw_bands(context, first, end) {
  context.fillStyle = paint.hover;
  for (let at = first; at < end; at++) {
    if (at % 2) context.fillRect(gutter, top_of(at), width - gutter, lane);
  }
  context.fillStyle = paint.script;
  context.globalAlpha = 0.3;
  for (const [from, to] of SCRIPT_TIMES) {
    context.fillRect(x_at(from), AXIS, Math.max(1, x_at(to) - x_at(from)), height);
  }
  context.globalAlpha = 1;
}

function draw_grid(context, first, end) {
  context.fillStyle = paint.line;
  for (const time of ticks()) context.fillRect(Math.round(x_at(time)), AXIS, 1, height);
  for (let at = first; at < end; at++) {
    const top = Math.round(top_of(at));
    if (rows[at].first && at) context.fillRect(gutter, top, width, 1);
  }
}

function draw_pauses(context) {
  for (const [from, to] of PAUSES) {
    const left = x_at(from), right = x_at(to);
    if (right < gutter || left > width) continue;
    context.fillStyle = paint.hatch;
    context.fillRect(left, AXIS, Math.max(1, right - left), height);
    const label = `paused ${duration(to - from)}`;
    const begin = Math.max(left, gutter), room = Math.min(right, width) - begin;
    const needs = context.measureText(label).width + 10;
    if (room < needs) continue;
    const bottom = Math.min(height, top_of(rows.length));
    context.fillStyle = paint.panel;
    context.fillRect(begin + (room - needs) / 2, (AXIS + bottom) / 2 - 8, needs, 16);
    context.fillStyle = paint.muted;
    context.fillText(label, begin + (room - needs) / 2 + 5, (AXIS + bottom) / 2 + 1);
  }
}

// The slices of a row, those that failed last, so that no other one hides them.
function draw_row(context, row, top) {
  const seen = between(row.attempts, view.from, view.to);
  const loud = seen.filter((one) => LOUD[one.kind]);
  for (const one of seen) if (!LOUD[one.kind]) draw_attempt(context, one, top, 0.75);
  for (const one of loud) draw_attempt(context, one, top, 2);
}

function draw_attempt(context, attempt, top, least) {
  const labelled = [];
  for (const [from, to] of attempt.slices) {
    const left = x_at(from), right = Math.max(x_at(to), left + least);
    if (right < gutter || left > width) continue;
    const begin = Math.max(left, gutter - 4), wide = Math.min(right, width + 4) - begin;
    const gap = wide > 4 ? 1 : 0;
    draw_slice(context, attempt.kind, begin, top + 3, wide - gap);
    if (wide > 30) labelled.push([begin, wide]);
  }
  if (ON_PATH.has(attempt)) draw_path(context, attempt, top);
  if (attempt.slow_at) draw_slow(context, attempt, top);
  for (const place of labelled) draw_label(context, attempt, place, top);
}

// A pale slice has a darker edge, which stands out from the ground; one without room for more is
// all edge.
function draw_slice(context, kind, left, top, wide) {
  const high = lane - 6;
  context.fillStyle = paint.edges[kind];
  if (wide <= 4) {
    // On whole pixels no neighbour shines through.
    if (LOUD[kind]) context.fillRect(Math.round(left), top, Math.max(2, Math.round(wide)), high);
    else context.fillRect(left, top, wide, high);
    return;
  }
  fill_round(context, left, top, wide, high, 2.5);
  context.fillStyle = paint[kind];
  fill_round(context, left + 1, top + 1, wide - 2, high - 2, 1.5);
}

function fill_round(context, left, top, wide, high, radius) {
  context.beginPath();
  context.roundRect(left, top, wide, high, Math.min(radius, wide / 2));
  context.fill();
}

// A label starts where the slice can be seen, and ends before the slice does.
function draw_label(context, attempt, [left, wide], top) {
  const begin = Math.max(left, gutter) + 5, room = left + wide - begin - 5;
  const { test: { shown: name }, kind } = attempt;
  const text = attempt.at || kind === "retried" ? `${name} (${attempt.number})` : name;
  const label = fitted(context, text, room);
  if (!label) return;
  context.fillStyle = kind === "failed" ? paint["on-failed"] : paint["on-slice"];
  if (["retried", "unfinished", "flaky"].includes(kind)) context.fillStyle = paint.ink;
  context.fillText(label, begin, top + lane / 2 + 0.5);
}

// As much of a text as fits; of a path its last parts are what tells it.
function fitted(context, text, room) {
  if (room < 18) return "";
  const guess = Math.ceil(room / 4);
  let part = text.length > guess * 2 ? text.slice(-guess * 2) : text;
  if (context.measureText(part).width <= room && part === text) return text;
  const last = text.split("::").at(-1);
  if (context.measureText(last).width <= room) return last;
  part = last.slice(0, guess);
  while (part && context.measureText(`${part}…`).width > room) part = part.slice(0, -1);
  return part.length > 1 ? `${part}…` : "";
}

// A line below what is on the critical path.
function draw_path(context, { slices }, top) {
  context.fillStyle = paint.accent;
  for (const [from, to] of slices) {
    const left = Math.max(gutter, x_at(from)), right = Math.min(width, x_at(to));
    if (right >= left) context.fillRect(left, top + lane - 2, Math.max(1, right - left - 1), 2);
  }
}

// Where the runner said that it is slow.
function draw_slow(context, attempt, top) {
  context.fillStyle = paint.slow;
  for (const time of attempt.slow_at) {
    const x = x_at(time / 1e6);
    context.beginPath();
    context.moveTo(x - 4, top + lane - 2);
    context.lineTo(x + 4, top + lane - 2);
    context.lineTo(x, top + lane - 7);
    context.fill();
  }
}

// An arrow leads from a failed attempt to the one by which it is tried again: behind the slices, or
// before them where it is loud. Where very many are in sight they would hide one another, and only
// the loud ones are drawn.
function draw_retries(context, loud) {
  const is_loud = (one) => one === chosen || one === hovered?.test;
  const tests = RETRIED.filter((one) => is_loud(one) === loud && may_be_seen(one));
  if (tests.length > 400) return;
  for (const test of tests) {
    context.strokeStyle = context.fillStyle = loud ? paint.ink : paint.muted;
    context.lineWidth = loud ? 1.6 : 1;
    test.attempts.slice(1).forEach((to, at) => draw_arrow(context, test.attempts[at], to));
  }
}

function may_be_seen({ attempts, start }) {
  return start <= view.to && attempts.some((one) => one.begin >= view.from);
}

function draw_arrow(context, from, to) {
  if (!from.slices.length || !to.slices.length) return;
  if (to.begin < view.from || from.end > view.to) return;
  // It runs between the rows, so that it strikes no label through. Above the first row the axis
  // would hide it.
  const same = from.row === to.row, down = to.row > from.row || (same && from.row === 0);
  const left = x_at(from.end) - 2, right = x_at(to.begin);
  const bend = Math.max(10, Math.abs(right - left) / 2);
  const begin = top_of(from.row) + (down ? lane - 2 : 2);
  const end = top_of(to.row) + (same === down ? lane - 4 : 4);
  const lift = same ? lane * (down ? -0.4 : 0.4) : 0;
  context.beginPath();
  context.moveTo(left, begin);
  context.bezierCurveTo(left + bend, begin - lift, right - bend, end - lift, right - 3, end);
  context.stroke();
  context.beginPath();
  context.arc(left, begin, 2, 0, 7);
  context.fill();
  context.beginPath();
  context.moveTo(right + 1, end);
  context.lineTo(right - 5, end - 3.5);
  context.lineTo(right - 5, end + 3.5);
  context.fill();
}

function draw_chosen(context) {
  for (const test of new Set([chosen, hovered?.test])) {
    if (!test) continue;
    context.strokeStyle = test === chosen ? paint.accent : paint.muted;
    context.lineWidth = test === chosen ? 2 : 1;
    for (const attempt of test.attempts) {
      const top = top_of(attempt.row);
      for (const [from, to] of attempt.slices) {
        const left = Math.max(x_at(from), gutter - 6), right = Math.min(x_at(to), width + 6);
        context.beginPath();
        context.roundRect(left - 1.5, top + 1.5, Math.max(3, right - left + 2), lane - 3, 3.5);
        if (right > gutter && left < width) context.stroke();
      }
    }
  }
}

// A line where the run was cancelled.
function draw_marks(context) {
  for (const [time] of RUN.marks) {
    const x = Math.round(x_at(time / 1e6)) + 0.5;
    context.strokeStyle = paint.strong;
    context.setLineDash([3, 3]);
    context.lineWidth = 1;
    context.beginPath();
    context.moveTo(x, AXIS);
    context.lineTo(x, height);
    context.stroke();
    context.setLineDash([]);
  }
}

// The words for these lines stand in the axis, where no slice is below them.
function draw_mark_names(context) {
  for (const [time, label] of RUN.marks) {
    const x = x_at(time / 1e6), wide = context.measureText(label).width + 8;
    const left = Math.max(gutter, Math.min(x - wide / 2, width - wide));
    if (x < gutter || x > width) continue;
    context.fillStyle = paint.panel;
    context.fillRect(left, 0, wide, AXIS - 5);
    context.fillStyle = paint.strong;
    context.fillText(label, left + 4, AXIS / 2);
  }
}

function draw_names(context, first, end) {
  context.fillStyle = paint.panel;
  context.fillRect(0, 0, gutter, height);
  context.save();
  context.beginPath();
  context.rect(0, AXIS, gutter - 4, height);
  context.clip();
  for (let at = first; at < end; at++) {
    const row = rows[at], middle = top_of(at + 0.5) + 0.5;
    context.fillStyle = row.first || rows_by === "slot" ? paint.muted : paint.faint;
    const room = gutter - 22 - (row.under ? 24 : 0);
    context.fillText(fitted(context, row.label, room), 16, middle);
    context.fillStyle = paint.faint;
    context.textAlign = "right";
    context.fillText(row.under, gutter - 10, middle);
    context.textAlign = "left";
  }
  context.restore();
  context.fillStyle = paint.line;
  context.fillRect(gutter - 1, 0, 1, height);
}

// Lengths of time in seconds that people take for round.
const ROUND = [1, 2, 5, 10, 15, 30, 60, 120, 300, 600, 900, 1800, 3600, 7200, 14400, 43200];
const DAY = 86400;

// Round times, about a hundred pixels from one to the next.
function ticks() {
  const rough = (view.to - view.from) / Math.max(2, (width - gutter) / 100);
  const tens = 10 ** Math.floor(Math.log10(rough));
  const small = [1, 2, 5, 10].map((one) => one * tens).find((one) => one >= rough * 0.999);
  const large = ROUND.find((one) => one >= rough) ?? Math.ceil(rough / DAY) * DAY;
  const step = rough > 1 ? large : small;
  const first = Math.ceil(view.from / step), found = [];
  for (let at = first; at * step <= view.to; at++) found.push(at * step);
  return found;
}

function tick_label(time, step) {
  if (time === 0) return "0";
  if (step >= 1 && time >= 60) {
    const whole_seconds = Math.round(time), hours = Math.floor(whole_seconds / 3600);
    const two = (number) => String(number).padStart(2, "0");
    const rest = `${two(Math.floor(whole_seconds / 60) % 60)}:${two(whole_seconds % 60)}`;
    return hours ? `${hours}:${rest}` : rest.replace(/^0/, "");
  }
  const [times, unit] = unit_of_ticks(step, time);
  const digits = Math.max(0, Math.ceil(-Math.log10(step * times) - 1e-9));
  return `${(time * times).toFixed(digits)}${unit}`;
}

// How often the unit of a tick stands in a second, and what it is called.
function unit_of_ticks(step, time) {
  const is_fine = step < 0.1 && time < 60;
  if (is_fine && step >= 1e-4 && view.to < 10) return [1e3, "ms"];
  return is_fine && view.to < 0.01 ? [1e6, "µs"] : [1, "s"];
}

function draw_axis(context) {
  context.fillStyle = paint.panel;
  context.fillRect(gutter, 0, width, AXIS);
  const times = ticks(), step = times.length > 1 ? times[1] - times[0] : view.to - view.from;
  context.fillStyle = paint.faint;
  for (const time of times) {
    const label = tick_label(time, step), x = x_at(time);
    if (x + context.measureText(label).width + 4 < width) context.fillText(label, x + 4, AXIS / 2);
    context.fillRect(Math.round(x), AXIS - 5, 1, 5);
  }
  draw_mark_names(context);
  context.fillStyle = paint.line;
  context.fillRect(0, AXIS - 1, width, 1);
}
