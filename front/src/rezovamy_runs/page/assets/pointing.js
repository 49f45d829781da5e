// The strip above the timeline, which shows the whole run; and mouse, touch and keys in both.

const overview = document.getElementById("overview");
const tip = document.getElementById("tip");
const STRIP = 26;
const SCRIPT_TIMES = ATTEMPTS.filter((one) => one.is_script).flatMap((one) => one.slices);
let running = [];

// How many tests ran in each piece of the run, a piece for two pixels.
function count_running(pieces) {
  const sums = new Float64Array(pieces + 1), length = WHOLE / pieces;
  for (const attempt of ATTEMPTS) {
    for (const [from, to] of attempt.slices) {
      const first = Math.max(0, Math.floor(from / length));
      const last = Math.min(pieces - 1, Math.floor(to / length));
      for (let at = first; at <= last; at++) {
        const shared = Math.min(to, (at + 1) * length) - Math.max(from, at * length);
        sums[at] += Math.max(0, shared) / length;
      }
    }
  }
  return Array.from(sums.subarray(0, pieces));
}

function resize_overview() {
  fit_canvas(overview, width, STRIP);
  overview.style.width = "100%";
  running = count_running(Math.max(10, Math.floor((width - gutter) / 2)));
}

function strip_x(time) {
  return gutter + time / WHOLE * (width - gutter);
}

function draw_overview() {
  if (!width) return;
  const context = overview.getContext("2d");
  const most = Math.max(1, ...running), piece = (width - gutter) / running.length;
  context.clearRect(0, 0, width, STRIP);
  running.forEach((count, at) => {
    const high = count / most * (STRIP - 8), left = gutter + at * piece;
    context.fillStyle = paint.line;
    context.fillRect(left, STRIP - 3 - high, piece + 0.5, high);
    context.fillStyle = paint.edge;
    if (count) context.fillRect(left, STRIP - 3 - high, piece + 0.5, 1);
  });
  draw_strip_bands(context);
  draw_strip_marks(context);
  context.fillStyle = paint.faint;
  context.font = FONT;
  context.textBaseline = "middle";
  if (gutter >= 70) context.fillText("running", 16, STRIP / 2 + 2);
  if (view.to - view.from < WHOLE * 0.999) draw_window(context);
}

// Pauses are hatched, as below, and setup scripts and the selected time have their colours.
function draw_strip_bands(context) {
  const band = (from, to, style, alpha) => {
    context.globalAlpha = alpha;
    context.fillStyle = style;
    context.fillRect(strip_x(from), 2, Math.max(1, strip_x(to) - strip_x(from)), STRIP - 5);
    context.globalAlpha = 1;
  };
  for (const [from, to] of PAUSES) band(from, to, paint.hatch, 1);
  for (const [from, to] of SCRIPT_TIMES) band(from, to, paint.edges.script, 0.3);
  if (selection) band(selection.from, selection.to, paint.accent, 0.25);
}

// Retries come first, so that no mark hides that of a failure, which is as high as the strip.
function draw_strip_marks(context) {
  for (const kind of ["retried", "unfinished", "failed"]) {
    context.fillStyle = kind === "failed" ? paint.strong : paint.edges[kind];
    const high = kind === "failed" ? STRIP - 5 : 7;
    for (const { slices } of ATTEMPTS.filter((one) => one.kind === kind)) {
      for (const [from, to] of slices) {
        const left = Math.round(strip_x(from)), wide = Math.round(strip_x(to)) - left;
        if (wide > 6) context.fillRect(left, STRIP - 3 - high, wide, 5);
        else context.fillRect(left, STRIP - 3 - high, 2, high);
      }
    }
  }
}

function draw_window(context) {
  const left = strip_x(view.from), right = Math.max(strip_x(view.to), left + 3);
  context.globalAlpha = 0.12;
  context.fillStyle = paint.accent;
  context.fillRect(left, 1, right - left, STRIP - 2);
  context.globalAlpha = 1;
  context.strokeStyle = paint.accent;
  context.lineWidth = 1;
  context.strokeRect(left + 0.5, 1.5, right - left - 1, STRIP - 3);
}

function show_tip(attempt, x, y) {
  tip.hidden = !attempt;
  if (!attempt) return;
  const { test } = attempt;
  const cut = attempt.slices.length > 1 ? "cut by a pause" : "";
  const told = [test.place, ending_of(attempt), duration(attempt.seconds), tries_of(attempt), cut];
  const under = element("span", "", safe_nodes(told.filter(Boolean).join(" · ")));
  tip.replaceChildren(element("b", "", test.shown), under);
  const room = lanes.parentElement.clientWidth, top = lanes.offsetTop + y + 18;
  tip.style.left = `${Math.max(4, Math.min(x + 12, room - tip.offsetWidth - 8))}px`;
  tip.style.top = `${top}px`;
}

function place_in(event, target) {
  const box = target.getBoundingClientRect();
  return [event.clientX - box.left, event.clientY - box.top];
}

function hover(event) {
  const [x, y] = place_in(event, canvas), found = attempt_at(x, y);
  if (found !== hovered) {
    hovered = found;
    canvas.style.cursor = found ? "pointer" : "default";
    redraw();
  }
  show_tip(found, x, y);
}

function leave() {
  hovered = null;
  tip.hidden = true;
  redraw();
}

// A drag with the mouse selects time; by touch or with Shift it moves what is seen. A press without
// a drag chooses.
function drag_from(event) {
  if (event.button) return;
  const from = { x: event.clientX, view: { ...view } };
  const moves = event.pointerType === "touch" || event.shiftKey;
  const { left } = canvas.getBoundingClientRect();
  let moved = false;
  const move = (later) => {
    const shift = later.clientX - from.x;
    moved ||= Math.abs(shift) > 4;
    if (!moved) return;
    show_tip(null);
    if (moves) move_view(from.view, shift);
    else select_between(from.x - left, later.clientX - left);
  };
  const up = (later) => {
    canvas.removeEventListener("pointermove", move);
    if (!moved && later.type === "pointerup") press(later);
  };
  canvas.setPointerCapture(event.pointerId);
  canvas.addEventListener("pointermove", move);
  canvas.addEventListener("pointerup", up, { once: true });
  canvas.addEventListener("pointercancel", up, { once: true });
}

function move_view(from, shift) {
  const by = -shift / (width - gutter) * (from.to - from.from);
  look(from.from + by, from.to + by);
}

function press(event) {
  const found = attempt_at(...place_in(event, canvas));
  if (!found) return;
  cursor = found;
  choose(found.test, { from: "timeline", attempt: found });
}

// With Ctrl, or where there is nothing to scroll, the wheel zooms; sideways it moves.
function wheel(event) {
  const step = event.deltaMode === 1 ? 16 : 1, [x] = place_in(event, canvas);
  if (Math.abs(event.deltaX) > Math.abs(event.deltaY) || event.shiftKey) {
    const by = (event.deltaX || event.deltaY) * step / (width - gutter) * (view.to - view.from);
    look(view.from + by, view.to + by);
  } else if (event.ctrlKey || event.metaKey || nothing_scrolls()) {
    zoom(Math.exp(event.deltaY * step * 0.0025), Math.max(gutter, x));
  } else return;
  event.preventDefault();
}

function nothing_scrolls() {
  const page = document.documentElement;
  return lanes.scrollHeight <= lanes.clientHeight + 1 && page.scrollHeight <= innerHeight;
}

function strip_move(event) {
  const [x] = place_in(event, overview);
  const middle = (x - gutter) / (width - gutter) * WHOLE, half = (view.to - view.from) / 2;
  look(middle - half, middle + half);
}

// The attempt beside the one with the cursor in its row, or the one nearest in time in another row.
function beside(key) {
  if (!rows.length) return null;
  if (!cursor) return rows[0].attempts.find((one) => one.end >= view.from) ?? rows[0].attempts[0];
  const { attempts } = rows[cursor.row], at = attempts.indexOf(cursor);
  if (key === "ArrowRight") return attempts[at + 1] ?? null;
  if (key === "ArrowLeft") return attempts[at - 1] ?? null;
  const other = rows[cursor.row + (key === "ArrowDown" ? 1 : -1)];
  if (!other) return null;
  const middle = (cursor.begin + cursor.end) / 2;
  return other.attempts[Math.min(first_after(other.attempts, middle), other.attempts.length - 1)];
}

// Moves to the attempt beside the one with the cursor, and tells what it is.
function step_lanes(key) {
  const next = beside(key);
  if (!next) return;
  cursor = next;
  choose(next.test, { from: "timeline", attempt: next, quiet: true });
  reveal_attempt(next);
  const { label, under } = rows[next.row];
  const place = `${next.test.shown}, ${shown(next.test.place)}`;
  announce(`${place}, ${ending_of(next)}, ${duration(next.seconds)}, ${label} ${under}`);
}

function lanes_key(event) {
  if (event.altKey || event.ctrlKey || event.metaKey) return;
  if (event.key === "+" || event.key === "=") zoom(0.6);
  else if (event.key === "-" || event.key === "_") zoom(1 / 0.6);
  else if (event.key === "0" || event.key === "Home") look(0, WHOLE);
  else if (event.key === "s") select({ ...view });
  else if (event.key.startsWith("Arrow")) step_lanes(event.key);
  else if (event.key === "Enter" && chosen) open_details();
  else return;
  event.preventDefault();
}

function start_timeline() {
  read_colours();
  // At once, since a page that is printed has no next frame.
  document.addEventListener("theme", () => { read_colours(); draw_all(); });
  document.addEventListener("resized", resize_lanes);
  new ResizeObserver(resize_lanes).observe(lanes.parentElement);
  addEventListener("resize", resize_lanes);
  lanes.addEventListener("scroll", redraw, { passive: true });
  canvas.addEventListener("pointermove", hover);
  canvas.addEventListener("pointerleave", leave);
  canvas.addEventListener("pointerdown", drag_from);
  canvas.addEventListener("dblclick", (event) => {
    const found = attempt_at(...place_in(event, canvas));
    const beside = found ? (found.end - found.begin) * 0.25 : 0;
    if (found) look(found.begin - beside, found.end + beside);
  });
  canvas.addEventListener("wheel", wheel, { passive: false });
  overview.addEventListener("pointerdown", (event) => {
    overview.setPointerCapture(event.pointerId);
    strip_move(event);
  });
  overview.addEventListener("pointermove", (event) => { if (event.buttons) strip_move(event); });
  lanes.addEventListener("keydown", lanes_key);
  start_buttons();
  start_selection();
  draw_legend();
  set_rows("slot");
}

function start_buttons() {
  const words = () => words_for_stretch(selection ?? view);
  const link = link_button("this stretch of the timeline", words);
  document.getElementById("time-link").append(link);
  for (const button of row_buttons) {
    button.addEventListener("click", () => set_rows(button.dataset.rows));
  }
  const zooms = { in: () => zoom(0.5), out: () => zoom(2), fit: () => look(0, WHOLE) };
  for (const button of document.querySelectorAll("[data-zoom]")) {
    button.addEventListener("click", zooms[button.dataset.zoom]);
  }
}

function draw_legend() {
  const words = {
    failed: "failed", retried: "failed, tried again", flaky: "passed when tried again",
    passed: "passed", unfinished: "never ended", script: "setup script",
  };
  const there = new Set(ATTEMPTS.map((attempt) => attempt.kind));
  const used = Object.keys(words).filter((kind) => there.has(kind));
  const items = used.map((kind) => [kind, words[kind]]);
  if (PAUSES.length) items.push(["pause", "pause"]);
  if (PATH.length) items.push(["path", "critical path"]);
  document.getElementById("legend").replaceChildren(...items.map(([kind, word]) => {
    const swatch = element("i", `slice-${kind}`);
    if (words[kind]) {
      swatch.style.background = `var(--slice-${kind})`;
      swatch.style.borderColor = `var(--edge-${kind})`;
    }
    return element("li", "", swatch, word);
  }));
}
