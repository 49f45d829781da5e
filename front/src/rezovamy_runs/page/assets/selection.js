// The stretch of time that is selected in the timeline, and what ran in it.

const selected_bar = document.getElementById("selected");
const SLOTS = new Set(ATTEMPTS.filter((one) => !one.is_script).map((one) => one.slot));
let selection = null;

function select(stretch) {
  selection = stretch;
  selected_bar.hidden = !stretch;
  if (stretch) document.getElementById("selected-sum").textContent = words_for_sum(stretch);
  redraw();
}

// How much of some slices lies in a stretch of time.
function shared_time(slices, { from, to }) {
  return slices.reduce(
    (sum, [begin, end]) => sum + Math.max(0, Math.min(end, to) - Math.max(begin, from)), 0);
}

// Whether some of an attempt is in a stretch; one that only touches it isn't.
function is_in({ slices }, { from, to }) {
  return slices.some(([begin, end]) => (begin < to && from < end)
    || (begin === end && from <= begin && begin <= to));
}

function sum_of(stretch) {
  const attempts = ATTEMPTS.filter((one) => !one.is_script && is_in(one, stretch));
  const busy = attempts.reduce((sum, { slices }) => sum + shared_time(slices, stretch), 0);
  const room = (stretch.to - stretch.from - shared_time(PAUSES, stretch)) * SLOTS.size;
  return {
    tests: new Set(attempts.map((one) => one.test)).size,
    busy,
    share: room > 0 ? Math.round(100 * Math.min(1, busy / room)) : 0,
    count: (kind) => attempts.filter((one) => one.kind === kind).length,
  };
}

function words_for_sum(stretch) {
  const { tests, busy, share, count } = sum_of(stretch), { from, to } = stretch;
  const retried = count("retried"), unfinished = count("unfinished");
  const ends = [
    count("failed") ? `${whole(count("failed"))} failed` : "",
    retried ? `${plural(retried, "failed attempt")} tried again` : "",
    unfinished ? `${whole(unfinished)} never ended` : "",
  ];
  const ran = [`${plural(tests, "test")} ran`, ...ends.filter(Boolean)].join(", ");
  const used = SLOTS.size ? `, ${share}% of ${plural(SLOTS.size, "slot")}` : "";
  const when = `${duration(from)} to ${duration(to)}, ${duration(to - from)}`;
  return `${when}: ${ran}; ${duration(busy)} of tests${used}`;
}

function draw_selection(context) {
  if (!selection) return;
  const left = Math.max(gutter, x_at(selection.from)), right = Math.min(width, x_at(selection.to));
  if (right < left) return;
  context.fillStyle = paint.accent;
  context.globalAlpha = 0.12;
  context.fillRect(left, 0, right - left, height);
  context.globalAlpha = 1;
  context.fillRect(left, 0, 1, height);
  context.fillRect(right - 1, 0, 1, height);
}

// Selects the time between two places of the canvas.
function select_between(one, other) {
  const [from, to] = [one, other].map((x) => Math.max(0, Math.min(WHOLE, time_at(x))))
    .sort((first, second) => first - second);
  select(to > from ? { from, to } : null);
}

function start_selection() {
  const nearer = document.getElementById("selected-nearer");
  const clear = document.getElementById("selected-clear");
  nearer.addEventListener("click", () => look(selection.from, selection.to));
  clear.addEventListener("click", () => { select(null); lanes.focus(); });
}
