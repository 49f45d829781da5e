// Draws the grid's cells on its canvas: a colour and a mark for each verdict, the commits above
// them, and the times of each test as a line.

const canvas = document.getElementById("cells");
const FONT = '11px system-ui, -apple-system, "Segoe UI", "Liberation Sans", Arial, sans-serif';
const COLOURS = [
  "panel", "ink", "muted", "faint", "line", "accent", "hover", "chosen", "on-failed", "on-slice",
];
let paint = {};

function read_colours() {
  const style = getComputedStyle(document.documentElement);
  const colour = (name) => style.getPropertyValue(`--${name}`).trim();
  paint = Object.fromEntries(COLOURS.map((name) => [name, colour(name)]));
  paint.ground = {
    passed: colour("slice-passed"), flaky: colour("slice-flaky"), failed: colour("slice-failed"),
    unfinished: colour("slice-unfinished"), skipped: colour("hover"),
  };
  paint.edge = Object.fromEntries(Object.keys(paint.ground).map((verdict) => (
    [verdict, colour(verdict === "skipped" ? "edge" : `edge-${verdict}`)])));
}

function fit_canvas({ wide, high }) {
  const scale = devicePixelRatio || 1;
  canvas.width = Math.round(wide * scale);
  canvas.height = Math.round(high * scale);
  canvas.style.width = `${wide}px`;
  canvas.style.height = `${high}px`;
  const context = canvas.getContext("2d");
  context.setTransform(scale, 0, 0, scale, 0, 0);
  context.font = FONT;
  context.textBaseline = "middle";
  return context;
}

function clipped(context, left, top, wide, high, draw) {
  context.save();
  context.beginPath();
  context.rect(left, top, wide, high);
  context.clip();
  draw();
  context.restore();
}

function draw_cells() {
  const { wide, high } = sight();
  if (!wide || !high) return;
  const context = fit_canvas({ wide, high }), [first, end] = rows_in_sight();
  clipped(context, gutter(), 0, wide, high, () => draw_commits(context, wide, high));
  clipped(context, 0, HEAD, wide, high, () => {
    if (is_listed(chosen)) draw_band(context, chosen.row, paint.chosen, wide);
    clipped(context, gutter(), 0, wide, high, () => {
      for (let row = first; row < end; row++) draw_row(context, row);
      draw_cursor(context);
    });
    if (trend_wide) for (let row = first; row < end; row++) draw_trend(context, row);
  });
  context.fillStyle = paint.line;
  context.fillRect(0, HEAD - 1, wide, 1);
  context.fillRect(gutter() - 1, 0, 1, high);
}

function draw_band(context, row, colour, wide) {
  context.fillStyle = colour;
  context.fillRect(0, y_of(row), wide, row_high);
}

// Every second commit is a band, with its name above its first run; a run without one has its day.
function draw_commits(context, wide, high) {
  const [first, end] = columns_in_sight();
  let band = false;
  for (let at = 0; at < end; at++) {
    const is_new = at === 0 || runs[at].code !== runs[at - 1].code;
    band = is_new ? !band : band;
    if (at < first - 4) continue;
    if (band) {
      context.fillStyle = paint.hover;
      context.fillRect(x_of(at), 0, cell_wide, high);
    }
    if (is_new) draw_commit(context, runs[at], x_of(at));
  }
}

function draw_commit(context, { commit, when }, left) {
  context.save();
  context.translate(left + cell_wide / 2, HEAD - 6);
  context.rotate(-Math.PI / 2);
  context.fillStyle = commit ? paint.muted : paint.faint;
  context.fillText(commit ?? when.slice(5, 10), 0, 0);
  context.restore();
}

function draw_row(context, row) {
  const [first, end] = columns_in_sight(), test = tests[row], top = y_of(row);
  for (let at = Math.max(0, first); at < end; at++) {
    const verdict = verdict_of(test, runs[at]);
    if (verdict) draw_cell(context, verdict, x_of(at), top);
  }
}

const SOFT_MARK = "·";

function draw_cell(context, verdict, left, top) {
  const wide = cell_wide - 2, high = row_high - 4;
  const is_soft = verdict === "passed" || verdict === "failed", edge = is_soft ? 0 : 1;
  context.fillStyle = paint.edge[verdict];
  if (!is_soft) context.fillRect(left + 1, top + 2, wide, high);
  context.fillStyle = paint.ground[verdict];
  context.fillRect(left + 1 + edge, top + 2 + edge, wide - 2 * edge, high - 2 * edge);
  const mark = verdict === "passed" ? SOFT_MARK : STATES[verdict].mark;
  context.fillStyle = verdict === "failed" ? paint["on-failed"] : paint.ink;
  context.textAlign = "center";
  context.fillText(mark, left + cell_wide / 2, top + row_high / 2 + 0.5);
  context.textAlign = "left";
}

function draw_trend(context, row) {
  const top = y_of(row) + 4, left = names_wide + 6, wide = trend_wide - 14, high = row_high - 8;
  const points = thinned(trend(tests[row], wide, high), wide / 3);
  if (points.length < 2) return;
  context.strokeStyle = paint.muted;
  context.lineWidth = 1;
  context.beginPath();
  for (const { x, y } of points) context.lineTo(left + x, top + y);
  context.stroke();
}

// Lines around the cell that is chosen and the one below the mouse.
function draw_cursor(context) {
  const hover = hovered && is_listed(hovered.test) ? [[hovered, paint.muted, 1]] : [];
  const cursor = is_listed(chosen) && chosen_run
    ? [[{ test: chosen, run: chosen_run }, paint.accent, 2]] : [];
  for (const [{ test, run }, colour, thick] of [...hover, ...cursor]) {
    const column = runs.indexOf(run);
    if (column < 0) continue;
    context.strokeStyle = colour;
    context.lineWidth = thick;
    context.strokeRect(x_of(column) + 0.5, y_of(test.row) + 1.5, cell_wide - 1, row_high - 3);
  }
}

function draw_legend() {
  const there = new Set(TESTS.flatMap((test) => [...new Set(test.marks)]));
  const items = Object.entries(VERDICTS).filter(([mark]) => there.has(mark)).map(([, verdict]) => {
    const word = verdict === "flaky" ? "failed, then passed" : STATES[verdict].word;
    const mark = element("i", `is-cell-${verdict}`,
      verdict === "passed" ? SOFT_MARK : STATES[verdict].mark);
    mark.setAttribute("aria-hidden", "true");
    return element("li", "", mark, word);
  });
  document.getElementById("legend").replaceChildren(...items);
}
