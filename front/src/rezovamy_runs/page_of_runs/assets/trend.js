// How long a test took from run to run, as a line.

// The points of a line over runs, from the left and from the top, in a box of this size. A run in
// which the test didn't pass has none.
function trend(test, wide, high) {
  const times = times_of(test), { longest } = sum_of(test);
  const step = wide / Math.max(1, runs.length - 1);
  return runs.map((run, at) => (
    { run, x: at * step, y: high * (1 - times[run.at] / Math.max(longest, 1e-9)) }))
    .filter(({ run }) => is_good(test, run));
}

// No more than so many points, each the one in the middle of several.
function thinned(points, most) {
  const size = Math.ceil(points.length / most), found = [];
  for (let at = 0; at < points.length; at += size) {
    const some = points.slice(at, at + size), middle = some[some.length >> 1];
    const heights = some.map(({ y }) => y).sort((one, other) => one - other);
    found.push({ x: middle.x, y: median(heights) });
  }
  return found;
}

const SVG = "http://www.w3.org/2000/svg";
const TREND_WIDE = 320, TREND_HIGH = 64;

function drawn(name, attributes) {
  const made = document.createElementNS(SVG, name);
  for (const [key, value] of Object.entries(attributes)) made.setAttribute(key, value);
  return made;
}

// The line of a test in its details; the run that is chosen is marked.
function trend_part(test, chosen_run) {
  const points = trend(test, TREND_WIDE, TREND_HIGH), { usual, shortest, longest } = sum_of(test);
  if (points.length < 2) return "";
  const last = times_of(test)[points.at(-1).run.at];
  const told = `It takes ${duration(usual)} usually, from ${duration(shortest)} to `
    + `${duration(longest)}; last ${duration(last)}.`;
  const image = drawn("svg", {
    viewBox: `-4 -4 ${TREND_WIDE + 8} ${TREND_HIGH + 8}`, class: "trend", role: "img",
    "aria-label": `Times from run to run. ${told}`,
  });
  const ground = { x1: 0, y1: TREND_HIGH, x2: TREND_WIDE, y2: TREND_HIGH, class: "ground" };
  const places = points.map(({ x, y }) => `${x.toFixed(1)},${y.toFixed(1)}`).join(" ");
  image.append(drawn("line", ground), drawn("polyline", { points: places }));
  const marked = points.find(({ run }) => run === chosen_run);
  if (marked) image.append(drawn("circle", { cx: marked.x, cy: marked.y, r: 3.5 }));
  const title = element("h3", "", "Times");
  return element("section", "", title, element("p", "told", told), image);
}
