// How the slots of the run were used, and which attempts its length hangs on.

const MOST_SLOTS = 20;
const LONGEST_ON_PATH = 5;
const PATH = critical_path();
const ON_PATH = new Set(PATH);

// In the page of a group a slot has the time of its own run.
function time_of_slot(slot) {
  const band = band_of(slot);
  if (!band) return { from: 0, to: RUN.end / 1e6 };
  const own = ATTEMPTS.filter((one) => !one.is_script && band_of(one.slot) === band);
  return {
    from: own.reduce((least, { begin }) => Math.min(least, begin), Infinity),
    to: own.reduce((most, { end }) => Math.max(most, end), 0),
  };
}

// How long an attempt ran, without pauses.
function active_time({ slices }) {
  return slices.reduce((sum, [from, to]) => sum + to - from, 0);
}

// How long each slot was busy, paused and idle, as the program's `slots` has it.
function uses_of_slots() {
  const busy_times = new Map();
  for (const attempt of ATTEMPTS.filter((one) => !one.is_script)) {
    const before_it = busy_times.get(attempt.slot) ?? 0;
    busy_times.set(attempt.slot, before_it + active_time(attempt));
  }
  return [...SLOTS].sort((one, other) => one - other).map((slot) => {
    const time = time_of_slot(slot), paused = shared_time(PAUSES, time);
    const busy = busy_times.get(slot), idle = Math.max(0, time.to - time.from - paused - busy);
    return { slot, busy, paused, idle };
  });
}

// Goes back from the attempt that ended last to those that had to end before it could start.
function critical_path() {
  const by_end = [...ATTEMPTS].sort((one, other) => one.end - other.end || one.begin - other.begin);
  const on_slots = new Map();
  by_end.forEach((one, at) => {
    one.rank = at;
    if (one.is_script) return;
    if (!on_slots.has(one.slot)) on_slots.set(one.slot, []);
    on_slots.get(one.slot).push(one);
  });
  const found = [];
  for (let at = by_end.at(-1); at; at = waited_for(at, on_slots, by_end)) found.push(at);
  return found.reverse();
}

// What an attempt waited for: the attempt of its test that failed, or the one on its slot, or else
// what ended last. Runs of a group don't wait for each other.
function waited_for(attempt, on_slots, by_end) {
  const own = attempt.test.attempts[attempt.at - 1];
  if (own?.slices.length && own.rank < attempt.rank) return own;
  const same = attempt.is_script ? undefined : ended_before(attempt, on_slots.get(attempt.slot));
  return same ?? (RUN.bands.length ? undefined : ended_before(attempt, by_end));
}

// The last that had ended when an attempt began, of attempts in the order of their ends.
function ended_before({ begin, rank }, attempts) {
  let low = 0, high = attempts.length;
  while (low < high) {
    const middle = (low + high) >> 1;
    if (attempts[middle].end <= begin && attempts[middle].rank < rank) low = middle + 1;
    else high = middle;
  }
  return attempts[low - 1];
}

function table_of_slots(uses) {
  const head = element("thead", "", element("tr", "",
    ...["Slot", "busy", "paused", "idle"].map(head_of_column)));
  const lines = uses.slice(0, MOST_SLOTS).map(({ slot, busy, paused, idle }) => {
    const times = [busy, paused, idle].map((time) => element("td", "", duration(time)));
    return element("tr", "", element("td", "", slot_text(slot)), ...times);
  });
  const table = element("table", "", head, element("tbody", "", ...lines));
  return element("div", "wide-table", table);
}

function slots_part() {
  const uses = uses_of_slots();
  if (!uses.length) return "";
  const sum = (name) => uses.reduce((all, use) => all + use[name], 0);
  const busy = sum("busy"), idle = sum("idle"), left = uses.length - MOST_SLOTS;
  const share = busy + idle > 0 ? Math.round((100 * busy) / (busy + idle)) : 0;
  const told = `Busy ${duration(busy)}, idle ${duration(idle)}: ${share}% busy outside of pauses.`;
  return element("section", "slots", element("h3", "", plural(uses.length, "slot")),
    element("p", "told", told), table_of_slots(uses),
    left > 0 ? element("p", "more", `${plural(left, "slot")} more aren't shown`) : "");
}

function path_part() {
  if (!PATH.length) return "";
  const took = PATH.reduce((sum, one) => sum + active_time(one), 0);
  const tests = [...new Set(PATH.map((one) => one.test))].sort(ORDERS.slowest);
  const run = duration(RUN.end / 1e6 - shared_time(PAUSES, { from: 0, to: RUN.end / 1e6 }));
  const told = `${plural(PATH.length, "attempt")}, each of which waited for the one before, took `
    + `${duration(took)} of ${run}. The run gets shorter only if these do; its longest tests:`;
  return element("section", "path", element("h3", "", "Critical path"), element("p", "told", told),
    items_of(tests.slice(0, LONGEST_ON_PATH), () => ({ bar: true })));
}
