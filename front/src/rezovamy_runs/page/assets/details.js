// What is known of the test that is chosen: its attempts in their order, with what each printed.

const details = document.getElementById("details");
const MOST_SHOWN = 40_000;

const ENDINGS = {
  pass: "passed", leak: "passed, with a leak", "leak-fail": "failed for a leak", fail: "failed",
  abort: "aborted", timeout: "timed out", "timeout-pass": "passed at its timeout",
  "exec-fail": "could not be started", unfinished: "never ended",
};

function ending_of(attempt) {
  const ending = ENDINGS[attempt.result] ?? attempt.result;
  return attempt.detail ? `${ending}, ${attempt.detail}` : ending;
}

function tries_of(attempt) {
  const most = Math.max(attempt.total, attempt.test.attempts.length);
  return most > 1 ? `attempt ${attempt.number} of ${most}` : "";
}

function result_state({ kind }) {
  return { retried: "failed", script: "passed", flaky: "passed" }[kind] ?? kind;
}

// Of several slices a pause cut the attempt: the time between them isn't part of it.
function times_of(attempt) {
  if (!attempt.slices.length) return "";
  const [, ...later] = attempt.slices;
  const gaps = later.reduce((sum, [from], at) => sum + from - attempt.slices[at][1], 0);
  return `from ${duration(attempt.begin)}${gaps > 0 ? `, without ${duration(gaps)} of pause` : ""}`;
}

function attempt_card(attempt) {
  const card = element("article", "attempt");
  card.id = `attempt-${attempt.at}`;
  const title = tries_of(attempt) || (attempt.is_script ? "its run" : "attempt");
  const also = [
    attempt.seconds === undefined ? "" : duration(attempt.seconds),
    times_of(attempt),
    attempt.slot === undefined || attempt.is_script ? "" : slot_text(attempt.slot),
    attempt.slow ? "slow" : "",
  ];
  card.append(element("header", "",
    element("h3", "", title[0].toUpperCase() + title.slice(1)),
    element("span", `result is-${result_state(attempt)}`, ending_of(attempt)),
    ...also.filter(Boolean).map((one) => element("span", "also", one)),
    link_to_attempt(attempt),
  ));
  if (attempt.error) {
    const error = element("div", "error mono", safe_nodes(attempt.error, sought_in_outputs()));
    card.append(link_sources(error));
  }
  for (const [stream, at] of attempt.outputs) card.append(output_part(stream, OUTPUTS[at]));
  const silence = silence_of(attempt);
  if (silence) card.append(element("p", "none", silence));
  return card;
}

// The only attempt of a test has the link of the test.
function link_to_attempt(attempt) {
  const { test, number } = attempt;
  if (test.attempts.length < 2) return "";
  return link_button(`attempt ${number}`, () => words_for_test(test, attempt));
}

function silence_of(attempt) {
  if (attempt.result === "unfinished") return "What it printed isn't known.";
  if (!attempt.outputs.length) return "No output was kept.";
  return attempt.outputs.every(([, at]) => !OUTPUTS[at].size) ? "It printed nothing." : "";
}

function sought_in_outputs() {
  return in_outputs.checked ? sought() : "";
}

const STREAMS = { stdout: "Standard output", stderr: "Standard error", combined: "Output" };

function output_part(stream, output) {
  if (!output.size) return "";
  const part = element("details", "output");
  part.setAttribute("aria-label", STREAMS[stream]);
  part.open = true;
  const lines = output.text.split("\n").length - (output.text.endsWith("\n") ? 1 : 0);
  const told = bytes(output.size) + (output.note ? "" : `, ${plural(lines, "line")}`);
  const summary = element("summary", "", element("b", "", STREAMS[stream]), told);
  if (output.text) {
    const label = `Copy ${STREAMS[stream].toLowerCase()}`;
    summary.append(copy_button("Copy", label, () => clean(output.text)));
  }
  part.append(summary);
  if (output.text) {
    const text = element("pre", "", ...shown_nodes(output.text));
    link_sources(text);
    text.tabIndex = 0;
    text.setAttribute("aria-label", STREAMS[stream]);
    part.append(text);
  }
  if (output.note) part.append(element("p", "note", output.note));
  return part;
}

// A long text is drawn from its begin and its end, until all of it is asked for.
function shown_nodes(text) {
  const nodes = (part) => safe_nodes(part, sought_in_outputs());
  if (text.length <= MOST_SHOWN) return [nodes(text)];
  const begin = character_before(text, MOST_SHOWN / 2);
  const end = character_before(text, text.length - MOST_SHOWN / 2);
  const button = element("button", "quiet all", `Show ${whole(end - begin)} characters more`);
  button.type = "button";
  button.addEventListener("click", () => button.parentElement.replaceChildren(nodes(text)));
  return [nodes(text.slice(0, begin)), button, nodes(text.slice(end))];
}

// The place, or the one before it where a pair of surrogates stands across it.
function character_before(text, place) {
  return /[\ud800-\udbff]/.test(text[place - 1]) ? place - 1 : place;
}

// A text as it is safe to paste into a terminal: without colours, with what could do harm spelled.
function clean(text) {
  return text.replace(SPECIAL, (part, colour) => (colour === undefined ? spelled(part) : ""));
}

function back_button() {
  const narrow = element("span", "only-narrow", "← Tests");
  const wide = element("span", "only-wide", "← Overview");
  const button = element("button", "quiet back", narrow, wide);
  button.type = "button";
  button.addEventListener("click", back_to_run);
  return button;
}

// A word as a shell reads it.
function quoted(word) {
  return /^[\w@%+=:,./-]+$/.test(word) ? word : `'${word.replaceAll("'", `'"'"'`)}'`;
}

// The command that runs a test alone, nothing if cargo has no words for it.
function command_for({ name, binary }) {
  const command = RUN.commands[binary];
  if (!command || SPECIAL_TEXT.test(name)) return "";
  if (command.whole || command.own?.includes(name)) return command.words;
  return `${command.words} -- --exact ${name.startsWith("-") ? "-- " : ""}${quoted(name)}`;
}

function command_part(words) {
  const button = copy_button("Copy", "Copy the command that runs this test", () => words);
  return element("div", "command", element("code", "", words), button);
}

function draw_test(test) {
  const link = link_button("this test", () => words_for_test(test));
  const name = element("span", "", safe_nodes(test.name));
  const head = element("div", "test-head", element("h2", "", state_mark(test.end), name), link);
  const facts = [
    test.place, STATES[test.end === "script" ? "passed" : test.end].word, time_of(test),
    test.flaky_fails ? "passing at a later attempt counts as a failure" : "",
    test.quarantine ?? "", test.command ?? "",
  ];
  const spans = facts.filter(Boolean).map((one) => element("span", "", safe_nodes(one)));
  const parts = [back_button(), head, element("p", "under", ...spans)];
  if (test.reason) parts.push(element("p", "under", `Skipped: ${test.reason}.`));
  if (command_for(test)) parts.push(command_part(command_for(test)));
  if (past_part(test)) parts.push(past_part(test));
  details.replaceChildren(...parts, ...test.attempts.map((one) => attempt_card(one)));
  details.scrollTop = 0;
}
