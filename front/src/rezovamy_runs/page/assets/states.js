// How a test ended: its mark, its word, and the order in which a reader asks for it.

const STATES = {
  failed: { mark: "✕", word: "failed", rank: 0 },
  unfinished: { mark: "◌", word: "unfinished", rank: 1 },
  "not-started": { mark: "○", word: "never started", rank: 2 },
  flaky: { mark: "↻", word: "flaky", rank: 3 },
  passed: { mark: "✓", word: "passed", rank: 4 },
  skipped: { mark: "–", word: "skipped", rank: 5 },
  script: { mark: "◆", word: "setup script", short: "setup", rank: 6 },
};

// What a character of a test's marks says, one for each run.
const VERDICTS = { ".": "passed", "~": "flaky", F: "failed", s: "skipped", "?": "unfinished" };

// What a test's passes and failures say of it, the least trusted first.
const KINDS = {
  "at-one-commit": { state: "flaky", mark: "↻", word: "failed and passed at one commit" },
  "over-commits": { state: "failed", mark: "◐", word: "failed in some runs, passed in others" },
  "always-fails": { state: "failed", mark: "✕", word: "failed each time" },
  "always-passes": { state: "passed", mark: "✓", word: "passed each time" },
  "never-ended": { state: "skipped", mark: "–", word: "never ran to its end" },
};

// The mark of a state, which a screen reader hears as a word.
function state_mark(state, hidden = false) {
  const made = element("span", `mark is-${state}`, STATES[state].mark);
  if (hidden) made.setAttribute("aria-hidden", "true");
  else {
    made.setAttribute("role", "img");
    made.setAttribute("aria-label", STATES[state].word);
  }
  return made;
}
