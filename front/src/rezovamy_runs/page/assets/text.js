// Texts for people: durations, sizes, and outputs whose control characters do no harm.

function element(name, classes, ...contents) {
  const made = document.createElement(name);
  if (classes) made.className = classes;
  made.append(...contents.filter((one) => one !== null && one !== undefined && one !== ""));
  return made;
}

function whole(number) {
  return String(number).replace(/\B(?=(\d{3})+$)/g, ",");
}

function plural(number, one, several = `${one}s`) {
  return `${whole(number)} ${number === 1 ? one : several}`;
}

// A length of time as the terminal has it, `0.012s`, `3.4s`, `2m 05s`, `1h 02m`; what would be
// `0.000s` there is in microseconds.
function duration(seconds) {
  if (seconds === null || seconds === undefined) return "–";
  const sign = seconds < 0 ? "−" : "", size = Math.abs(seconds);
  if (size > 0 && size < 0.5e-6) return "< 1µs";
  if (size > 0 && size < 0.0005) return `${sign}${(size * 1e6).toFixed(0)}µs`;
  if (size < 1) return `${sign}${size.toFixed(3)}s`;
  if (size < 59.95) return `${sign}${size.toFixed(1)}s`;
  const all = Math.round(size), hours = Math.floor(all / 3600), minutes = Math.floor(all / 60) % 60;
  const two = (number) => String(number).padStart(2, "0");
  return sign + (hours ? `${hours}h ${two(minutes)}m` : `${minutes}m ${two(all % 60)}s`);
}

function bytes(size) {
  if (size < 1000) return `${size} B`;
  const step = size < 999_500 ? 1 : size < 999_500_000 ? 2 : 3, number = size / 1000 ** step;
  const digits = number < 9.995 ? 2 : number < 99.95 ? 1 : 0;
  return `${number.toFixed(digits)} ${["", "kB", "MB", "GB"][step]}`;
}

// Sequences that colour text; then runs of bytes that aren't UTF-8 (Python's surrogates of them),
// of control characters, and of characters that turn the direction of text or can't be seen.
const CONTROLS = String.raw`\0-\x08\x0b\x0c\x0e-\x1a\x1c-\x1f\x7f-\x9f`;
const UNSEEN = String.raw`\xad\u061c\u200b-\u200f\u2028-\u202e\u2060-\u206f\ufeff\ufff9-\ufffb`;
const SPELLED = String.raw`\r(?!\n)|[${CONTROLS}${UNSEEN}]|\x1b(?!\[[0-9;]*m)`;
const SPECIAL = new RegExp(
  String.raw`\x1b\[([0-9;]*)m|[\udc80-\udcff]+|(?:${SPELLED})+`, "gu",
);

const SPECIAL_TEXT = new RegExp(SPECIAL.source, "u");

function spelled(text) {
  return Array.from(text, (one) => {
    const code = one.codePointAt(0);
    if (code >= 0xdc80 && code <= 0xdcff) return `\\x${(code - 0xdc00).toString(16)}`;
    if (one === "\r") return "\\r";
    return code < 256 ? `\\x${code.toString(16).padStart(2, "0")}` : `\\u{${code.toString(16)}}`;
  }).join("");
}

// A text for where nothing marks what is spelled.
function shown(text) {
  return text.replace(SPECIAL, (part) => spelled(part));
}

// An element that may show only a part of a text, which is whole in its title where it is long.
function titled(made, text) {
  if (text.length > 60) made.title = shown(text);
  return made;
}

function is_colour(code) {
  return (code >= 30 && code <= 37) || (code >= 90 && code <= 97);
}

// The names of a style after the codes of a sequence that colours text. Backgrounds and colours of
// many bits are left out.
function styled(style, codes) {
  const numbers = codes.split(";").map(Number);
  const styles = { 1: "s-bold", 2: "s-dim", 3: "s-italic", 4: "s-underline" };
  for (let at = 0; at < numbers.length; at++) {
    const code = numbers[at];
    if (code === 0) style = [];
    else if (styles[code]) style = [...style, styles[code]];
    else if (code === 22) style = style.filter((one) => one !== "s-bold" && one !== "s-dim");
    else if (is_colour(code)) style = [...colourless(style), `s-${code % 10}`];
    else if (code === 39) style = colourless(style);
    else if (code === 38 || code === 48) at += numbers[at + 1] === 5 ? 2 : 4;
  }
  return style;
}

function colourless(style) {
  return style.filter((one) => !/^s-\d$/.test(one));
}

// The nodes of a text with all that could do harm spelled out, and what is sought in it marked.
function safe_nodes(text, sought = "") {
  const nodes = document.createDocumentFragment();
  let style = [], from = 0;
  const plain = (part) => {
    if (!part) return;
    const inner = marked(part.replace(/\r\n/g, "\n"), sought);
    nodes.append(style.length ? element("span", style.join(" "), inner) : inner);
  };
  for (const found of text.matchAll(SPECIAL)) {
    plain(text.slice(from, found.index));
    from = found.index + found[0].length;
    if (found[1] !== undefined) style = styled(style, found[1]);
    else {
      const is_bytes = /^[\udc80-\udcff]/u.test(found[0]);
      const made = element("span", is_bytes ? "byte" : "control", spelled(found[0]));
      made.title = is_bytes ? "bytes that aren't UTF-8" : "control characters";
      nodes.append(made);
    }
  }
  plain(text.slice(from));
  return nodes;
}

const MOST_MARKS = 1000;

// A text as nodes in which what is sought is marked, up to so many times.
function marked(text, sought) {
  const nodes = document.createDocumentFragment();
  let from = 0;
  for (const at of places_of(sought, text)) {
    nodes.append(text.slice(from, at), element("mark", "", text.slice(at, at + sought.length)));
    from = at + sought.length;
  }
  nodes.append(text.slice(from));
  return nodes;
}

// Where what is sought stands in a text, whose letters may be in upper case.
function places_of(sought, text) {
  const low = sought ? text.toLowerCase() : "", found = [];
  // Some letters become two in lower case, after which places are others.
  if (!sought || low.length !== text.length) return found;
  let at = low.indexOf(sought);
  while (at >= 0 && found.length < MOST_MARKS) {
    found.push(at);
    at = low.indexOf(sought, at + sought.length);
  }
  return found;
}
