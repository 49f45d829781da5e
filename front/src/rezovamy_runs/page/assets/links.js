// The address of a page: its parts, and buttons that copy it.

// Half of a pair of surrogates has no place in an address.
function encoded(text) {
  return encodeURIComponent(shown(text).replace(/[\ud800-\udfff]/gu, "\ufffd"));
}

// A slash stands between the binary of a test and its name, since either may have `::`.
function address_of(...parts) {
  return parts.map(encoded).join("/");
}

function set_address(words) {
  try {
    history.replaceState(null, "", words ? `#${words}` : location.pathname + location.search);
  } catch {
    // Some browsers refuse that for files; the page works without.
  }
}

// The address of the page shows the link too, for whoever can't copy it.
function link_button(what, words_of) {
  return copy_button("Copy link", `Copy link to ${what}`, () => {
    const words = words_of();
    set_address(words);
    return `${location.href.split("#")[0]}#${words}`;
  });
}

function decoded(words) {
  try {
    return words.split("/").map(decodeURIComponent);
  } catch {
    return [];
  }
}
