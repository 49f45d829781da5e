// Links to the sources that outputs name, where the run says where they are.

const PLACE = /(?<![\w/.~-])((?:[\w.-]+\/)*[\w.-]+\.\w+):(\d+)(?::\d+)?/g;
const MOST_LINKS = 500;

// Only an address of the web is a link, whatever a note says.
function is_web(address) {
  return /^https?:\/\//.test(address);
}

function web_link(address, ...contents) {
  if (!is_web(address)) return element("span", "", ...contents);
  const link = element("a", "", ...contents);
  link.href = address;
  link.rel = "noreferrer";
  return link;
}

function source_address(file, line) {
  const path = file.split("/").map(encodeURIComponent).join("/");
  return RUN.source.replaceAll("{file}", path).replaceAll("{line}", line);
}

// Makes links of the places in the texts below a node; a path from the root, or out of the folder
// of the project, is of another one.
function link_sources(node) {
  if (!RUN.source) return node;
  const walker = document.createTreeWalker(node, NodeFilter.SHOW_TEXT), texts = [];
  while (walker.nextNode()) texts.push(walker.currentNode);
  let left = MOST_LINKS;
  for (const text of texts) {
    const parts = [];
    let from = 0;
    for (const found of text.data.matchAll(PLACE)) {
      if (left-- <= 0) break;
      const file = found[1].replace(/^(?:\.\/)+/, "");
      if (file.split("/").includes("..")) continue;
      const link = web_link(source_address(file, found[2]), found[0]);
      parts.push(text.data.slice(from, found.index), link);
      from = found.index + found[0].length;
    }
    if (parts.length) text.replaceWith(...parts, text.data.slice(from));
  }
  return node;
}
