// Below each page that a search finds: the first of its lines, which lines.js has, with all of the words, or else with one.
const words = (new URLSearchParams(location.search).get("q") || "").toLowerCase().split(/\s+/).filter(Boolean);
const root = new URL(".", location.href).pathname;

const has = (line) => (word) => line.toLowerCase().includes(word);

const lineOf = (page) => {
  const lines = LINES[page] || [];
  return lines.find((line) => words.every(has(line))) || lines.find((line) => words.some(has(line)));
};

// so much of a line, about the first of the words
const part = (line) => {
  const at = line.toLowerCase().indexOf(words.find(has(line))), from = Math.max(0, at - 60), to = from + 180;
  return (from > 0 ? "… " : "") + line.slice(from, to) + (to < line.length ? " …" : "");
};

const results = document.querySelector("#search-results");
new MutationObserver(() => {
  for (const item of results.querySelectorAll("ul.search > li:not([data-seen])")) {
    const link = item.querySelector("a");
    item.dataset.seen = "";
    const line = link && lineOf(decodeURIComponent(link.pathname.slice(root.length)).replace(/\.html$/, ""));
    if (line) item.append(Object.assign(document.createElement("p"), { className: "line", textContent: part(line) }));
  }
}).observe(results, { childList: true, subtree: true });
