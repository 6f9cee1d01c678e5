"use strict";

// The lists of a page are open without this script. In a narrow window they begin closed.
const isNarrow = window.matchMedia("(max-width: 75rem)").matches;
if (isNarrow) for (const it of document.querySelectorAll("aside details")) it.open = false;
if (window.matchMedia("(max-width: 48rem)").matches) {
    document.querySelector(".pages details").open = false;
}

const search = document.getElementById("search");
const query = document.getElementById("query");
const results = document.getElementById("results");
const count = document.getElementById("count");
const list = results.querySelector("ol");
const MOST = 30;
search.hidden = false;

// Loads the index at the first use of the search, by a script: a page of a folder can't fetch.
let index = null;
function loadIndex() {
    index ??= new Promise((done) => {
        const script = document.createElement("script");
        script.src = "search-index.js";
        script.onload = () => done(window.searchIndex);
        document.head.append(script);
    });
    return index;
}

function occurrences(text, word) {
    return text.toLowerCase().split(word).length - 1;
}

// A section's score, or 0 if one of the words is in none of its texts.
function scoreOf([page, , title, text], words) {
    let score = 0;
    for (const word of words) {
        const found = 20 * occurrences(title, word) + 5 * occurrences(page, word)
            + Math.min(10, occurrences(text, word));
        if (found === 0) return 0;
        score += found;
    }
    return score;
}

// A text with its words marked, as nodes. No text is read as HTML.
function marked(text, words) {
    const nodes = [];
    const form = words.map((it) => it.replace(/[.*+?^${}()|[\]\\]/g, "\\$&")).join("|");
    text.split(new RegExp(`(${form})`, "gi")).forEach((part, at) => {
        if (at % 2 === 0) return nodes.push(part);
        const mark = document.createElement("mark");
        mark.textContent = part;
        return nodes.push(mark);
    });
    return nodes;
}

function excerpt(text, words) {
    const at = Math.max(0, text.toLowerCase().indexOf(words[0]));
    const begin = at < 60 ? 0 : text.indexOf(" ", at - 60) + 1;
    return (begin ? "… " : "") + text.slice(begin, begin + 180);
}

function resultOf([page, target, title, text], words) {
    const item = document.createElement("li");
    const link = document.createElement("a");
    link.href = target;
    link.append(...marked(page === title ? title : `${page} — ${title}`, words));
    const below = document.createElement("span");
    below.className = "text";
    below.append(...marked(excerpt(text, words), words));
    item.append(link, below);
    return item;
}

async function show() {
    const words = query.value.toLowerCase().split(/\s+/).filter((it) => it);
    if (words.length === 0) return close();
    const rows = (await loadIndex()).map((row) => [scoreOf(row, words), row])
        .filter(([score]) => score > 0).sort((a, b) => b[0] - a[0]);
    list.replaceChildren(...rows.slice(0, MOST).map(([, row]) => resultOf(row, words)));
    count.textContent = rows.length === 1 ? "1 section" : `${rows.length} sections`;
    results.hidden = false;
    return undefined;
}

function close() {
    results.hidden = true;
    list.replaceChildren();
}

query.addEventListener("input", show);
query.addEventListener("focus", loadIndex);
list.addEventListener("click", close);
document.addEventListener("click", (event) => search.contains(event.target) || close());
document.addEventListener("keydown", (event) => {
    if (event.key === "Escape" && !results.hidden) {
        close();
        query.focus();
    } else if (event.key === "/" && !/^(INPUT|TEXTAREA)$/.test(document.activeElement.tagName)) {
        event.preventDefault();
        query.focus();
    }
});
