// The table of frames: unpacked, filtered, sorted, and chosen from by mouse or keys. What it shows stands in the address.
const $ = id => document.getElementById(id);
const FIELDS = ["port", "rule", "name", "text", "from", "to"], BY_TIME = { by: "time", down: false };
const HEADS = [["port", "port", 56], ["frame", "frame", 76], ["time", "time", 112], ["kind", "kind", 150], ["verdict", "verdict", 180],
    ["answer", "the switch answered", 190], ["source", "source", 196], ["target", "destination", 196], ["size", "bytes", 70]];
const WORDED = ["kind", "verdict", "answer", "source", "target", "label"];
const HEIGHT = 22, view = $("view"), grid = $("grid"), body = grid.tBodies[0], one = $("one");
let page, rows, words, heads, places = new Map(); // of the captures: all rows, column by column, and where each port/frame stands
let shown = [], chosen = -1, sorting = BY_TIME; // what the table shows, in its order

async function unpacked(id) {
    const packed = Uint8Array.from(atob($(id).textContent), it => it.charCodeAt(0));
    return JSON.parse(await new Response(new Blob([packed]).stream().pipeThrough(new DecompressionStream("gzip"))).text());
}

function element(name, text, attributes) {
    const made = document.createElement(name);
    for (const [key, value] of Object.entries(attributes || {})) made.setAttribute(key, value);
    if (text !== undefined) made.textContent = text;
    return made;
}

const word = (name, at) => words[rows[name][at]];
const name = at => rows.port[at] + "/" + rows.frame[at];
const isOfSwitch = at => rows.entry[at] < 0;

function clock(behind) {
    const moment = page.first + behind;
    return moment < 1e11 ? (moment / 1000).toFixed(3) + " s" : new Date(moment).toISOString().slice(11, 23);
}

const verdictOf = at => page.spelled[word("verdict", at)] || word("verdict", at);

function cell(column, at) {
    return column === "verdict" ? verdictOf(at) : WORDED.includes(column) ? word(column, at) : column === "time" ? clock(rows.time[at]) : String(rows[column][at]);
}

const classOf = column => ["port", "frame", "size"].includes(column) ? "n" : "";

function kindOf(at) {
    const verdict = word("verdict", at);
    return isOfSwitch(at) ? "switch" : verdict === page.noise ? "noise" : verdict.split(" ")[0];
}

// ---- what is shown

function fits(at, asked) {
    const verdict = word("verdict", at), second = rows.time[at] / 1000;
    if (asked.port && rows.port[at] !== +asked.port) return false;
    if (asked.rule && verdict !== asked.rule && !verdict.startsWith(asked.rule + " ")) return false;
    if (asked.from && !(second >= +asked.from) || asked.to && !(second <= +asked.to)) return false;
    if (asked.name && !word("source", at).includes(asked.name) && !word("target", at).includes(asked.name)) return false;
    return !asked.text || [word("kind", at), verdictOf(at), word("answer", at), rows.reading[at]].join(" ").toLowerCase().includes(asked.text);
}

function compared(column) {
    if (!WORDED.includes(column)) return (a, b) => rows[column][a] - rows[column][b] || a - b;
    const rank = new Map(words.map((it, at) => [it, at]).sort().map(([, at], place) => [at, place]));
    return (a, b) => rank.get(rows[column][a]) - rank.get(rows[column][b]) || a - b;
}

function asked() {
    const said = Object.fromEntries(FIELDS.map(it => [it, $(it).value.trim()]));
    return { ...said, name: said.name.toLowerCase(), text: said.text.toLowerCase() };
}

function filter() {
    const wanted = asked();
    shown = [];
    for (let at = 0; at < rows.port.length; at++) if (fits(at, wanted)) shown.push(at);
    sort();
    $("count").textContent = shown.length + " of " + rows.port.length + " frames";
    view.scrollTop = 0;
    draw();
    pictureOf(shown, wanted);
}

function sort() {
    shown.sort(compared(sorting.by));
    if (sorting.down) shown.reverse();
    for (const head of grid.tHead.rows[0].cells) {
        const isBy = head.dataset.column === sorting.by;
        head.setAttribute("aria-sort", isBy ? sorting.down ? "descending" : "ascending" : "none");
    }
}

// ---- the address: what is filtered, sorted and chosen

function write() {
    const said = new URLSearchParams();
    for (const it of FIELDS) if ($(it).value.trim()) said.set(it, $(it).value.trim());
    if (sorting.by !== BY_TIME.by || sorting.down) said.set("sort", (sorting.down ? "-" : "") + sorting.by);
    if (chosen >= 0) said.set("at", name(chosen));
    const text = said.toString().replace(/%3A/g, ":").replace(/%2F/g, "/").replace(/\+/g, "%20");
    history.replaceState(null, "", text ? "#?" + text : location.href.split("#")[0]);
}

function read() {
    if (!location.hash.startsWith("#?")) return false;
    const said = new URLSearchParams(location.hash.slice(2)), by = said.get("sort") || BY_TIME.by;
    for (const it of FIELDS) $(it).value = said.get(it) || "";
    sorting = { by: by.replace("-", ""), down: by.startsWith("-") };
    if (!heads.some(([it]) => it === sorting.by)) sorting = BY_TIME;
    filter();
    const at = places.get(said.get("at"));
    if (at !== undefined) choose(at);
    $("frames").scrollIntoView();
    return true;
}

// ---- the rows that are in sight

function gap(count) {
    const made = element("tr", undefined, { class: "gap", "aria-hidden": "true" }), one = element("td", undefined, { colspan: heads.length });
    one.style.height = count * HEIGHT + "px";
    made.append(one);
    return made;
}

function line(at, place) {
    const made = element("tr", undefined, { class: "row " + kindOf(at), id: "row" + at, "aria-rowindex": place + 2, "aria-selected": at === chosen });
    made.append(...heads.map(([column]) => element("td", cell(column, at), { title: cell(column, at), class: classOf(column) })));
    made.onclick = () => { choose(at); write(); };
    return made;
}

function draw() {
    const begin = Math.max(Math.floor(view.scrollTop / HEIGHT) - 6, 0), end = Math.min(begin + Math.ceil(view.clientHeight / HEIGHT) + 12, shown.length);
    const some = shown.slice(begin, end);
    body.replaceChildren(gap(begin), ...some.map((at, place) => line(at, begin + place)), gap(shown.length - end));
    grid.setAttribute("aria-rowcount", shown.length + 1);
    if (some.includes(chosen)) grid.setAttribute("aria-activedescendant", "row" + chosen);
    else grid.removeAttribute("aria-activedescendant");
}

function reveal(place) {
    const top = place * HEIGHT, room = view.clientHeight - grid.tHead.offsetHeight - HEIGHT;
    if (top < view.scrollTop) view.scrollTop = top;
    else if (top > view.scrollTop + room) view.scrollTop = top - room;
}

function choose(at) {
    chosen = at;
    const place = shown.indexOf(at);
    if (place >= 0) reveal(place);
    tell(at);
    draw();
    mark(at);
}

function step(event) {
    if (event.target !== grid || event.altKey || event.ctrlKey || event.metaKey || !shown.length) return;
    const place = shown.indexOf(chosen), last = shown.length - 1, many = Math.max(Math.floor(view.clientHeight / HEIGHT) - 2, 1);
    const aims = { ArrowDown: place + 1, ArrowUp: place - 1, PageDown: place + many, PageUp: place - many, Home: 0, End: last };
    if (event.key in aims) {
        choose(shown[Math.min(Math.max(aims[event.key], 0), last)]);
        write();
    } else if ((event.key === "Enter" || event.key === " ") && chosen >= 0) one.focus();
    else return;
    event.preventDefault();
}

// ---- one frame

function dump(text, size) {
    const bytes = Array.from(atob(text), it => it.charCodeAt(0)), lines = [];
    for (let at = 0; at < bytes.length; at += 16) {
        const part = bytes.slice(at, at + 16), hex = part.map(it => it.toString(16).padStart(2, "0")).join(" ");
        lines.push(at.toString(16).padStart(4, "0") + "  " + hex.padEnd(48) + "  " + part.map(it => it > 31 && it < 127 ? String.fromCharCode(it) : ".").join(""));
    }
    if (bytes.length < size) lines.push(".. " + (size - bytes.length) + " further bytes are in the capture");
    return lines.join("\n");
}

function link(at) {
    return element("a", name(at), { href: "#?at=" + name(at), class: "frame" });
}

// A text in which each frame that is named leads to its row.
function linked(text) {
    const parts = [];
    let from = 0;
    for (const it of text.matchAll(/port (\d+), frame (\d+)|\b(\d+)\/(\d+)\b/g)) {
        const aim = it[1] ? it[1] + "/" + it[2] : it[0];
        if (!places.has(aim)) continue;
        parts.push(text.slice(from, it.index), element("a", it[0], { href: "#?at=" + aim, class: "frame" }));
        from = it.index + it[0].length;
    }
    return [...parts, text.slice(from)];
}

function meaning(verdict) {
    const parts = verdict.split(" ");
    return page.meanings[parts[0] === "dropped" ? parts.slice(0, 2).join(" ") : parts[0]] || "";
}

function tell(at) {
    const verdict = word("verdict", at), found = [element("h3", "port " + rows.port[at] + ", frame " + rows.frame[at] + ": " + word("kind", at) + ": " + verdictOf(at))];
    if (meaning(verdict)) found.push(element("p", meaning(verdict)));
    if (rows.pair[at] >= 0) {
        const made = element("p", isOfSwitch(at) ? "It answers " : "The switch answered: " + word("answer", at) + ", ");
        made.append(link(rows.pair[at]), isOfSwitch(at) ? " (" + word("kind", rows.pair[at]) + ": " + verdictOf(rows.pair[at]) + ")" : "");
        found.push(made);
    }
    if (rows.why[at]) {
        const made = element("pre");
        made.append(...linked(rows.why[at]));
        found.push(made);
    }
    found.push(element("pre", dump(rows.bytes[at], rows.size[at]), { class: "hex", tabindex: 0, role: "region", "aria-label": "Bytes" }));
    found.push(element("pre", rows.reading[at].split("; ").join("\n") + (rows.sent[at] ? "\n\nsent: " + rows.sent[at] : "")));
    one.replaceChildren(...found);
}

// ---- heads that sort

function headOf(column, text) {
    const made = element("th", undefined, { scope: "col", class: classOf(column) }), button = element("button", text, { type: "button" });
    made.dataset.column = column;
    button.onclick = () => {
        sorting = { by: column, down: sorting.by === column && !sorting.down };
        sort();
        view.scrollTop = 0;
        draw();
        write();
    };
    made.append(button);
    return made;
}

function before(one, other) {
    const isNumber = /^\d+(\/\d+)?$/;
    if (!isNumber.test(one) || !isNumber.test(other)) return one < other ? -1 : +(one > other);
    const [a, b] = [one, other].map(it => it.split("/").map(Number));
    return a[0] - b[0] || (a[1] || 0) - (b[1] || 0);
}

function makeSortable(table) {
    const own = [...table.tHead.rows[0].cells], key = (row, at) => row.cells[at].textContent.trim();
    own.forEach((head, at) => {
        if (head.dataset.sort === "no") return;
        const button = element("button", undefined, { type: "button" });
        button.append(...head.childNodes);
        head.append(button);
        button.onclick = () => {
            const isDown = head.getAttribute("aria-sort") === "ascending", sorted = [...table.tBodies[0].rows].sort((a, b) => before(key(a, at), key(b, at)));
            own.forEach(it => it.removeAttribute("aria-sort"));
            head.setAttribute("aria-sort", isDown ? "descending" : "ascending");
            table.tBodies[0].append(...(isDown ? sorted.reverse() : sorted));
        };
    });
}

// ---- begin

function listen() {
    $("filters").addEventListener("input", () => { filter(); write(); });
    $("filters").addEventListener("submit", event => event.preventDefault());
    $("filters").addEventListener("reset", () => setTimeout(() => { sorting = BY_TIME; filter(); write(); }));
    view.addEventListener("scroll", draw);
    grid.addEventListener("keydown", step);
    one.addEventListener("keydown", event => { if (event.key === "Escape") grid.focus(); });
    addEventListener("hashchange", () => { if (read()) grid.focus({ preventScroll: true }); });
}

async function begin() {
    page = await unpacked("data");
    rows = page.columns;
    words = page.words;
    const count = rows.port.length;
    for (let at = 0; at < count; at++) places.set(name(at), at);
    heads = HEADS.filter(([column]) => column !== "answer" || rows.answer.some(it => words[it]));
    grid.tHead.rows[0].replaceChildren(...heads.map(([column, text]) => headOf(column, text)));
    const widths = element("colgroup");
    widths.append(...heads.map(([, , width]) => { const made = element("col"); made.style.width = width + "px"; return made; }));
    grid.querySelector("colgroup").replaceWith(widths);
    grid.style.minWidth = heads.reduce((sum, it) => sum + it[2], 0) + "px";
    listen();
    if (!read()) filter();
    document.body.dataset.ready = Math.round(performance.now()); // milliseconds since the page was asked for
}

document.querySelectorAll("table.sortable").forEach(makeSortable);
if ("DecompressionStream" in window) addEventListener("load", begin);
else $("count").textContent = "this browser is too old for the table: it wants DecompressionStream (Chromium 80, Firefox 113, Safari 16.4)";
