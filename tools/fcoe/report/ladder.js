// The ladder of the frames that the table shows: ENodes (or ports) and the forwarder as lines, time downwards, a part at a time.
const PART = 200, COLUMN = 230, NAMED = 150, STEP = 26, LEFT = 160, LINES = 8, ROOM = 960; // a picture narrower than ROOM scrolls
let arrows = [], part = 0, arrowOf = new Map(), noise = 0; // of the whole choice, and which part of it is drawn

function drawn(name, properties, text) {
    const made = document.createElementNS("http://www.w3.org/2000/svg", name);
    for (const [key, value] of Object.entries(properties)) made.setAttribute(key, value);
    if (text !== undefined) made.textContent = text;
    return made;
}

function sentArrows(some, at, entry, clock) {
    return some.map(([line, text]) => ({ at, entry, clock, line, isInward: false, text: words[text], why: "" }));
}

function arrowsOf(at) {
    const verdict = word("verdict", at), clock = rows.clock[at], entry = rows.entry[at];
    const heard = { at, entry, clock, line: rows.line[at], isInward: true, text: word("label", at), why: verdict.startsWith("forwarded") ? "" : verdict };
    return [heard, ...sentArrows(rows.arrows[at], at, entry, clock)];
}

// Ticks belong to a choice by port and time alone: they have no verdict, name or text of their own.
function tickArrows(wanted) {
    if (wanted.rule || wanted.name || wanted.text) return [];
    const fits = it => !(wanted.from && it.clock < 1000 * wanted.from) && !(wanted.to && it.clock > 1000 * wanted.to);
    const own = it => it.arrows.filter(([line]) => !wanted.port || page.lines[line][0] === +wanted.port);
    return page.ticks.filter(fits).flatMap(it => {
        const mark = it.text ? [{ at: -1, entry: it.entry, clock: it.clock, line: -1, text: it.text, why: "" }] : [];
        return [...mark, ...sentArrows(own(it), -1, it.entry, it.clock)];
    });
}

const isLike = (a, b) => a && a.line >= 0 && a.line === b.line && a.isInward === b.isInward && a.text === b.text && a.why === b.why;

function merged(all) {
    const found = [];
    arrowOf = new Map();
    for (const it of all) {
        const last = found[found.length - 1];
        if (isLike(last, it)) last.count += 1;
        else found.push({ ...it, count: 1 });
        if (it.at >= 0 && !arrowOf.has(it.at)) arrowOf.set(it.at, found.length - 1);
    }
    return found;
}

function pictureOf(some, wanted) {
    const heard = some.filter(at => !isOfSwitch(at)), own = heard.filter(at => word("verdict", at) !== page.noise);
    noise = heard.length - own.length;
    arrows = merged([...own.flatMap(arrowsOf), ...tickArrows(wanted)].sort((a, b) => a.entry - b.entry));
    part = 0;
    drawPart();
}

// What stands above the lines; where these are close, a port's number alone.
function titlesOf(order, isByPort, column) {
    const ofPort = it => column < 60 ? [String(it)] : ["port " + it], ofNode = it => ["port " + page.lines[it][0], page.lines[it][1], page.lines[it][2]];
    return order.map(it => it < 0 ? (column < 60 ? ["", "forwarder"] : ["forwarder"]) : isByPort ? ofPort(it) : ofNode(it));
}

// The lines from left to right: ports in two halves, the forwarder (-1) between them. Beyond a few ENodes a line is a port. All have their place in the picture's width.
function linesOf(some) {
    const used = [...new Set(some.filter(it => it.line >= 0).map(it => it.line))].sort((a, b) => a - b), ports = used.map(it => page.lines[it][0]);
    const room = Math.max($("picture").clientWidth - 20, ROOM) - LEFT, columnOf = count => Math.min(COLUMN, Math.floor(room / count));
    const isByPort = used.length > LINES || columnOf(used.length + 1) < NAMED, key = line => isByPort ? page.lines[line][0] : line, keys = [...new Set(used.map(key))];
    const portOf = it => isByPort ? it : page.lines[it][0], all = [...new Set(ports)].sort((a, b) => a - b), half = all[Math.ceil(all.length / 2) - 1];
    keys.sort((a, b) => portOf(a) - portOf(b) || a - b);
    const left = all.length > 1 ? keys.filter(it => portOf(it) <= half) : keys.slice(0, Math.ceil(keys.length / 2));
    const order = [...left.reverse(), -1, ...keys.filter(it => !left.includes(it))];
    const column = columnOf(order.length), place = new Map(order.map((it, at) => [it, LEFT + column / 2 + column * at]));
    return { order, titles: titlesOf(order, isByPort, column), column, xAt: at => LEFT + column / 2 + column * at, xOf: line => place.get(line < 0 ? -1 : key(line)), width: LEFT + column * order.length };
}

function headsOf(lines) {
    const height = 10 + 16 * Math.max(...lines.titles.map(it => it.length)), style = lines.column < 60 ? "font-size: 9px" : "font-weight: bold";
    const made = drawn("svg", { id: "heads", width: lines.width, height, "aria-hidden": "true" });
    lines.titles.forEach(([title, ...more], at) => {
        const x = lines.xAt(at);
        made.append(drawn("text", { x, y: 18, "text-anchor": "middle", style }, title));
        more.forEach((it, row) => made.append(drawn("text", { x, y: 34 + 16 * row, "text-anchor": "middle", class: "soft" }, it)));
    });
    return made;
}

function tickOf(it, y, lines) {
    const made = drawn("g", { class: "arrow tick" });
    made.append(drawn("line", { x1: LEFT, x2: lines.width - 20, y1: y, y2: y }), drawn("text", { x: lines.xOf(-1) + 8, y: y - 4, "font-weight": "bold" }, it.text));
    return made;
}

function lineOf(it, y, lines) {
    const word = it.why.split(" ")[0], kind = word ? ["dropped", "rejected", "refused"].includes(word) ? word : "taken" : it.isInward ? "taken" : "sent";
    const [from, to] = it.isInward ? [lines.xOf(it.line), lines.xOf(-1)] : [lines.xOf(-1), lines.xOf(it.line)], back = to > from ? -8 : 8;
    const made = drawn("g", { class: "arrow " + kind }), middle = lines.xOf(-1) + (lines.xOf(it.line) > lines.xOf(-1) ? lines.column / 2 : -lines.column / 2);
    const text = it.text + (it.count > 1 ? " ×" + it.count : "") + (it.why ? " · " + it.why : "");
    made.append(drawn("line", { x1: from, x2: to, y1: y, y2: y }), drawn("path", { d: `M${to + back} ${y - 4} L${to} ${y} L${to + back} ${y + 4} z`, fill: "currentColor" }));
    made.append(drawn("text", { x: middle, y: y - 5, "text-anchor": "middle" }, text));
    if (it.at >= 0) {
        made.dataset.at = it.at;
        made.style.cursor = "pointer";
        made.onclick = () => { choose(it.at); write(); };
    }
    return made;
}

// The first window begins up to a window before the first frame.
function since(behind) {
    return "+" + (Math.max(behind, 0) / 1000).toFixed(2) + " s";
}

function clockText(behind) {
    return clock(behind).slice(0, 11) + "  " + since(behind);
}

function bodyOf(some, lines) {
    const height = STEP * (some.length + 2), made = drawn("svg", { width: lines.width, height, role: "img", "aria-label": "Ladder of " + some.length + " arrows: the frames of the table above" });
    lines.order.forEach((it, at) => {
        const x = lines.xAt(at);
        made.append(drawn("line", { x1: x, x2: x, y1: 0, y2: height - STEP / 2, class: it < 0 ? "lifeline forwarder" : "lifeline" }));
    });
    some.forEach((it, at) => {
        const y = STEP * (at + 1);
        if (!at || some[at - 1].clock !== it.clock) made.append(drawn("text", { x: 8, y: y + 4, class: "soft" }, clockText(it.clock)));
        made.append(it.line < 0 ? tickOf(it, y, lines) : lineOf(it, y, lines));
    });
    return made;
}

function said(some) {
    const other = noise ? "; not drawn: " + noise + " frames of other traffic" : "";
    if (!some.length) return "no arrows" + other;
    const begin = part * PART, range = "arrows " + (begin + 1) + " to " + (begin + some.length) + " of " + arrows.length;
    return range + ", " + since(some[0].clock) + " to " + since(some[some.length - 1].clock) + other;
}

function drawPart() {
    const some = arrows.slice(part * PART, (part + 1) * PART), lines = linesOf(some), picture = $("picture");
    picture.replaceChildren(...(some.length ? [headsOf(lines), bodyOf(some, lines)] : []));
    picture.scrollTop = 0;
    picture.scrollLeft = Math.max(lines.xOf(-1) - picture.clientWidth / 2, 0);
    $("drawn").textContent = said(some);
    $("earlier").disabled = part === 0;
    $("later").disabled = (part + 1) * PART >= arrows.length;
}

// Shows the arrow of the chosen frame.
function mark(at) {
    const place = arrowOf.get(at), picture = $("picture");
    picture.querySelectorAll(".arrow.on").forEach(it => it.classList.remove("on"));
    if (place === undefined) return;
    if (part !== Math.floor(place / PART)) {
        part = Math.floor(place / PART);
        drawPart();
    }
    const made = picture.querySelector(`[data-at="${arrows[place].at}"].arrow`), y = STEP * (place % PART);
    if (made) made.classList.add("on");
    if (y < picture.scrollTop || y > picture.scrollTop + picture.clientHeight - 3 * STEP) picture.scrollTop = Math.max(y - picture.clientHeight / 2, 0);
}

$("earlier").onclick = () => { part -= 1; drawPart(); };
$("later").onclick = () => { part += 1; drawPart(); };
