// The page: hands jobs to the worker, and shows what it answers. What comes out of files is only ever set as text.

const $ = (id) => document.getElementById(id);
const MOST_SHOWN = 1000, MOST_FRAMES = 200;

// Makes an element with attributes and with children, which are elements or texts.
function make(name, about = {}, ...children) {
    const it = Object.assign(document.createElement(name), about);
    it.append(...children.filter((child) => child !== null));
    return it;
}

const lastOf = (list) => list[list.length - 1];
const grouped = (number) => number.toLocaleString("en-US");
const counted = (number, one, many = `${one}s`) => `${grouped(number)} ${number === 1 ? one : many}`;
const timed = (ms) => (ms < 1000 ? `${ms.toFixed(1)} ms` : `${(ms / 1000).toFixed(2)} s`);
const pointText = (point) => `(${point.length > 16 ? `${point.slice(0, 16).join(", ")}, and ${point.length - 16} more` : point.join(", ")})`;
const sizeText = (bytes) => (bytes < 10000 ? `${grouped(bytes)} bytes` : bytes < 1e7 ? `${grouped(Math.round(bytes / 1000))} KB` : `${grouped(Math.round(bytes / 1e6))} MB`);

// ---- the worker

let worker = null, number = 0;
const waiting = new Map();
// The module that this browser takes, once it is unpacked.
let code = null;

// A module of one function, which works on sixteen bytes at once. A browser that takes it takes the wide module.
const SIXTEEN_BYTES = Uint8Array.of(0, 97, 115, 109, 1, 0, 0, 0, 1, 5, 1, 96, 0, 1, 123, 3, 2, 1, 0, 10, 10, 1, 8, 0, 65, 0, 253, 15, 253, 98, 11);
const isWide = globalThis.WebAssembly !== undefined && WebAssembly.validate(SIXTEEN_BYTES);

async function unpack() {
    if (globalThis.DecompressionStream === undefined) throw new Error("this browser can't unpack it; Chrome and Edge 80, Firefox 113, Safari 16.4 and later ones can");
    const text = $(isWide ? "wide" : "module").textContent, packed = Uint8Array.from(atob(text.trim()), (letter) => letter.charCodeAt(0));
    const unpacked = new Blob([packed]).stream().pipeThrough(new DecompressionStream("gzip"));
    code = new Uint8Array(await new Response(unpacked).arrayBuffer());
}

function startWorker() {
    const text = $("worker").textContent, place = URL.createObjectURL(new Blob([text], { type: "text/javascript" }));
    worker = new Worker(place);
    worker.onmessage = ({ data: { id, said, fault, status, portion } }) => {
        const asked = waiting.get(id);
        if (asked === undefined) return;
        if (portion !== undefined) return asked.reads(portion);
        waiting.delete(id);
        if (fault === undefined) asked.done(said);
        else asked.fail(Object.assign(new Error(fault), { status }));
    };
    worker.onerror = (event) => {
        for (const asked of waiting.values()) asked.fail(new Error(`the worker stopped: ${event.message ?? "no reason is told"}`));
        waiting.clear();
    };
    return job("start", { code, text }).finally(() => URL.revokeObjectURL(place));
}

function job(name, given, reads = () => {}) {
    return new Promise((done, fail) => {
        number += 1;
        waiting.set(number, { done, fail, reads });
        worker.postMessage({ id: number, job: name, given });
    });
}

// ---- what is chosen and what is open

let open = null, query = null, jobs = 0;
const chosen = { carried: null, index: null, logs: null };

function enable() {
    const free = jobs === 0;
    for (const id of ["prove", "carried", "index", "logs"]) $(id).disabled = !free;
    $("audit").disabled = $("dump").disabled = $("range").disabled = $("nearest").disabled = !free || open === null;
    $("verify").disabled = $("check").disabled = $("show").disabled = !free || open === null;
    $("save").disabled = query === null;
}

// Does a job with its progress shown. What goes wrong is shown at `place`.
async function during(words, place, work) {
    if (jobs > 0) return;
    jobs += 1;
    enable();
    const began = performance.now(), bar = $("busyBar");
    let portion = null;
    const reads = (now) => {
        portion = now;
        bar.value = now;
    };
    const tick = () => {
        const seconds = ((performance.now() - began) / 1000).toFixed(1);
        const isReading = portion !== null && portion < 1;
        $("busyWords").textContent = isReading ? `Reading: ${Math.floor(100 * portion)} %` : `${words}: ${seconds} s`;
        if (!isReading) bar.removeAttribute("value");
        $("busy").hidden = performance.now() - began < 150;
    };
    const timer = setInterval(tick, 100);
    place.replaceChildren();
    try {
        await work(reads);
    } catch (error) {
        place.replaceChildren(verdict(false, error.status === -1 ? "stopped" : "not done", sentence(error.message)));
    } finally {
        clearInterval(timer);
        $("busy").hidden = true;
        jobs -= 1;
        enable();
    }
}

const sentence = (words) => `${words[0].toUpperCase()}${words.slice(1)}${/[.!?]$/.test(words) ? "" : "."}`;

// ---- what the lines of the judges mean

const FAULTS = {
    short: "The file has fewer than 12,288 bytes, which is the least of an index.",
    unfinished: "The making of this index was not finished: neither of its slots is open.",
    tworoots: "Both slots of the file are open with one generation.",
    version: "The version is another one. The command migrate of the program makes an index of version 2 out of one of version 1.",
    space: "The head names no metric and dimension that there are.",
    policy: "The head names no policies that there are.",
    limit: "The limit of objects in the head is none.",
    otherstate: "The log is of generation {0} of the index, with the root on page {1}. The file has generation {2}, with the root on page {3}.",
    point: "The point of the query is none of the index's space.",
    "page bad": "Page {0} holds no node ({1}).",
    "page outside": "Page {0} is none of the tree's pages.",
    wrongpage: "Record {0} of the log is missing, or names another page than the walk needs.",
    wrongcount: "Record {0} of the log has another number of marks than its node has entries.",
    wrongmark: "Mark {1} of record {0} is not allowed: the test that it names does not rule the entry out.",
    wronganswer: "Answer {0} is another one than the records give, or it is missing, or too many.",
    leftover: "Record {0} of the log is of a page that the walk does not need.",
    fill: "The node of page {0} has another level than its place asks for, or too few or too many entries.",
    twice: "Page {0} stands at two places of the tree.",
    unfit: "Entry {1} of page {0} has a point that is none of the index's space.",
    parentdistance: "Entry {1} of page {0} has a stored distance that is not its distance.",
    radius: "Entry {1} of page {0} has a radius that does not reach object {2} below it.",
    id: "The object number {0} is too large, or stands in the tree twice.",
    count: "The slot tells of {0} objects, and the tree has {1}.",
    path: "Page {0} is not the one that the digest stands for: its path leads elsewhere.",
    missing: "Record {0} of the log names a page that is not carried.",
    head: "The head is none of an index ({0}).",
    slot: "The live slot has a number that it may not have, or there is none.",
    cut: "Bytes are missing at the end: it was cut.",
    magic: "It does not begin with the letters that it should begin with.",
    kind: "It is a log of another kind, such as that of a join, which only the program judges.",
    mark: "A mark, or a number of marks, is none that there is.",
    order: "Its parts do not ascend as they should.",
    tail: "Bytes are left over behind its end, or where nothing may stand.",
    log: "The log itself is no log ({0}).",
};

// What the words behind `rejected` or `fault notindex` mean, in a sentence.
function meaning(words) {
    const parts = words.split(" "), two = parts.slice(0, 2).join(" ");
    const key = two in FAULTS ? two : parts[0], given = parts.slice(key === two ? 2 : 1);
    return FAULTS[key]?.replace(/\{(\d)\}/g, (_, place) => given[place] ?? "?") ?? words;
}

const LETTERS = { magic: "It does not begin as an index does." };

// Has a reader of the screen say a text. What is shown with it may be long, and is not said by itself.
function announce(text) {
    $("told").textContent = text;
}

function verdict(isGood, word, ...more) {
    const line = make("p", {}, make("span", { className: `verdict ${isGood ? "good" : "bad"}` }, `${isGood ? "✓" : "✗"} ${word}`), ". ", ...more);
    announce(line.textContent);
    return line;
}

// The frames that the lines of a judge tell of: each with its line, its query and its answers.
function framesIn(lines) {
    const frames = [];
    for (let i = 0; i < lines.length; i++) {
        const found = /^frame (\d+) (\w+) ?(.*)$/.exec(lines[i]);
        if (found === null) continue;
        const frame = { line: lines[i], number: found[1], word: found[2], why: found[3], query: null, from: 0, to: 0 };
        if (/^(range|nearest),/.test(lines[i + 1] ?? "")) {
            frame.query = lines[i + 1].split(",");
            frame.from = i + 3;
            frame.to = i + 3 + Number(lines[i + 2].split(" ")[1]);
            i = frame.to - 1;
        }
        frames.push(frame);
    }
    return frames;
}

function queryText([kind, bound, ...point]) {
    return kind === "range" ? `all within ${grouped(BigInt(bound))} of ${pointText(point)}` : `the ${grouped(BigInt(bound))} nearest to ${pointText(point)}`;
}

// A table: rows of texts below their headings, the first ones where there are many.
function tableOf(caption, headings, count, row) {
    const body = make("tbody");
    for (let i = 0; i < Math.min(count, MOST_SHOWN); i++) body.append(make("tr", {}, ...row(i).map((cell) => make("td", {}, String(cell)))));
    const table = make("table", {}, caption === "" ? null : make("caption", {}, caption), make("thead", {}, make("tr", {}, ...headings.map((it) => make("th", { scope: "col" }, it)))), body);
    return make("div", { className: "table", tabIndex: 0 }, table, count > MOST_SHOWN ? make("p", { className: "faint" }, `The first ${grouped(MOST_SHOWN)} of ${grouped(count)} are shown.`) : null);
}

function frameItem(frame, lines, isOpen) {
    const count = frame.to - frame.from, isGood = frame.word !== "rejected";
    const about = make("span", {}, frame.query === null ? (isGood ? "" : meaning(frame.why)) : `: ${queryText(frame.query)}, ${counted(count, "answer")}`);
    const line = make("span", { className: `verdict ${isGood ? "good" : "bad"}` }, `${isGood ? "✓" : "✗"} ${frame.line}`);
    if (count === 0) return make("p", {}, line, isGood ? "" : ". ", about);
    const item = make("details", {}, make("summary", {}, line, about));
    item.ontoggle = () => {
        if (item.open && item.childElementCount === 1) item.append(tableOf("", ["", "Id", "Distance"], count, (i) => [i + 1, ...lines[frame.from + i].split(" ")]));
    };
    item.open = isOpen;
    return item;
}

const WORDS = { audit: ["sound", "rejected"], verify: ["accepted", "rejected"], check: ["complete", "rejected"], prove: ["proved", "rejected"] };

// Shows what a judge said: the verdict, a sentence, the frames, and the very text.
function showSaid(place, name, said, what) {
    const lines = said.text.split("\n").slice(0, -1), frames = framesIn(lines), last = lastOf(lines) ?? "";
    const rejected = frames.filter((it) => it.word === "rejected"), first = frames.find((it) => it.to > it.from);
    let word = WORDS[name][said.status] ?? "not judged", why = "";
    if (said.status === 6) {
        const fault = lastOf(last.split(" "));
        word = "no index";
        why = LETTERS[fault] ?? meaning(fault);
    } else if (said.status === 7) why = "There are more than 1,073,741,824 bytes of logs.";
    else if (said.status === 0 && name === "audit") why = `The index has ${counted(Number(lines[1].split(" ")[1]), "object")} in ${counted(Number(lines[2].split(" ")[1]), "node")}.`;
    else if (said.status === 0 && name === "verify") why = "The index was not audited.";
    else if (lines[0]?.startsWith("file rejected ")) why = `The index is not sound. ${meaning(lines[0].slice(14))}`;
    else if (/^(log )?rejected ./.test(last)) why = meaning(last.replace(/^(log )?rejected /, ""));
    else if (rejected.length > 0) why = frames.length === 1 ? "" : `${grouped(rejected.length)} of ${counted(frames.length, "frame")} ${rejected.length === 1 ? "is" : "are"} rejected: ${rejected.slice(0, 20).map((it) => it.number).join(", ")}${rejected.length > 20 ? " and more" : ""}.`;
    if (said.status === 0 && name !== "audit" && frames.length === 0) why = "The file has no log in it.";
    const how = said.helpers === undefined ? "" : `read, and judged by ${said.helpers} workers side by side, in `;
    const parts = [verdict(said.status === 0, word, why, make("span", { className: "faint" }, ` ${what ?? ""} ${how}${timed(said.took)}.`))];
    if (frames.length > 0) {
        parts.push(make("div", { className: "frames" }, ...frames.slice(0, MOST_FRAMES).map((it) => frameItem(it, lines, it === first))));
        if (frames.length > MOST_FRAMES) parts.push(make("p", { className: "faint" }, `The first ${grouped(MOST_FRAMES)} of ${counted(frames.length, "frame")} are listed.`));
    }
    parts.push(make("details", {}, make("summary", {}, "The lines, as the program writes them"), make("pre", { className: "said", tabIndex: 0 }, said.text)));
    place.replaceChildren(...parts);
}

// ---- an answer and a digest

// The bytes of a digest, or the sentence on what is wrong with it.
function digestIn(text) {
    const digits = text.trim().replace(/^sealed\s+/, "").toLowerCase(), other = /[^0-9a-f]/u.exec(digits);
    if (digits === "") return "Put in the digest of the index, 64 digits.";
    if (other !== null) return `The digest has the character “${other[0]}”, which is none of 0 to 9 and a to f.`;
    if (digits.length !== 64) return `The digest has ${counted(digits.length, "digit")}, and a digest has 64.`;
    return Uint8Array.from(digits.match(/../g), (pair) => parseInt(pair, 16));
}

$("prove").onclick = () => {
    const root = digestIn($("digest").value), file = chosen.carried, place = $("proveResult");
    if (typeof root === "string") return place.replaceChildren(verdict(false, "not judged", root));
    if (file === null) return place.replaceChildren(verdict(false, "not judged", "Choose a file of carried logs."));
    during("Judging", place, async (reads) => {
        const said = await job("prove", { file, root }, reads);
        showSaid(place, "prove", said, `${file.name}, ${sizeText(file.size)},`);
    });
};

// ---- an index

const WHAT_ELSE = { logs: "This is a file of logs. Choose it as Logs, beside the index that it is of.", carried: "This is a file of carried logs. It is judged above, by a digest." };

const HOW_DRAWN = "Each row is a level, the root on top. Each node is as wide as it has objects.";

async function openIndex(file) {
    chosen.index = file;
    open = query = null;
    for (const id of ["about", "auditResult", "logsResult", "askResult", "answers"]) $(id).replaceChildren();
    $("drawing").hidden = true;
    await during("Opening", $("about"), async (reads) => {
        const said = await job("open", file, reads), place = $("about");
        if (said.kind !== "index") {
            const fault = lastOf(said.said?.text.trim().split(" ") ?? []), why = WHAT_ELSE[said.kind] ?? LETTERS[fault] ?? meaning(fault);
            return place.replaceChildren(verdict(false, "no index", `${file.name}: `, why));
        }
        open = said;
        const facts = { File: file.name, Metric: said.head.metric, Dimension: said.head.dim, Objects: grouped(said.head.objects), Pages: grouped(said.head.pages), Height: said.head.height, Generation: grouped(said.head.generation), Size: sizeText(file.size), "At most": `${grouped(said.head.limit)} objects`, Splits: `${said.head.promote}, ${said.head.split}` };
        announce(`${file.name}: ${said.head.metric}, ${counted(said.head.objects, "object")}.`);
        place.replaceChildren(make("dl", {}, ...Object.entries(facts).map(([name, value]) => make("div", {}, make("dt", {}, name), make("dd", {}, String(value))))));
        if (said.tree === null) place.append(make("p", {}, "Its pages are no tree, so no picture is drawn. An audit names the fault."));
        else place.append(levelTable(said.stats));
        $("point").value = (said.point ?? []).join(", ");
        $("radius").value = said.radius;
        picture.hold(said.tree);
        if (said.tree === null) return;
        $("drawing").hidden = false;
        $("words").hidden = true;
        $("drawn").textContent = `The tree has ${counted(said.tree.page.length, "node")}. ${HOW_DRAWN}`;
        picture.paint({ ways: new Uint8Array(said.tree.page.length).fill(6), ticks: [] });
    });
}

// What `stats` says of each level, as a table.
function levelTable(stats) {
    const levels = stats.split("\n").map((line) => /^level (\d+) nodes (\d+) entries (.*) radius (.*)$/.exec(line)).filter((found) => found !== null);
    const spread = (numbers) => (numbers === "-" ? ["", "", ""] : numbers.split(" ").map((number) => grouped(Number(number))));
    return tableOf("Its levels, from the root down: how many entries its nodes have, and the radii of their regions", ["Level", "Nodes", "Least", "Middle", "Most", "Least radius", "Middle", "Most"],
        levels.length, (i) => [levels[i][1], grouped(Number(levels[i][2])), ...spread(levels[i][3]), ...spread(levels[i][4])]);
}

function save(bytes, name) {
    const link = make("a", { href: URL.createObjectURL(new Blob([bytes])), download: name });
    link.click();
    setTimeout(() => URL.revokeObjectURL(link.href), 1000);
}

$("dump").onclick = () => during("Writing", $("auditResult"), async () => {
    const said = await job("dump"), place = $("auditResult");
    if (said.status !== 0) return place.replaceChildren(verdict(false, "not saved", `${sentence(said.text.trim())} An audit names the fault.`));
    save(said.text, `${chosen.index.name}.script`);
    place.replaceChildren(make("p", {}, `Saved ${counted(open.head.objects, "object")} as a script that makes them again: mtree session NEW <${chosen.index.name}.script.`));
});

$("audit").onclick = () => during("Auditing", $("auditResult"), async () => showSaid($("auditResult"), "audit", await job("audit")));

for (const name of ["verify", "check"]) {
    $(name).onclick = () => {
        const file = chosen.logs, place = $("logsResult");
        if (file === null) return place.replaceChildren(verdict(false, "not judged", "Choose a file of logs."));
        during("Judging", place, async (reads) => showSaid(place, name, await job(name, file, reads), `${file.name}, ${sizeText(file.size)},`));
    };
}

// ---- a query, and a saved log

function showQuery(asked, headings, row, more) {
    query = asked;
    announce(`${counted(asked.ids.length, "answer")}.`);
    $("answers").replaceChildren(asked.ids.length === 0 ? make("p", {}, "No answer.") : tableOf(counted(asked.ids.length, "answer"), headings, asked.ids.length, row));
    if (asked.drawn === null) return void ($("drawing").hidden = true);
    const { nodes, Skip, Far, Near } = asked.drawn.counts, all = Skip + Far + Near;
    $("drawing").hidden = false;
    $("drawn").textContent = `${grouped(nodes)} of ${counted(open.tree.page.length, "node")} opened. Of their ${counted(all, "entry", "entries")} ${grouped(Skip)} were ruled out without a distance, ${grouped(Far)} by one distance. ${HOW_DRAWN}${more}`;
    picture.paint(asked.drawn);
    const words = $("words");
    words.hidden = false;
    words.open = false;
    words.replaceChildren(words.firstElementChild);
}

$("words").ontoggle = async () => {
    const words = $("words"), asked = query;
    if (!words.open || words.childElementCount > 1 || asked === null) return;
    const said = await job("words", asked.frame).catch((error) => ({ text: error.message }));
    if (asked === query && words.childElementCount === 1) words.append(make("pre", { className: "walk", tabIndex: 0 }, said.text));
};

function wordsOf(text, what, most) {
    const digits = text.trim().replace(/[ ,_](?=\d{3}\b)/g, "");
    if (!/^\d+$/.test(digits)) throw new Error(`${what} is a whole number, and “${text.trim()}” is none`);
    if (BigInt(digits) > most) throw new Error(`${what} is at most ${most}`);
    return BigInt(digits);
}

function ask(kind) {
    const place = $("askResult");
    during("Searching", place, async () => {
        const given = $("point").value.split(/[\s,;]+/).filter((it) => it !== "");
        const point = given.map((it) => Number(wordsOf(it, "a coordinate", 0xffffffffn)));
        const bound = kind === "range" ? wordsOf($("radius").value, "a radius", (1n << 64n) - 1n) : wordsOf($("count").value, "how many are asked for", (1n << 64n) - 1n);
        if (point.length !== open.head.dim) throw new Error(`the point has ${counted(point.length, "number")}, and the index ${open.head.dim}`);
        if (kind === "nearest" && bound === 0n) throw new Error("at least 1 of the nearest has to be asked for");
        const said = await job("ask", { kind, point, bound });
        const tagged = said.tags.some((tag, i) => tag !== BigInt(said.ids[i]));
        showQuery({ ...said, name: kind }, tagged ? ["", "Id", "Distance", "Tag"] : ["", "Id", "Distance"], (i) => [i + 1, said.ids[i], said.distances[i], ...(tagged ? [said.tags[i]] : [])], "");
        place.replaceChildren(make("p", {}, `${sentence(queryText([kind, bound, ...point]))} ${counted(said.ids.length, "answer")}. `, make("span", { className: "faint" }, `${timed(said.took)}, with the picture ${timed(said.all)}.`)));
    });
}
$("range").onclick = () => ask("range");
$("nearest").onclick = () => ask("nearest");

$("show").onclick = () => {
    const file = chosen.logs, place = $("logsResult");
    if (file === null) return place.replaceChildren(verdict(false, "not shown", "Choose a file of logs."));
    during("Reading", place, async () => {
        const which = wordsOf($("frame").value, "a frame's number", 0xffffffffn), said = await job("show", { file, number: Number(which) });
        const why = said.said.status === 0 ? "" : meaning(said.said.text.split("\n")[0].replace(/^(frame 0|log) rejected /, ""));
        place.replaceChildren(verdict(said.said.status === 0, `frame ${which} ${said.said.status === 0 ? "accepted" : "rejected"}`, `${file.name}: ${queryText([said.kind, said.bound, ...said.point])}. `, why));
        $("askResult").replaceChildren(make("p", {}, `Frame ${which} of ${file.name}, ${said.said.status === 0 ? "accepted" : "rejected"}: ${queryText([said.kind, said.bound, ...said.point])}. ${counted(said.ids.length, "answer")}.`));
        $("point").value = said.point.join(", ");
        $(said.kind === "range" ? "radius" : "count").value = said.bound;
        showQuery({ ...said, name: said.kind }, ["", "Id", "Distance"], (i) => [i + 1, said.ids[i], said.distances[i]], said.said.status === 0 ? "" : " The log is rejected, so the picture shows what it claims.");
    });
};

$("save").onclick = () => save(query.frame, `${query.name}.log`);

// ---- the picture: a row for each level, and each node as wide as it has objects

const picture = (() => {
    const canvas = $("picture"), mark = $("mark"), ROW = 36, GAP = 4, TICKS = 14;
    let tree = null, shown = null, rows = [], selected = -1, wide = 0, asked = 0;

    const left = (i) => (tree.objects === 0 ? 0 : (tree.from[i] / tree.objects) * wide);
    const right = (i) => (tree.objects === 0 ? wide : (tree.to[i] / tree.objects) * wide);
    const colours = () => {
        const style = getComputedStyle(document.documentElement);
        return (name) => style.getPropertyValue(`--${name}`).trim();
    };

    function sized(it) {
        const scale = devicePixelRatio || 1, high = rows.length * (ROW + GAP) + TICKS;
        it.width = Math.round(wide * scale);
        it.height = Math.round(high * scale);
        it.style.height = `${high}px`;
        const ink = it.getContext("2d");
        ink.scale(scale, scale);
        return ink;
    }

    function draw() {
        if (tree === null || shown === null || $("drawing").hidden) return;
        wide = canvas.parentElement.clientWidth;
        const ink = sized(canvas), colour = colours();
        // The opened ones are drawn last, so that they are seen also where a node is narrower than a pixel.
        for (const [way, fill, text, alpha, least] of [[0, "line", "", 1, .6], [6, "skip", "", 1, .6], [5, "skip", "", .35, .6], [4, "far", "", .35, .6], [3, "skip", "Skip", 1, .6], [2, "far", "Far", 1, 1], [1, "open", "opened", 1, 2]]) {
            ink.globalAlpha = alpha;
            const on = colour({ open: "onOpen", far: "onFar", skip: "onSkip", line: "ink" }[fill]);
            rows.forEach((row, depth) => {
                let drawnTo = -1;
                for (const i of row) {
                    if (shown.ways[i] !== way) continue;
                    const from = left(i), width = Math.max(right(i) - from - (right(i) - from > 3 ? 1 : 0), least);
                    if (from + width - drawnTo < .5) continue;
                    drawnTo = from + width;
                    ink.fillStyle = colour(fill);
                    ink.fillRect(from, depth * (ROW + GAP), width, ROW);
                    if (text !== "" && width > 52) {
                        ink.fillStyle = on;
                        ink.font = "13px system-ui, sans-serif";
                        ink.fillText(text, from + 6, depth * (ROW + GAP) + ROW / 2 + 5, width - 10);
                    }
                }
            });
        }
        ink.globalAlpha = 1;
        ink.fillStyle = colour("hit");
        const top = rows.length * (ROW + GAP) - 1;
        for (const object of shown.ticks) {
            const x = ((object + .5) / tree.objects) * wide;
            ink.beginPath();
            ink.moveTo(x, top);
            ink.lineTo(x - 4.5, top + 12);
            ink.lineTo(x + 4.5, top + 12);
            ink.fill();
        }
        outline();
    }

    function outline() {
        const ink = sized(mark);
        if (selected < 0) return;
        const from = left(selected), colour = colours();
        ink.lineWidth = 2;
        ink.strokeStyle = colour("ink");
        ink.strokeRect(Math.min(from, wide - 4) + 1, tree.depth[selected] * (ROW + GAP) + 1, Math.max(right(selected) - from - 2, 2), ROW - 2);
    }

    async function select(i) {
        if (i < 0 || i === selected) return;
        selected = i;
        outline();
        asked += 1;
        const turn = asked, facts = await job("node", i).catch(() => null);
        if (turn !== asked || facts === null) return;
        const parts = nodeText(facts);
        $("node").replaceChildren(...parts);
        announce(parts.filter((part) => part.tagName === "P").map((part) => part.textContent).join(" "));
    }

    // The node at a place. Of nodes narrower than a pixel an opened one is taken, where one is near.
    function at(x, y) {
        const row = rows[Math.min(Math.floor(y / (ROW + GAP)), rows.length - 1)];
        if (row === undefined) return -1;
        let low = 0, high = row.length - 1;
        while (low < high) {
            const middle = (low + high + 1) >> 1;
            if (left(row[middle]) <= x) low = middle;
            else high = middle - 1;
        }
        for (let step = 0; step < 200; step++) {
            for (const near of [row[low + step], row[low - step]]) {
                if (near !== undefined && shown.ways[near] === 1 && left(near) - 3 < x && right(near) + 3 > x) return near;
            }
        }
        return row[low];
    }

    canvas.onpointermove = canvas.onpointerdown = (event) => shown !== null && select(at(event.offsetX, event.offsetY));
    canvas.onfocus = () => shown !== null && select(selected < 0 ? 0 : selected);
    canvas.onkeydown = (event) => {
        if (shown === null || selected < 0) return;
        const depth = tree.depth[selected], row = rows[depth], place = row.indexOf(selected);
        const under = (other) => rows[other]?.find((i) => tree.from[i] <= tree.from[selected] && tree.to[i] >= tree.to[selected]);
        const steps = {
            ArrowLeft: () => row[place - 1], ArrowRight: () => row[place + 1], Home: () => row[0], End: () => lastOf(row),
            ArrowUp: () => under(depth - 1), ArrowDown: () => rows[depth + 1]?.find((i) => i > selected),
        };
        const step = steps[event.key];
        if (step === undefined) return;
        event.preventDefault();
        select(step() ?? selected);
    };
    new ResizeObserver(() => canvas.parentElement.clientWidth !== wide && draw()).observe(canvas.parentElement);
    matchMedia("(prefers-color-scheme: dark)").addEventListener("change", draw);

    return {
        hold(held) {
            tree = held;
            shown = null;
            selected = -1;
            rows = [];
            tree?.depth.forEach((depth, i) => {
                if (rows[depth] === undefined) rows[depth] = [];
                rows[depth].push(i);
            });
        },
        paint(drawn) {
            shown = drawn;
            selected = -1;
            $("node").replaceChildren(make("p", { className: "faint" }, "Point at a node, or go to it by the arrow keys, to read what it is and which test ruled it out."));
            draw();
        },
    };
})();

// The test of the entry that names a node, with its numbers.
function testText({ mark, rho, radius, distance, fromAbove, stored }) {
    const reach = `${grouped(rho)} + ${grouped(radius)} = ${grouped(rho + radius)}`;
    if (mark === "Skip") return `Skip: its distance from the query is at least |${grouped(fromAbove)} − ${grouped(stored)}| = ${grouped(Math.abs(fromAbove - stored))}, and only ${reach} is in reach. No distance was measured.`;
    if (mark === "Far") return `Far: its distance from the query is ${grouped(distance)}, and only ${reach} is in reach.`;
    if (mark === "Near") return `Opened: its distance from the query is ${grouped(distance)}, and ${reach} is in reach.`;
    return "No record of the log tells of it: a node above it was ruled out.";
}

function nodeText(facts) {
    const parts = [make("p", {}, make("strong", {}, `Page ${facts.page}`), `, level ${facts.level}${facts.level === 0 ? " (a leaf)" : ""}${facts.parent === null ? ", the root" : `, below page ${facts.parent}`}: ${counted(facts.entries, "entry", "entries")}, ${counted(facts.objects, "object")}.`)];
    const entry = facts.entry;
    if (entry !== undefined) {
        parts.push(make("p", {}, `Centre ${pointText(entry.point)}, radius ${grouped(entry.radius)}, ${grouped(entry.stored)} from the centre above it.`));
        if (entry.rho !== undefined) parts.push(make("p", {}, testText(entry)));
    } else parts.push(make("p", {}, "A search always opens the root."));
    if (facts.own.length > 0 && facts.own[0].mark !== undefined) {
        const isLeaf = facts.level === 0;
        parts.push(tableOf("Its entries, as the log marks them", [isLeaf ? "Object" : "Page", "Mark", ...(isLeaf ? [] : ["Radius"]), "From the centre", "From the query"], facts.own.length,
            (i) => [facts.own[i].id, facts.own[i].mark ?? "", ...(isLeaf ? [] : [grouped(facts.own[i].radius)]), grouped(facts.own[i].stored), facts.own[i].mark === "Skip" ? "not measured" : grouped(facts.own[i].distance)]));
    }
    return parts;
}

// ---- files that are chosen or dropped

$("carried").onchange = () => (chosen.carried = $("carried").files[0] ?? null);
$("logs").onchange = () => (chosen.logs = $("logs").files[0] ?? null);
$("index").onchange = () => $("index").files.length > 0 && openIndex($("index").files[0]);

async function dropped(files) {
    if (jobs > 0) return;
    const first = await files[0].slice(8, 12).arrayBuffer().catch(() => new ArrayBuffer(0)), letters = String.fromCharCode(...new Uint8Array(first));
    const id = letters === "MTLG" ? "logs" : letters === "MTPF" ? "carried" : "index";
    $(id).files = files;
    $(id).dispatchEvent(new Event("change"));
    if (id === "logs" && open === null) $("logsResult").replaceChildren(verdict(false, "not judged yet", "These are logs. Choose the index that they are of."));
    $(id).scrollIntoView({ block: "center" });
}
addEventListener("dragover", (event) => {
    event.preventDefault();
    document.body.classList.add("over");
});
addEventListener("dragleave", () => document.body.classList.remove("over"));
addEventListener("drop", (event) => {
    event.preventDefault();
    document.body.classList.remove("over");
    if (event.dataTransfer.files.length > 0) dropped(event.dataTransfer.files);
});

// ---- the start, and a stop

async function begin() {
    try {
        await unpack();
        await startWorker();
    } catch (error) {
        $("state").textContent = `The module could not be made: ${error.message}`;
        return;
    }
    const sum = globalThis.crypto?.subtle ? [...new Uint8Array(await crypto.subtle.digest("SHA-256", code))].map((byte) => byte.toString(16).padStart(2, "0")).join("") : null;
    if (sum !== null && sum !== $(isWide ? "sumOfWide" : "sumOfModule").textContent) {
        $("state").textContent = "This page is damaged: the module in it has another digest than it says. Nothing is judged.";
        worker.terminate();
        return;
    }
    $("state").textContent = `The ${isWide ? "wide" : "plain"} module is ready (${grouped(code.length)} bytes). Its digest stands at the end of this page.`;
    $("taken").textContent = `This browser took the ${isWide ? "wide" : "plain"} one.`;
    enable();
    document.documentElement.dataset.ready = "yes";
}

// Ends the running job with its worker. The jobs of the new worker stand in order, so that the index is open before the next one.
$("stop").onclick = () => {
    const stopped = [...waiting.values()];
    worker.terminate();
    waiting.clear();
    startWorker().catch((error) => ($("state").textContent = sentence(error.message)));
    if (open !== null) job("open", chosen.index).catch(() => (open = null)).then(enable);
    for (const asked of stopped) asked.fail(new Error("you stopped it"));
};

begin();
