// Does the page's jobs one after another, beside the page, so that it never waits. A job is `{ id, job, given }`; it is answered by
// `{ id, said }` or `{ id, fault, status }`, and `{ id, portion }` comes while a file is read.
import { Engine, Fault, STOPPED, NO_INDEX } from "./engine.mjs";
import { MARKS, kindOf, headOf, entryOf, treeOf, framesOf, logOf, rhoOf, distance } from "./files.mjs";
import { Portions, joined } from "./portions.mjs";

// A fault that is no status of the module.
const OTHER = -2;

const PLAIN = 0, OPENED = 1, FAR = 2, SKIP = 3, BELOW = 2;

// The bytes of carried logs that one helper judges at once, the most helpers, and the most bytes that the judge takes.
const PORTION = 4 << 20, MOST_HELPERS = 8, MOST_CARRIED = 1 << 30;

// The place of this script, which a helper runs too.
let script = null, engine = null;
// The open index: its file, its bytes in the module's memory, its head and its tree. And the log that is shown.
let index = null, shown = null;

const unread = (error) => new Fault(OTHER, `the file can't be read: ${error.message}`);

// The bytes of a file, or of a part of it.
async function bytesOf(part) {
    try {
        return new Uint8Array(await part.arrayBuffer());
    } catch (error) {
        throw unread(error);
    }
}

// Gives the bytes of a file to `use`, piece by piece with their place, as the browser reads them.
async function eachPiece(file, tell, use) {
    const reader = file.stream().getReader();
    let at = 0;
    for (;;) {
        const { done, value } = await reader.read().catch((error) => {
            throw unread(error);
        });
        if (done) break;
        use(value, at);
        at += value.length;
        tell(at / file.size);
    }
    if (at !== file.size) throw new Fault(OTHER, "the file has another size by now");
}

// Reads a file into the module's memory.
async function read(file, tell) {
    const span = engine.room(file.size);
    try {
        await eachPiece(file, tell, (bytes, at) => engine.bytes(span).set(bytes, at));
    } catch (error) {
        engine.free(span);
        throw error;
    }
    return span;
}

// Judges the bytes of a file by `judge`. They are dropped afterwards.
async function judged(file, tell, judge) {
    const calls = engine.calls, span = await read(file, tell);
    try {
        const began = performance.now(), said = judge(span);
        return { ...said, took: performance.now() - began };
    } finally {
        if (engine.calls === calls) engine.free(span);
    }
}

// A worker below this one, of the same script and the same module. It judges portions, one after another.
class Helper {
    constructor() {
        this.worker = new Worker(script);
        this.asked = [];
        this.worker.onmessage = ({ data }) => this.asked.shift()(data);
        // Gives null where the helper stops.
        this.stopped = new Promise((done) => {
            this.worker.onerror = (event) => {
                event.preventDefault();
                done(null);
            };
        });
        this.ask("start", { code: engine.module, text: "" });
    }

    // Has the helper do a job. The bytes of a portion move to it.
    ask(job, given, moved = []) {
        this.worker.postMessage({ id: 0, job, given }, moved);
        return new Promise((done) => this.asked.push(done));
    }
}

// The helpers, which stay for the next file.
let helpers = [];

// The bytes of pieces, one behind the other.
function together(pieces) {
    const bytes = new Uint8Array(pieces.reduce((size, piece) => size + piece.length, 0));
    let at = 0;
    for (const piece of pieces) {
        bytes.set(piece, at);
        at += piece.length;
    }
    return bytes;
}

// What the helpers say of the portions of a file. They judge while the next ones are read. Null where one can't be judged.
async function saidByHelpers(file, root, count, tell) {
    const portions = new Portions(PORTION), asked = [];
    const hand = (pieces) => {
        const bytes = together(pieces);
        asked.push(helpers[asked.length % count].ask("portion", { bytes, root }, [bytes.buffer]));
    };
    while (helpers.length < count) helpers.push(new Helper());
    await eachPiece(file, tell, (bytes) => portions.add(bytes).forEach(hand));
    hand(portions.rest());
    const answers = await Promise.race([Promise.all(asked), ...helpers.map((helper) => helper.stopped)]);
    return answers === null || answers.some((it) => it.fault !== undefined) ? null : joined(answers.map((it) => it.said));
}

// Judges a file by helpers, or returns null and drops them.
async function judgedByHelpers(file, root, count, tell) {
    const began = performance.now(), said = await saidByHelpers(file, root, count, tell).catch(() => null);
    if (said !== null) return { ...said, helpers: count, took: performance.now() - began };
    helpers.forEach((helper) => helper.worker.terminate());
    helpers = [];
    return null;
}

function opened() {
    if (index === null) throw new Fault(NO_INDEX, "no index is open");
    return index;
}

// What the picture shows of a log: how each node fared, which objects are answers, and how many entries had each mark.
function drawn(log) {
    const { tree, head } = index;
    if (tree === null) return null;
    const bytes = engine.bytes(index.span), ways = new Uint8Array(tree.nodes.length), ticks = [], answers = new Set(log.answers.map((it) => it.id));
    const counts = { nodes: 0, Skip: 0, Far: 0, Near: 0 };
    tree.nodes.forEach((node, number) => {
        node.number = number;
        const own = log.marks.get(node.page), above = node.parent === null ? OPENED : ways[node.parent.number];
        if (node.parent === null) ways[number] = own === undefined ? PLAIN : OPENED;
        else if (above === OPENED) ways[number] = [SKIP, FAR, OPENED][log.marks.get(node.parent.page)[node.place]] ?? PLAIN;
        else ways[number] = above === FAR || above === SKIP ? above + BELOW : above;
        if (ways[number] === OPENED && own === undefined) ways[number] = PLAIN;
        if (ways[number] !== OPENED) return;
        counts.nodes += 1;
        own.forEach((mark, place) => {
            counts[MARKS[mark]] += 1;
            if (node.level === 0 && mark === 2 && place < node.entries && answers.has(entryOf(bytes, head, node.page, place).id)) ticks.push(node.from + place);
        });
    });
    return { ways, ticks: Uint32Array.from(ticks), counts };
}

// One entry of a node, with what the shown log did to it.
function entryFacts(node, number) {
    const { head, span } = index, bytes = engine.bytes(span), entry = entryOf(bytes, head, node.page, number);
    const facts = { id: entry.id, point: entry.point, radius: entry.radius, stored: entry.stored };
    if (shown === null) return facts;
    const above = node.parent === null ? null : entryOf(bytes, head, node.parent.page, node.place).point;
    facts.mark = MARKS[shown.log.marks.get(node.page)?.[number]] ?? null;
    facts.rho = shown.rho;
    facts.fromAbove = above === null ? null : distance(head.metric, above, shown.log.point);
    facts.distance = distance(head.metric, entry.point, shown.log.point);
    return facts;
}

const jobs = {
    // `code` is the bytes of a module, or the module; `text` is that of this script.
    async start({ code, text }) {
        script = URL.createObjectURL(new Blob([text], { type: "text/javascript" }));
        engine = new Engine(code instanceof WebAssembly.Module ? code : await WebAssembly.compile(code));
        return null;
    },

    // Opens an index. Its bytes are read once and stay in the module's memory.
    async open(file, tell) {
        jobs.close();
        const kind = kindOf(await bytesOf(file.slice(0, 16)));
        if (kind === "logs" || kind === "carried") return { kind };
        const span = await read(file, tell);
        // The judge opens the file before it judges logs, and here there are none.
        const none = engine.put(new Uint8Array(0)), said = engine.verify(span, none);
        engine.free(none);
        if (said.status === NO_INDEX) {
            engine.free(span);
            return { kind: null, said };
        }
        // (the last call before the bytes are looked at: a call may move the module's memory)
        const stats = engine.stats(span).text;
        const bytes = engine.bytes(span), head = headOf(bytes), tree = treeOf(bytes, head);
        index = { file, span, head, tree };
        const first = tree === null || tree.nodes[0].entries === 0 ? null : entryOf(bytes, head, tree.nodes[0].page, 0);
        const leaf = tree?.nodes.find((node) => node.level === 0 && node.parent !== null);
        return {
            kind: "index", said, head, stats: tree === null ? null : stats, point: first?.point ?? null, radius: leaf ? entryOf(bytes, head, leaf.parent.page, leaf.place).radius : 0,
            tree: tree && { objects: tree.objects, page: Uint32Array.from(tree.nodes, (it) => it.page), depth: Uint8Array.from(tree.nodes, (it) => it.depth), from: Uint32Array.from(tree.nodes, (it) => it.from), to: Uint32Array.from(tree.nodes, (it) => it.to) },
        };
    },

    close() {
        if (index !== null) engine.free(index.span);
        index = shown = null;
    },

    audit() {
        const { span } = opened(), began = performance.now(), said = engine.audit(span);
        return { ...said, took: performance.now() - began };
    },

    dump: () => engine.dump(opened().span),

    // One frame of a log, in words.
    words(frame) {
        return engine.during((take) => engine.show(opened().span, take(engine.put(frame))));
    },

    verify: (file, tell) => judged(file, tell, (logs) => engine.verify(opened().span, logs)),
    check: (file, tell) => judged(file, tell, (logs) => engine.check(opened().span, logs)),

    // Judges carried logs. Large files of them are judged side by side, and as a whole where that fails.
    async prove({ file, root }, tell) {
        const count = file.size > MOST_CARRIED ? 1 : Math.min(MOST_HELPERS, navigator.hardwareConcurrency ?? 1, Math.floor(file.size / PORTION));
        const said = count > 1 ? await judgedByHelpers(file, root, count, tell) : null;
        return said ?? judged(file, tell, (logs) => engine.prove(logs, root));
    },

    portion({ bytes, root }) {
        const logs = engine.put(bytes), said = engine.prove(logs, root);
        engine.free(logs);
        return said;
    },

    ask({ kind, point, bound }) {
        const { span } = opened(), began = performance.now(), answer = engine[kind](span, point, bound);
        const took = performance.now() - began, log = logOf(answer.frame.subarray(8));
        shown = { log, rho: rhoOf(log) };
        return { ...answer, took, drawn: drawn(log), all: performance.now() - began };
    },

    // Judges one frame of a file of logs, and draws it.
    async show({ file, number }) {
        const { span, head } = opened(), bytes = await bytesOf(file), frames = framesOf(bytes);
        if (number >= frames.length) throw new Fault(OTHER, frames.length === 0 ? "the file has no whole frame" : `the file has ${frames.length} whole frames, numbered from 0`);
        const [from, to] = frames[number], log = logOf(bytes.subarray(from, to));
        if (log === null) throw new Fault(OTHER, `frame ${number} is no log of a range or nearest query`);
        const logs = engine.put(bytes.subarray(from - 8, to)), said = engine.verify(span, logs);
        engine.free(logs);
        const fits = log.generation === head.generation && log.root === head.root && log.point.length === head.dim;
        shown = fits ? { log, rho: rhoOf(log) } : null;
        return { said, frames: frames.length, kind: log.kind, bound: log.bound, point: log.point, ids: Uint32Array.from(log.answers, (it) => it.id), distances: log.answers.map((it) => it.distance), drawn: fits ? drawn(log) : null, frame: bytes.slice(from - 8, to) };
    },

    // What the page says of a node: where it stands, the entry that names it, and its own entries where the shown log opened it.
    node(number) {
        const node = opened().tree.nodes[number], isOpened = shown !== null && shown.log.marks.has(node.page);
        const facts = { page: node.page, level: node.level, entries: node.entries, objects: node.to - node.from, parent: node.parent === null ? null : node.parent.page };
        if (node.parent !== null) facts.entry = entryFacts(node.parent, node.place);
        facts.own = isOpened || shown === null ? Array.from({ length: node.entries }, (_, i) => entryFacts(node, i)) : [];
        return facts;
    },
};

// After a trap the module has a new memory, so the index is read again.
async function recovered(fault) {
    if (fault.status !== STOPPED) return fault.message;
    const had = index;
    index = shown = null;
    if (had === null) return `${fault.message}. Its memory was dropped, and a new one was made.`;
    try {
        index = { ...had, span: await read(had.file, () => {}) };
        return `${fault.message}. Its memory was dropped, a new one was made, and the index was read into it again.`;
    } catch {
        return `${fault.message}. Its memory was dropped and a new one was made. The index could not be read again: choose it once more.`;
    }
}

onmessageerror = () => {
    throw new Error("a message can't be read");
};

let turn = Promise.resolve();
onmessage = ({ data: { id, job, given } }) => {
    turn = turn.then(async () => {
        try {
            postMessage({ id, said: await jobs[job](given, (portion) => postMessage({ id, portion })) });
        } catch (error) {
            const fault = error instanceof Fault ? error : new Fault(OTHER, String(error));
            postMessage({ id, fault: await recovered(fault), status: fault.status });
        }
    });
};
