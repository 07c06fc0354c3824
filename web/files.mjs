// Reads index files and logs for the picture. docs/FORMATS.md has the formats. Nothing here is proved, and no verdict rests on it.

const PAGE = 4096, FAR_OFF = 2 ** 38, MARKS = ["Skip", "Far", "Near"];
const METRICS = ["", "hamming", "l1", "max", "kendall", "hausdorff", "mixsum", "mixmax", "l1cap"];

const viewOf = (bytes) => new DataView(bytes.buffer, bytes.byteOffset, bytes.byteLength);
const letters = (bytes, from, count) => String.fromCharCode(...bytes.subarray(from, from + count));
const wholeAt = (view, at) => Number(view.getBigUint64(at));

// What a file begins like: "index", "logs", "carried" or null.
function kindOf(bytes) {
    if (letters(bytes, 0, 8) === "MTREEIDX") return "index";
    return { MTLG: "logs", MTPF: "carried" }[letters(bytes, 8, 4)] ?? null;
}

// The head and the live slot of an index, or null.
function headOf(bytes) {
    if (bytes.length < 3 * PAGE || kindOf(bytes) !== "index") return null;
    const view = viewOf(bytes);
    const slots = [PAGE, 2 * PAGE].filter((at) => bytes[at] === 0xa5).map((at) => ({
        generation: view.getBigUint64(at + 8), root: view.getUint32(at + 16), height: view.getUint32(at + 20), objects: view.getUint32(at + 24), pages: view.getUint32(at + 28),
    }));
    if (slots.length === 0) return null;
    const live = slots.length === 2 && slots[1].generation > slots[0].generation ? slots[1] : slots[0];
    return {
        version: view.getUint16(8), metric: METRICS[bytes[10]] ?? "", dim: bytes[11], promote: ["", "m_RAD", "mM_RAD"][bytes[12]] ?? "",
        split: ["", "hyperplane", "balanced"][bytes[13]] ?? "", limit: view.getUint32(16), size: bytes.length, ...live,
    };
}

// Entry `number` of the node of a page. A child's page or an object's id is its `id`.
function entryOf(bytes, head, page, number) {
    const view = viewOf(bytes), at = page * PAGE + 16 + number * (20 + 4 * head.dim), point = [];
    for (let i = 0; i < head.dim; i++) point.push(view.getUint32(at + 20 + 4 * i));
    const isLeaf = bytes[page * PAGE] === 0;
    return { id: view.getUint32(at), radius: isLeaf ? 0 : wholeAt(view, at + 4), stored: wholeAt(view, at + 12), point };
}

// The nodes of the live tree in pre-order, each with its page, its depth, its parent and its entry there, and the objects below it, which
// are counted from the left; or null where the pages are no tree.
function treeOf(bytes, head) {
    const view = viewOf(bytes), met = new Set(), nodes = [], size = 20 + 4 * head.dim, most = Math.min(32, Math.floor(4080 / size));
    let objects = 0;
    const walk = (page, parent, place) => {
        const at = page * PAGE, level = parent === null ? head.height : parent.level - 1;
        if (page < 3 || at + PAGE > bytes.length || met.has(page) || bytes[at] !== level || level > 14) return false;
        const entries = view.getUint16(at + 2), node = { page, level, depth: head.height - level, parent, place, entries, from: objects, to: 0 };
        if (entries > most) return false;
        met.add(page);
        nodes.push(node);
        if (level === 0) objects += entries;
        else for (let i = 0; i < entries; i++) if (!walk(view.getUint32(at + 16 + i * size), node, i)) return false;
        node.to = objects;
        return true;
    };
    return head.dim >= 1 && head.dim <= 64 && head.height <= 14 && walk(head.root, null, 0) ? { nodes, objects } : null;
}

// Where the frames of a file of logs begin and end, as far as they are whole.
function framesOf(bytes) {
    const view = viewOf(bytes), frames = [];
    for (let at = 0; at + 8 <= bytes.length; ) {
        const end = at + 8 + wholeAt(view, at);
        if (end > bytes.length) break;
        frames.push([at + 8, end]);
        at = end;
    }
    return frames;
}

// The log of a range or a nearest query, or null where the bytes are none.
function logOf(bytes) {
    const view = viewOf(bytes);
    try {
        if (letters(bytes, 0, 4) !== "MTLG" || bytes[4] !== 1 || (bytes[5] !== 1 && bytes[5] !== 2)) return null;
        const log = { kind: bytes[5] === 1 ? "range" : "nearest", generation: view.getBigUint64(6), root: view.getUint32(14), bound: view.getBigUint64(18), point: [], answers: [], marks: new Map() };
        let at = 27;
        for (let i = 0; i < bytes[26]; i++, at += 4) log.point.push(view.getUint32(at));
        const answers = view.getUint32(at);
        at += 4;
        for (let i = 0; i < answers; i++, at += 12) log.answers.push({ id: view.getUint32(at), distance: wholeAt(view, at + 4) });
        const records = view.getUint32(at);
        at += 4;
        for (let i = 0; i < records; i++) {
            const page = view.getUint32(at), count = view.getUint8(at + 4);
            if (at + 5 + count > bytes.length) return null;
            log.marks.set(page, bytes.slice(at + 5, at + 5 + count));
            at += 5 + count;
        }
        return log;
    } catch (error) {
        if (error instanceof RangeError) return null;
        throw error;
    }
}

// The pruning radius that a log's marks are judged by.
function rhoOf(log) {
    if (log.kind === "range") return log.bound < BigInt(FAR_OFF) ? Number(log.bound) : FAR_OFF;
    return BigInt(log.answers.length) === log.bound && log.answers.length > 0 ? Math.min(log.answers[log.answers.length - 1].distance, FAR_OFF) : FAR_OFF;
}

// The distance of two points.
function distance(metric, x, y) {
    const gap = (a, b) => Math.abs(a - b);
    const sum = (numbers) => numbers.reduce((all, number) => all + number, 0);
    const half = x.length / 2;
    const places = (from, to) => sum(x.slice(from, to).map((a, i) => (a === y[from + i] ? 0 : 1)));
    const l1 = (from, to) => sum(x.slice(from, to).map((a, i) => gap(a, y[from + i])));
    const oneWay = (from, to) => Math.max(...from.map((a) => Math.min(...to.map((b) => gap(a, b)))));
    switch (metric) {
        case "hamming": return places(0);
        case "l1": return l1(0);
        case "max": return Math.max(...x.map((a, i) => gap(a, y[i])));
        case "kendall": return sum(x.map((a, i) => sum(x.slice(i + 1).map((b, j) => (a < b === y[i] < y[i + 1 + j] ? 0 : 1)))));
        case "hausdorff": return Math.max(oneWay(x, y), oneWay(y, x));
        case "mixsum": return l1(0, half) + places(half);
        case "mixmax": return Math.max(l1(0, half), places(half));
        case "l1cap": return Math.min(l1(0), 65535);
    }
    return NaN;
}

export { MARKS, kindOf, headOf, entryOf, treeOf, framesOf, logOf, rhoOf, distance };
