// Compares a module with what the program wrote, in node. Use: compare.mjs MODULE FOLDER, with the cases that make_cases.py put into FOLDER.
import { createHash } from "node:crypto";
import { readFileSync } from "node:fs";
import { basename } from "node:path";
import { Engine, Fault } from "../engine.mjs";
import { distance, entryOf, headOf, logOf, rhoOf, treeOf } from "../files.mjs";
import { Portions, joined } from "../portions.mjs";

const [, , place, folder] = process.argv;
const engine = new Engine(new WebAssembly.Module(readFileSync(place)));
const cases = JSON.parse(readFileSync(`${folder}/cases.json`, "utf8"));
const read = (name) => new Uint8Array(readFileSync(`${folder}/${name}`));
const sum = (bytes) => createHash("sha256").update(bytes).digest("hex");
const held = { name: null, span: null };
let compared = 0, failed = 0, cut = 0;

function same(found, wanted, about) {
    compared += 1;
    if (JSON.stringify(found) === JSON.stringify(wanted)) return;
    failed += 1;
    if (failed <= 20) console.log(`${about}: ${JSON.stringify(found)?.slice(0, 300)}, and not ${JSON.stringify(wanted)?.slice(0, 300)}`);
}

function fileOf(name) {
    if (held.name !== name) {
        if (held.span !== null) engine.free(held.span);
        held.name = name;
        held.span = engine.put(read(name));
    }
    return held.span;
}

function answered(it) {
    if (it.call === "audit" || it.call === "stats" || it.call === "dump") return engine[it.call](fileOf(it.file));
    if (it.call === "range" || it.call === "nearest") {
        const answer = engine[it.call](fileOf(it.file), it.point, BigInt(it.bound));
        return { ...answer, status: 0, text: `hits ${answer.ids.length}\n${Array.from(answer.ids, (id, i) => `${id} ${answer.tags[i]} ${answer.distances[i]}\n`).join("")}`, log: sum(answer.frame) };
    }
    if (it.call === "prove") return proved(it, read(it.logs));
    const logs = engine.put(read(it.logs)), said = engine[it.call](fileOf(it.file), logs);
    engine.free(logs);
    return said;
}

function proved(it, bytes) {
    const logs = engine.put(bytes), said = engine.prove(logs, Uint8Array.from(Buffer.from(it.root, "hex")));
    engine.free(logs);
    return said;
}

// What is said of portions of at least `least` bytes, which come in pieces, is what is said of the whole file.
function comparePortions(it, least, piece) {
    const bytes = read(it.logs), portions = new Portions(least), all = [];
    for (let at = 0; at < bytes.length; at += piece) all.push(...portions.add(bytes.subarray(at, at + piece)));
    all.push(portions.rest());
    same(joined(all.map((pieces) => proved(it, Buffer.concat(pieces)))), { status: it.status, text: it.text }, `${all.length} portions of ${it.about}`);
    cut += all.length > 2 ? 1 : 0;
}

// What the picture tells of a query: each mark is allowed by the numbers that it shows, and the distances are those of the answers.
function compareFacts(it, answer) {
    const bytes = read(it.file), head = headOf(bytes), tree = treeOf(bytes, head), log = logOf(answer.frame.subarray(8)), rho = rhoOf(log);
    const found = new Map(Array.from(answer.ids, (id, i) => [id, Number(answer.distances[i])]));
    let opened = 0, wrong = 0;
    for (const node of tree.nodes) {
        const marks = log.marks.get(node.page);
        if (marks === undefined) continue;
        opened += 1;
        const above = node.parent === null ? null : entryOf(bytes, head, node.parent.page, node.place).point;
        marks.forEach((mark, number) => {
            const entry = entryOf(bytes, head, node.page, number), apart = distance(head.metric, entry.point, log.point), reach = rho + entry.radius;
            const isSkip = above !== null && Math.abs(distance(head.metric, above, log.point) - entry.stored) > reach;
            if (mark !== (isSkip ? 0 : apart > reach ? 1 : 2)) wrong += 1;
            if (node.level === 0 && found.has(entry.id) && found.get(entry.id) !== apart) wrong += 1;
            if (above !== null && distance(head.metric, above, entry.point) !== entry.stored) wrong += 1;
        });
    }
    same([opened, wrong], [log.marks.size, 0], `the picture's numbers of ${it.about}`);
}

// Takes and frees blocks of the heap, each filled with bytes of its own, and looks whether they stay.
function compareHeap() {
    const blocks = [];
    let seed = 1, wrong = 0;
    const drawn = (below) => {
        seed = (Math.imul(seed, 1103515245) + 12345) >>> 0;
        return (seed >>> 8) % below;
    };
    for (let round = 0; round < 2000; round++) {
        if (blocks.length > 60 || (blocks.length > 0 && drawn(3) === 0)) {
            const [{ span, filler }] = blocks.splice(drawn(blocks.length), 1);
            if (span.place % 16n !== 0n || !engine.bytes(span).every((byte) => byte === filler)) wrong += 1;
            engine.free(span);
        } else {
            const span = engine.room(drawn(2 ** (1 + drawn(21)))), filler = round % 256;
            engine.bytes(span).fill(filler);
            blocks.push({ span, filler });
        }
    }
    for (const { span } of blocks) engine.free(span);
    same(wrong, 0, "blocks of the heap that changed");
}

compareHeap();
for (const it of cases) {
    let answer;
    try {
        answer = answered(it);
        if (it.isWhole && answer.frame !== undefined) compareFacts(it, answer);
    } catch (error) {
        if (!(error instanceof Fault)) throw error;
        answer = { status: error.status, text: null };
    }
    same([answer.status, answer.text, answer.log ?? null], [it.status, it.text, it.log ?? null], `${it.call} of ${it.about}`);
    if (it.call === "prove") [[1, 1 << 20], [20000, 4093]].forEach(([least, piece]) => comparePortions(it, least, piece));
}
same(cut > 100, true, "more than a hundred files in more than two portions");
console.log(`page: ${compared} comparisons of ${basename(place)} with the program in node ${process.version}, ${failed} failed`);
process.exit(failed > 0 ? 1 : 0);
