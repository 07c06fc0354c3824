// Calls the proved code: a module of 32-bit or of 64-bit memory, which takes places and sizes as BigInt in both.

// Why a call gave no answer. STOPPED is no status of the module: the call did not return.
const STOPPED = -1, NO_QUERY = 2, SHORT = 4, NO_INDEX = 6, MEMORY = 8, DAMAGED = 9;

// The bytes of a text that there is room for before a call says how many it has: these at the least, and these at the most.
const LEAST_TEXT = 4096, MOST_TEXT = 64 << 20;

class Fault extends Error {
    constructor(status, words) {
        super(words);
        this.status = status;
    }
}

// A span is `{ place, size }`: bytes in the module's memory, where files and logs lie while they are judged.
class Engine {
    // `module` is a WebAssembly.Module.
    constructor(module) {
        this.module = module;
        this.begin();
    }

    // Makes a new instance, with nothing in its memory.
    begin() {
        this.calls = new WebAssembly.Instance(this.module, {}).exports;
    }

    // Takes memory for `size` bytes.
    room(size) {
        const place = this.calls.page_take(BigInt(size));
        if (place === 0n) throw new Fault(MEMORY, `out of memory: ${size} bytes more do not fit`);
        return { place, size };
    }

    // Frees a span.
    free(span) {
        this.calls.page_give(span.place);
    }

    // The bytes of a span. They are valid until the module's memory grows, so until the next call.
    bytes(span) {
        return new Uint8Array(this.calls.memory.buffer, Number(span.place), span.size);
    }

    // Copies bytes into the module's memory.
    put(bytes) {
        const span = this.room(bytes.length);
        this.bytes(span).set(bytes);
        return span;
    }

    // Does `work`, which gets a function that takes memory until the end of the work. Where the module traps, its memory may be half
    // written: the instance is dropped and a new one is made, which holds no span.
    during(work) {
        const taken = [], calls = this.calls;
        const take = (span) => {
            taken.push(span);
            return span;
        };
        try {
            return work(take);
        } catch (error) {
            if (error instanceof Fault) throw error;
            this.begin();
            throw new Fault(STOPPED, `the module stopped: ${error.message}`);
        } finally {
            if (this.calls === calls) taken.forEach((span) => this.free(span));
        }
    }

    // Word `number` of a span.
    word(span, number) {
        return Number(new DataView(this.calls.memory.buffer).getBigUint64(Number(span.place) + 8 * number, true));
    }

    // The status and the text of a call that judges. A call whose text has no room says how large a buffer it needs, and then has to judge
    // once more. So there is room for `likely` bytes from the first.
    said(call, likely, ...given) {
        return this.during((take) => {
            const size = take(this.room(8));
            for (let room = Math.min(LEAST_TEXT + likely, MOST_TEXT); ; room = this.word(size, 0)) {
                const text = take(this.room(room));
                const status = call(...given, text.place, BigInt(room), size.place);
                if (status === MEMORY) throw new Fault(MEMORY, "out of memory");
                if (status !== SHORT) return { status, text: new TextDecoder().decode(this.bytes({ place: text.place, size: this.word(size, 0) })) };
            }
        });
    }

    audit(file) {
        return this.said(this.calls.mtree_audit, 0, file.place, BigInt(file.size));
    }

    verify(file, logs) {
        return this.said(this.calls.mtree_verify, logs.size, file.place, BigInt(file.size), logs.place, BigInt(logs.size));
    }

    // (a number of four bytes has up to 11 letters in the text)
    check(file, logs) {
        return this.said(this.calls.mtree_check, 3 * logs.size, file.place, BigInt(file.size), logs.place, BigInt(logs.size));
    }

    stats(file) {
        return this.said(this.calls.mtree_stats, 0, file.place, BigInt(file.size));
    }

    // The objects of an index, as a script that makes them again.
    dump(file) {
        return this.said(this.calls.mtree_dump, file.size, file.place, BigInt(file.size));
    }

    // Logs in words: each opened node, and the reason of each mark, which has one byte in the log.
    show(file, logs) {
        return this.said(this.calls.mtree_show, 40 * logs.size, file.place, BigInt(file.size), logs.place, BigInt(logs.size));
    }

    // Judges carried logs by a root digest of 32 bytes. Their pages are not in the text.
    prove(logs, root) {
        const likely = Math.ceil(logs.size / 2);
        return this.during((take) => this.said(this.calls.mtree_proof, likely, logs.place, BigInt(logs.size), take(this.put(root)).place));
    }

    range(file, point, radius) {
        return this.asked(this.calls.mtree_range, file, point, radius);
    }

    nearest(file, point, count) {
        return this.asked(this.calls.mtree_nearest, file, point, count);
    }

    // The hits of a query and the frame of its log. `bound` is the radius or the count, a BigInt below 2^64.
    asked(call, file, point, bound) {
        return this.during((take) => {
            const place = take(this.put(new Uint8Array(Uint32Array.from(point).buffer))), sizes = take(this.room(16));
            let hitsRoom = 1024, logRoom = 1 << 16;
            for (;;) {
                const hits = take(this.room(24 * hitsRoom)), log = take(this.room(logRoom));
                const status = call(file.place, BigInt(file.size), place.place, BigInt(point.length), bound,
                    hits.place, BigInt(hitsRoom), log.place, BigInt(logRoom), sizes.place);
                if (status !== 0 && status !== SHORT) throw new Fault(status, WHY_NO_ANSWER[status] ?? `status ${status}`);
                const count = this.word(sizes, 0), length = this.word(sizes, 1);
                if (status === 0) return this.answer(hits, count, log, length);
                hitsRoom = Math.max(hitsRoom, count);
                logRoom = Math.max(logRoom, length);
            }
        });
    }

    // Reads hits, of 24 bytes each, and a frame out of the module's memory.
    answer(hits, count, log, length) {
        const view = new DataView(this.calls.memory.buffer, Number(hits.place), 24 * count);
        const ids = new Uint32Array(count), distances = new BigUint64Array(count), tags = new BigUint64Array(count);
        for (let i = 0; i < count; i++) {
            ids[i] = view.getUint32(24 * i, true);
            distances[i] = view.getBigUint64(24 * i + 8, true);
            tags[i] = view.getBigUint64(24 * i + 16, true);
        }
        return { ids, distances, tags, frame: this.bytes({ place: log.place, size: length }).slice() };
    }
}

const WHY_NO_ANSWER = {
    [NO_QUERY]: "no query: the point is none of the index's space, or none of the nearest are asked for",
    [NO_INDEX]: "the file is no index",
    [MEMORY]: "out of memory",
    [DAMAGED]: "the search came to a damaged page; an audit names the fault",
};

export { Engine, Fault, STOPPED, NO_QUERY, NO_INDEX, MEMORY, DAMAGED };
