// Cuts a file of frames into portions of whole frames, and joins what the judge says of each. A frame is its length in eight bytes, and
// then its bytes; the judge of carried logs looks at no other frame. docs/FORMATS.md has the format.

// Gets the bytes of a file in their order, in pieces of any size, and gives portions: lists of pieces.
class Portions {
    // A portion ends with the frame that brings it to `least` bytes.
    constructor(least) {
        this.least = least;
        this.pieces = [];
        this.size = 0;
        // What was read of a frame's length, and how many of its bytes are still to come.
        this.head = [];
        this.left = 0;
    }

    // Adds a piece, and returns the portions that end in it.
    add(bytes) {
        const ended = [];
        let from = 0, at = 0;
        while (at < bytes.length) {
            const step = this.left > 0 ? Math.min(this.left, bytes.length - at) : 1;
            if (this.left > 0) this.left -= step;
            else this.readsHead(bytes[at]);
            at += step;
            if (this.left > 0 || this.head.length > 0 || this.size + at - from < this.least) continue;
            ended.push([...this.pieces, bytes.subarray(from, at)]);
            this.pieces = [];
            this.size = 0;
            from = at;
        }
        if (from < bytes.length) {
            this.pieces.push(bytes.subarray(from));
            this.size += bytes.length - from;
        }
        return ended;
    }

    // Takes a byte of a frame's length. The last one makes it known.
    readsHead(byte) {
        this.head.push(byte);
        if (this.head.length < 8) return;
        this.left = this.head.reduce((length, each) => 256 * length + each, 0);
        this.head = [];
    }

    // The portion that is left at the end of the file. Its last frame may not be whole.
    rest() {
        return this.pieces;
    }
}

// What the judge says of a file, of what it said of each portion: the frames are counted on, and one last line is of all. Returns null
// where a portion was not judged to its end.
function joined(all) {
    const texts = [];
    let count = 0, isProved = true, last = "";
    for (const { status, text } of all) {
        const end = text.lastIndexOf("\n", text.length - 2) + 1, before = count;
        last = text.slice(end);
        if (status > 1 || !/^log (proved|rejected|rejected cut)\n$/.test(last)) return null;
        isProved = isProved && status === 0;
        texts.push(text.slice(0, end).replace(/^frame (\d+)/gm, (_, number) => {
            count = before + Number(number) + 1;
            return `frame ${count - 1}`;
        }));
    }
    // (only the last portion may end within a frame, and then its last line says so)
    if (!isProved && last === "log proved\n") last = "log rejected\n";
    return { status: isProved ? 0 : 1, text: texts.join("") + last };
}

export { Portions, joined };
