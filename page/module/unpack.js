// Unpacks what one_file.py has packed: LZMA as a file of the form "alone" (.lzma) has it, with its size told and a mark
// at its end, and then the CRC-32 of what was packed, 4 bytes, the lowest first. All is as LZMA's specification has it
// (lzma-specification.txt of the LZMA SDK).

/**
 * Returns the bytes that were packed. What is damaged is refused by an Error. It stands on nothing else, so that its
 * text makes a worker.
 */
export function unpacked(packed) {
    const HEADER_BYTES = 13, CHECK_BYTES = 4;
    // What is longer is no module.
    const MOST_BYTES = 2 ** 26;
    // A probability is that of a zero, of 2048.
    const PROBABILITY_BITS = 11, EVEN = 1024, MOVE_BITS = 5, TOP = 2 ** 24;
    const STATES = 12, POSITIONS = 16, LITERAL_PROBABILITIES = 0x300;
    // Where in the one table of probabilities each kind begins.
    const IS_MATCH = 0;
    const IS_REPEATED = IS_MATCH + STATES * POSITIONS;
    const IS_OTHER = [0, 1, 2].map(it => IS_REPEATED + (1 + it) * STATES);
    const IS_LONG = IS_REPEATED + 4 * STATES;
    const SLOT = IS_LONG + STATES * POSITIONS;
    const SPECIAL = SLOT + 4 * 64;
    const ALIGN = SPECIAL + 128;
    const LENGTH = ALIGN + 16;
    const LOW = 2, MIDDLE = LOW + 8 * POSITIONS, HIGH = MIDDLE + 8 * POSITIONS, LENGTH_PROBABILITIES = HIGH + 256;
    const REPEATED_LENGTH = LENGTH + LENGTH_PROBABILITIES;
    const LITERAL = REPEATED_LENGTH + LENGTH_PROBABILITIES;

    function refuse(why) {
        throw new Error(`the packed module is damaged: ${why}`);
    }

    /** The range decoder: bits, each by the probability that has been learned for it. */
    class RangeDecoder {
        constructor(bytes, count) {
            Object.assign(this, {bytes, at: 0, probabilities: new Uint16Array(count).fill(EVEN)});
            if (this.next() !== 0) {
                refuse('it does not begin as LZMA does');
            }
            // (both are numbers of 32 bits without a sign)
            [this.range, this.code] = [2 ** 32 - 1, 0];
            for (let i = 0; i < 4; i++) {
                this.code = (this.code << 8 | this.next()) >>> 0;
            }
        }

        next() {
            if (this.at === this.bytes.length) {
                refuse('it ends too early');
            }
            return this.bytes[this.at++];
        }

        /** Takes a byte more where few bits of the range are left. */
        normalize() {
            if (this.range < TOP) {
                this.range = this.range << 8 >>> 0;
                this.code = (this.code << 8 | this.next()) >>> 0;
            }
        }

        bit(place) {
            const probability = this.probabilities[place];
            const bound = (this.range >>> PROBABILITY_BITS) * probability, isZero = this.code < bound;
            if (isZero) {
                this.range = bound;
                this.probabilities[place] = probability + (2 ** PROBABILITY_BITS - probability >>> MOVE_BITS);
            } else {
                this.range -= bound;
                this.code -= bound;
                this.probabilities[place] = probability - (probability >>> MOVE_BITS);
            }
            this.normalize();
            return isZero ? 0 : 1;
        }

        /** A number whose bits are as likely as not, the highest first. */
        direct(bits) {
            let number = 0;
            for (let i = 0; i < bits; i++) {
                this.range >>>= 1;
                const isOne = this.code >= this.range;
                this.code -= isOne ? this.range : 0;
                number = number << 1 | (isOne ? 1 : 0);
                this.normalize();
            }
            return number;
        }

        /** A number by a tree of probabilities, the highest bit first. */
        tree(place, bits) {
            let node = 1;
            for (let i = 0; i < bits; i++) {
                node = node << 1 | this.bit(place + node);
            }
            return node - (1 << bits);
        }

        /** The same, the lowest bit first. */
        reverseTree(place, bits) {
            let node = 1, number = 0;
            for (let i = 0; i < bits; i++) {
                const bit = this.bit(place + node);
                node = node << 1 | bit;
                number |= bit << i;
            }
            return number;
        }
    }

    /** What is unpacked of a file, up to its end. */
    class Unpacking {
        constructor(bytes) {
            const header = new DataView(bytes.buffer, bytes.byteOffset, HEADER_BYTES), properties = header.getUint8(0);
            const size = Number(header.getBigUint64(5, true));
            const literalContext = properties % 9, position = Math.floor(properties / 45);
            const literalPosition = Math.floor(properties / 9) % 5;
            // (4 bytes between tell how far back it may reach; here all stays within reach)
            if (position > 4 || literalContext + literalPosition > 4 || size > MOST_BYTES) {
                refuse('its header is none of a module');
            }
            this.literalContext = literalContext;
            [this.literalMask, this.positionMask] = [(1 << literalPosition) - 1, (1 << position) - 1];
            [this.made, this.length, this.state, this.distances] = [new Uint8Array(size), 0, 0, new Uint32Array(4)];
            const count = LITERAL + (LITERAL_PROBABILITIES << literalContext + literalPosition);
            this.decoder = new RangeDecoder(bytes.subarray(HEADER_BYTES), count);
        }

        /** A byte, by those before it; after a match also by the byte at its distance. */
        literal() {
            const {decoder, made, length} = this, before = length ? made[length - 1] : 0;
            const context = ((length & this.literalMask) << this.literalContext) + (before >> 8 - this.literalContext);
            const place = LITERAL + LITERAL_PROBABILITIES * context;
            let node = 1;
            if (this.state >= 7) {
                const matched = made[length - this.distances[0] - 1] + 256;
                // (as long as the bits so far are the same)
                for (let i = 7; i >= 0 && node === matched >> i + 1; i--) {
                    node = node << 1 | decoder.bit(place + (1 + (matched >> i & 1) << 8) + node);
                }
            }
            while (node < 256) {
                node = node << 1 | decoder.bit(place + node);
            }
            if (length === made.length) {
                refuse('it is longer than it tells');
            }
            made[this.length++] = node;
            this.state = this.state < 4 ? 0 : this.state < 10 ? this.state - 3 : this.state - 6;
        }

        /** The length of a match, less 2. */
        matchLength(place, position) {
            const {decoder} = this;
            if (!decoder.bit(place)) {
                return decoder.tree(place + LOW + 8 * position, 3);
            }
            const isHigh = decoder.bit(place + 1);
            return isHigh ? 16 + decoder.tree(place + HIGH, 8) : 8 + decoder.tree(place + MIDDLE + 8 * position, 3);
        }

        /** The distance of a new match, less 1; that of the mark at the end is all ones. */
        distance(count) {
            const {decoder} = this, slot = decoder.tree(SLOT + 64 * Math.min(count - 2, 3), 6);
            if (slot < 4) {
                return slot;
            }
            const bits = (slot >> 1) - 1, high = (2 | slot & 1) * 2 ** bits;
            return slot < 14
                ? high + decoder.reverseTree(SPECIAL + high - slot, bits)
                : high + decoder.direct(bits - 4) * 16 + decoder.reverseTree(ALIGN, 4);
        }

        /** Puts one of the last distances to the front, and returns whether one byte alone is to be copied. */
        repeats(position) {
            const {decoder, state, distances} = this;
            if (!decoder.bit(IS_OTHER[0] + state)) {
                return !decoder.bit(IS_LONG + POSITIONS * state + position);
            }
            const which = !decoder.bit(IS_OTHER[1] + state) ? 1 : !decoder.bit(IS_OTHER[2] + state) ? 2 : 3;
            this.putFirst(which, distances[which]);
            return false;
        }

        /** Puts a distance before the last ones, of which one goes. */
        putFirst(which, distance) {
            const {distances} = this;
            for (let i = which; i > 0; i--) {
                distances[i] = distances[i - 1];
            }
            distances[0] = distance;
        }

        copy(count) {
            const {made, length} = this, distance = this.distances[0] + 1;
            if (distance > length || count > made.length - length) {
                refuse(distance > length ? 'it repeats what is not there' : 'it is longer than it tells');
            }
            for (let i = length; i < length + count; i++) {
                made[i] = made[i - distance];
            }
            this.length += count;
        }

        /** Copies what a match says, and returns whether it is the mark at the end. */
        match(position) {
            const {decoder, state, distances} = this;
            let count = 1, early = 9;
            if (!decoder.bit(IS_REPEATED + state)) {
                count = this.matchLength(LENGTH, position) + 2;
                this.putFirst(3, this.distance(count));
                early = 7;
            } else if (!this.repeats(position)) {
                count = this.matchLength(REPEATED_LENGTH, position) + 2;
                early = 8;
            }
            this.state = state < 7 ? early : early === 7 ? 10 : 11;
            const isEnd = distances[0] === 2 ** 32 - 1;
            if (!isEnd) {
                this.copy(count);
            }
            return isEnd;
        }

        whole() {
            const {decoder} = this;
            for (let isEnd = false; !isEnd; ) {
                const position = this.length & this.positionMask;
                if (decoder.bit(IS_MATCH + POSITIONS * this.state + position)) {
                    isEnd = this.match(position);
                } else {
                    this.literal();
                }
            }
            if (this.length < this.made.length || decoder.code !== 0 || decoder.at < decoder.bytes.length) {
                refuse('it ends elsewhere than it tells');
            }
            return this.made;
        }
    }

    /** The CRC-32 of bytes, as gzip has it. */
    function checkOf(bytes) {
        const table = Int32Array.from({length: 256}, (_, byte) => {
            let rest = byte;
            for (let i = 0; i < 8; i++) {
                rest = rest & 1 ? rest >>> 1 ^ 0xEDB88320 : rest >>> 1;
            }
            return rest;
        });
        let check = ~0;
        for (let i = 0; i < bytes.length; i++) {
            check = table[(check ^ bytes[i]) & 255] ^ check >>> 8;
        }
        return ~check >>> 0;
    }

    const end = packed.length - CHECK_BYTES;
    if (end < HEADER_BYTES) {
        refuse('it ends too early');
    }
    const made = new Unpacking(packed.subarray(0, end)).whole();
    if (checkOf(made) !== new DataView(packed.buffer, packed.byteOffset + end, CHECK_BYTES).getUint32(0, true)) {
        refuse('its sum is another one');
    }
    return made;
}
