// The proved host and the proved part as a module of JavaScript, over the libraries pm_host_c and pm_device_c as WebAssembly
// (wasm64). The calls are those of pmhost.h and pmpart.h; what they answer is proved of the libraries, and this layer is not.

export const CODE = {OPERATION: 0x01, WRITE_PROTECT: 0x10, VOUT_COMMAND: 0x21, VOUT_MAX: 0x24, VOUT_MARGIN_HIGH: 0x25,
                     VOUT_MARGIN_LOW: 0x26, VOUT_MIN: 0x2B};
const END = ["next", "done", "differs", "unknown", "learned"];
const HEARD = {0x81: "silent", 0x82: "taken", 0x83: "answered"};
const LIMITS_STATES = {0x91: "within", 0x92: "outside", 0x93: "not known", 0xE6: "no limits"};
const SIZES = {host: "pm_host_size", part: "pm_part_size"};
const PAGE = 65536;

// Why a call is refused: the number that pmhost.h and pmpart.h tell, and its name.
export class Refused extends Error {
    constructor(call, number, name) {
        super(`${call} is refused: ${number.toString(16).toUpperCase().padStart(2, "0")}h ${name}`.trim());
        this.number = number;
    }
}

// The libraries in one memory. Objects are laid into pages that are added to it, one behind the other.
export class Library {
    static async load(bytes) {
        const {instance} = await WebAssembly.instantiate(bytes, {});
        return new Library(instance.exports);
    }

    constructor(exports) {
        this.exports = exports;
        this.memory = exports.memory;
        this.grow();
        this.scratch = this.take(64);
    }

    // A page more, of which the next objects are. Engines that came before the standard, as that of node 20, count the
    // pages of a 64-bit memory in numbers.
    grow() {
        let pages;
        try {
            pages = this.memory.grow(1n);
        } catch (why) {
            if (!(why instanceof TypeError)) throw why;
            pages = this.memory.grow(1);
        }
        this.next = Number(pages) * PAGE;
        this.end = this.next + PAGE;
    }

    take(size) {
        const at = (this.next + 7) & ~7;
        if (at + size > this.end) {
            this.grow();
            return this.take(size);
        }
        this.next = at + size;
        return at;
    }

    sizeOf(what) {
        return Number(this.exports[SIZES[what]]());
    }

    bytes(at, count) {
        return new Uint8Array(this.memory.buffer, at, count);
    }

    view(at, count) {
        return new DataView(this.memory.buffer, at, count);
    }

    // A call whose numbers are those of C: addresses and counts have 64 bits.
    call(name, ...words) {
        return this.exports[name](...words) >>> 0;
    }

    ask(name, ...words) {
        const number = this.call(name, ...words) & 0xFF;
        if (number !== 0) throw new Refused(name, number, this.nameOf(number));
    }

    // The name of a refusal, as "H6 TooUncertain"; nothing where the number has none.
    nameOf(number) {
        const given = this.call("pm_refusal_name", number, pointer(this.scratch)) & 0xFF;
        if (given !== 0) return "";
        return String.fromCharCode(...this.bytes(this.scratch, 32)).replace(/\0.*/s, "");
    }
}

const pointer = (at) => BigInt(at);

// A host: jobs, the frame to send now, what became of it, and what is known of each cell.
export class Host {
    constructor(library, address, outputs, passes) {
        this.library = library;
        this.at = library.take(library.sizeOf("host"));
        this.sending = library.take(20);
        this.room = library.take(16);
        library.ask("pm_host_new", pointer(this.at), address, outputs, passes);
    }

    order(output, code, word) { this.library.ask("pm_host_order", pointer(this.at), output, code, word); }
    check(output, code) { this.library.ask("pm_host_check", pointer(this.at), output, code); }
    learn(output) { this.library.ask("pm_host_learn", pointer(this.at), output); }
    restart() { this.library.ask("pm_host_restart", pointer(this.at)); }

    // Limits of an output in microvolts, or narrower ones: each later order is judged by them.
    setLimits(output, least, most) { this.library.ask("pm_host_set_limits", pointer(this.at), output, BigInt(least), BigInt(most)); }

    // An output has no limits. Without this and without limits an order of its voltage is refused.
    noLimits(output) { this.library.ask("pm_host_no_limits", pointer(this.at), output); }

    // Whether an output's voltage is known to lie within its limits: within, outside, not known or no limits.
    limitsState(output) {
        const number = this.library.call("pm_host_limits_state", pointer(this.at), output) & 0xFF;
        if (!(number in LIMITS_STATES)) throw new Refused("pm_host_limits_state", number, this.library.nameOf(number));
        return LIMITS_STATES[number];
    }

    // {reads, bytes, wanted}: `wanted` is how many bytes a whole answer has; null where there is nothing to send.
    frame() {
        this.library.ask("pm_host_frame", pointer(this.at), pointer(this.sending));
        const [kind, length, wanted] = this.library.bytes(this.sending, 3);
        if (kind === 0) return null;
        return {reads: kind === 2, bytes: [...this.library.bytes(this.sending + 4, length)], wanted};
    }

    // What became of a frame: C's convention for wasm64 returns a pm_step in memory, whose address comes first.
    step(name, ...words) {
        this.library.call(name, pointer(this.library.scratch), pointer(this.at), ...words);
        const view = this.library.view(this.library.scratch, 4);
        const [kind, word] = [view.getUint16(0, true), view.getUint16(2, true)];
        if (kind >= END.length) throw new Refused(name, kind, this.library.nameOf(kind));
        return {end: END[kind], word};
    }

    writeEnded(acked) { return this.step("pm_host_write_ended", acked ? 1 : 0); }

    readEnded(bytes) {
        this.library.bytes(this.room, 16).fill(0).set(bytes);
        return this.step("pm_host_read_ended", pointer(this.room), BigInt(bytes.length));
    }

    // The confirmed word, or null.
    confirmedWord(output, code) {
        this.library.ask("pm_host_confirmed_word", pointer(this.at), output, code, pointer(this.library.scratch));
        const view = this.library.view(this.library.scratch, 4);
        return view.getUint16(0, true) === 1 ? view.getUint16(2, true) : null;
    }

    // The words that the cell may hold, or null for any word.
    possibleWords(output, code) {
        this.library.ask("pm_host_possible_words", pointer(this.at), output, code, pointer(this.library.scratch));
        const view = this.library.view(this.library.scratch, 34);
        const count = view.getUint16(0, true);
        return count === 0 ? null : Array.from({length: count}, (_, at) => view.getUint16(2 + 2 * at, true));
    }

    restartSeen() { return (this.library.call("pm_host_restart_seen", pointer(this.at)) & 0xFF) === 1; }
}

// A part: outputs are {mode, operation, command, max, high, low, min}.
export class Part {
    constructor(library, {address, outputs, m = 1, b = 0, r = 0, protect = 0}) {
        this.library = library;
        this.at = library.take(library.sizeOf("part"));
        this.reply = library.take(18);
        this.room = library.take(32);
        const config = library.take(122);
        const view = library.view(config, 122);
        view.setUint8(0, address);
        view.setUint8(1, outputs.length);
        view.setInt8(2, r);
        view.setInt16(4, m, true);
        view.setInt16(6, b, true);
        view.setUint16(8, protect, true);
        outputs.forEach((output, at) => {
            view.setUint8(10 + 14 * at, output.mode);
            ["operation", "command", "max", "high", "low", "min"].forEach(
                (name, place) => view.setUint16(12 + 14 * at + 2 * place, output[name], true));
        });
        library.ask("pm_part_new", pointer(this.at), pointer(config));
    }

    // {heard, answer}: `heard` is silent, taken, answered or a refusal's number; `answer` are the bytes that come back.
    hear(bytes, reads) {
        this.library.bytes(this.room, 32).set(bytes);
        const number = this.library.call("pm_part_hear", pointer(this.at), pointer(this.room), BigInt(bytes.length),
                                         reads ? 1 : 0, pointer(this.reply)) & 0xFF;
        const [length] = this.library.bytes(this.reply, 1);
        const answer = number === 0x83 ? [...this.library.bytes(this.reply + 2, length)] : [];
        return {heard: HEARD[number] ?? number, answer};
    }

    restart() { this.library.ask("pm_part_restart", pointer(this.at)); }

    word(output, code) {
        this.library.ask("pm_part_word", pointer(this.at), output, code, pointer(this.library.scratch));
        return this.library.view(this.library.scratch, 2).getUint16(0, true);
    }

    page() {
        this.library.ask("pm_part_page", pointer(this.at), pointer(this.library.scratch));
        return this.library.bytes(this.library.scratch, 1)[0];
    }

    microvolts(output) {
        this.library.ask("pm_part_commanded_microvolts", pointer(this.at), output, pointer(this.library.scratch));
        return Number(this.library.view(this.library.scratch, 8).getBigInt64(0, true));
    }
}

// The packet error code of bytes.
export function pec(library, bytes) {
    library.bytes(library.scratch, bytes.length).set(bytes);
    return library.call("pm_pec", pointer(library.scratch), BigInt(bytes.length)) & 0xFF;
}
