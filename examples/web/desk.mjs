// Two hosts at one desk: the proved one, and one that selects an output by PAGE, remembers that choice and believes an
// acknowledgement. Each has a part of its own, and both buses have the same faults, transfer by transfer. The second
// host is a demonstration that lives here, and in no library.
import {CODE, Host, Part, pec} from "./pm.mjs";

// What may happen to a transfer, and what that is.
export const MISHAPS = {
    "none": "the transfer arrives, and so does what the part says",
    "lost": "the part hears nothing, and nothing comes back",
    "cut": "the part hears the first three bytes alone",
    "damaged": "a bit of byte 3 is flipped on its way to the part (byte 0 is the address)",
    "answer lost": "the part hears the transfer; its acknowledgement, or its answer, is lost",
    "false acknowledgement": "a write is lost, and the host is told that it was acknowledged; a read arrives as it is",
    "restart before it": "the part restarts before the transfer: PAGE is 0 again, and both outputs are at their stored 1 V",
};
export const FAULTS = Object.keys(MISHAPS);
const ADDRESS = 0x58;
const TRIES = 3;
const OUTPUT = {mode: 0x14, operation: 0x80, command: 0x1000, max: 0x4000, high: 0x1100, low: 0x0F00, min: 0};

const hex = (bytes) => bytes.map((byte) => byte.toString(16).toUpperCase().padStart(2, "0")).join(" ");
export const volts = (microvolts) => (microvolts / 1e6).toFixed(3) + " V";

// A word of these outputs, whose format is ULINEAR16 with exponent -12.
export const inVolts = (word) => `${volts(word * 1e6 / 4096)} (${word.toString(16).toUpperCase().padStart(4, "0")}h)`;
const REGISTERS = Object.fromEntries(Object.entries(CODE).map(([name, code]) => [code, name]));

// What a frame of either host asks for, in words.
export function meaning(bytes, reads) {
    const [, code, ...rest] = bytes;
    if (code === 0x00) return `PAGE ${rest[0]}`;
    if (code === 0x05) return `${REGISTERS[rest[2]]} of output ${rest[1]}: ${inVolts(rest[3] | rest[4] << 8)}`;
    if (code === 0x06) return `reads ${REGISTERS[rest[2]]} of output ${rest[1]}`;
    return reads ? `reads ${REGISTERS[code]}` : `${REGISTERS[code]}, by PAGE: ${inVolts(rest[0] | rest[1] << 8)}`;
}

// A bus with a part and a plan of faults, which tells each transfer.
export class Bus {
    constructor(library, plan) {
        this.library = library;
        this.plan = [...plan];
        this.part = new Part(library, {address: ADDRESS, outputs: [OUTPUT, OUTPUT]});
        this.told = [];
    }

    begin(bytes, reads) {
        const fault = this.plan.shift() ?? "none";
        if (fault === "restart before it") this.part.restart();
        let arrived = bytes;
        if (fault === "lost" || (fault === "false acknowledgement" && !reads)) arrived = null;
        if (fault === "cut") arrived = bytes.slice(0, 3);
        if (fault === "damaged") arrived = bytes.map((byte, at) => (at === 3 ? byte ^ 0x40 : byte));
        const reply = arrived === null ? {heard: "silent", answer: []} : this.part.hear(arrived, reads);
        return {fault, reply, line: {fault, reads, sent: hex(bytes), meaning: meaning(bytes, reads), heard: reply.heard}};
    }

    end(line, came, back = []) {
        this.told.push({...line, came, back: hex(back), outputs: [0, 1].map((output) => this.part.microvolts(output)), page: this.part.page()});
    }

    // Whether the write was acknowledged.
    write(bytes) {
        const {fault, reply, line} = this.begin(bytes, false);
        const acked = fault === "false acknowledgement" || (reply.heard === "taken" && fault !== "answer lost");
        this.end(line, acked ? "acknowledged" : "not acknowledged");
        return acked;
    }

    // The bytes that came back.
    read(bytes) {
        const {fault, reply, line} = this.begin(bytes, true);
        const back = fault === "answer lost" ? [] : reply.answer;
        this.end(line, back.length === 0 ? "nothing came" : `answered ${inVolts(back[2] | back[3] << 8)}`, back);
        return back;
    }
}

// Carries the host's open job out over a bus, and says how it ended.
export function carry(host, bus) {
    for (;;) {
        const sending = host.frame();
        const step = sending.reads ? host.readEnded(bus.read(sending.bytes)) : host.writeEnded(bus.write(sending.bytes));
        if (step.end !== "next") return step;
    }
}

// The proved host: an order is written by PAGE_PLUS and read back.
export function provedOrder(host, bus, output, word) {
    host.order(output, CODE.VOUT_COMMAND, word);
    return carry(host, bus);
}

// The other host: PAGE where it isn't the remembered one, then the word, and an acknowledgement is believed.
export class PageHost {
    constructor(library) {
        this.library = library;
        this.page = null;
    }

    send(bus, bytes) {
        const packet = [2 * ADDRESS, ...bytes];
        packet.push(pec(this.library, packet));
        for (let tries = 0; tries < TRIES; tries += 1) if (bus.write(packet)) return true;
        return false;
    }

    order(bus, output, word) {
        if (this.page !== output) {
            if (!this.send(bus, [0x00, output])) return false;
            this.page = output;
        }
        return this.send(bus, [CODE.VOUT_COMMAND, word & 0xFF, word >> 8]);
    }
}

// Two orders for output 1, 1.2 V and then 3.3 V, by both hosts under the same plan for the second one's transfers. Output
// 0 is ordered by nobody: where its voltage isn't 1 V, a word reached the wrong output.
export function compare(library, plan) {
    const [quiet, ordered] = [[1, 0x1333], [1, 0x34CD]];
    const [proved, plain] = [new Bus(library, []), new Bus(library, [])];
    const host = new Host(library, ADDRESS, 2, TRIES);
    host.noLimits(1);
    const page = new PageHost(library);
    provedOrder(host, proved, ...quiet);
    page.order(plain, ...quiet);
    for (const bus of [proved, plain]) Object.assign(bus, {plan: [...plan], told: []});
    const step = provedOrder(host, proved, ...ordered);
    const success = page.order(plain, ...ordered);
    const state = (bus) => [0, 1].map((output) => bus.part.microvolts(output));
    const known = [0, 1].map((output) => ({
        confirmed: host.confirmedWord(output, CODE.VOUT_COMMAND),
        possible: host.possibleWords(output, CODE.VOUT_COMMAND),
    }));
    return {
        proved: {told: proved.told, end: step.end, word: step.word, known, seen: host.restartSeen(), outputs: state(proved),
                 wrong: proved.part.word(0, CODE.VOUT_COMMAND) !== 0x1000},
        page: {told: plain.told, success, outputs: state(plain), wrong: plain.part.word(0, CODE.VOUT_COMMAND) !== 0x1000,
               missing: plain.part.word(1, CODE.VOUT_COMMAND) !== 0x34CD},
    };
}
