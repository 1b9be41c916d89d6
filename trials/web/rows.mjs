// Rows of examples/web, over a built pm.wasm: node rows.mjs FOLDER. A line for each row that isn't as it should be, and
// last how many passed and failed.
import {readFile} from "node:fs/promises";
import {resolve} from "node:path";

const folder = resolve(process.argv[2]);
const {Host, Library, Part, Refused} = await import(`${folder}/pm.mjs`);
const {Bus, FAULTS, carry, compare, provedOrder, volts} = await import(`${folder}/desk.mjs`);
const library = await Library.load(await readFile(`${folder}/pm.wasm`));
const OUTPUT = {mode: 0x14, operation: 0x80, command: 0x1000, max: 0x4000, high: 0x1100, low: 0x0F00, min: 0};
let [passed, failed] = [0, 0];

function row(name, found, wanted) {
    const [one, other] = [JSON.stringify(found), JSON.stringify(wanted)];
    if (one === other) passed += 1;
    else { failed += 1; console.log(`${name}: ${one}, wanted ${other}`); }
}

function refusal(call) {
    try { call(); } catch (why) { if (why instanceof Refused) return why.number; throw why; }
    return 0;
}

// What each host says, and what its part has: the end, whether output 0 was touched, what the other says, and the same.
const ROWS = [
    [[], ["done", false, true, false]],
    [["restart before it"], ["done", false, true, true]],
    [["false acknowledgement"], ["done", false, true, false]],
    [["lost"], ["done", false, true, false]],
    [["cut"], ["done", false, true, false]],
    [["damaged"], ["done", false, true, false]],
    [["none", "answer lost"], ["done", false, true, false]],
    [["none", "answer lost", "none", "answer lost", "none", "answer lost"], ["unknown", false, true, false]],
    [["lost", "none", "lost", "none", "lost", "none"], ["differs", false, true, false]],
];
for (const [plan, wanted] of ROWS) {
    const run = compare(library, plan);
    row(plan.join(", ") || "nothing", [run.proved.end, run.proved.wrong, run.page.success, run.page.wrong], wanted);
}
const voltages = compare(library, ["restart before it"]);
row("the restarted part behind the proved host", voltages.proved.outputs.map(volts), ["1.000 V", "3.300 V"]);
row("the restarted part behind the other", voltages.page.outputs.map(volts), ["3.300 V", "1.000 V"]);
row("a lost word that was acknowledged", compare(library, ["false acknowledgement"]).page.missing, true);

row("what the proved host's frames ask for", voltages.proved.told.slice(0, 2).map(({meaning}) => meaning),
    ["VOUT_COMMAND of output 1: 3.300 V (34CDh)", "reads VOUT_COMMAND of output 1"]);
row("what the other's ask for", compare(library, []).page.told.map(({meaning}) => meaning), ["VOUT_COMMAND, by PAGE: 3.300 V (34CDh)"]);
row("what comes of them", voltages.proved.told.slice(0, 2).map(({came, back}) => [came, back]),
    [["acknowledged", ""], ["answered 3.300 V (34CDh)", "B1 02 CD 34 90"]]);

// Every plan of three faults: the proved host never touches output 0, and never says done where output 1 hasn't the word.
let [touched, untrue, plainWrong, plainTold] = [0, 0, 0, 0];
for (const first of FAULTS) for (const second of FAULTS) for (const third of FAULTS) {
    const run = compare(library, [first, second, third]);
    touched += run.proved.wrong;
    untrue += run.proved.end === "done" && run.proved.outputs[1] !== 3300048;
    plainWrong += run.page.wrong;
    plainTold += run.page.wrong && run.page.success;
}
row("343 plans, the proved host: output 0 touched, done without the word", [touched, untrue], [0, 0]);
console.log(`343 plans of three faults: a word on the wrong output by PAGE ${plainWrong} times, told as success ${plainTold} times`);
row("the other host is wrong in some of them", plainWrong > 0 && plainTold > 0, true);

row("a host of no outputs", refusal(() => new Host(library, 0x58, 0, 3)), 0x01);
row("a host of no address", refusal(() => new Host(library, 0x07, 2, 3)), 0xE3);
row("a part of a bad mode", refusal(() => new Part(library, {address: 0x58, outputs: [{...OUTPUT, mode: 0xFF}]})), 0x54);
const host = new Host(library, 0x58, 2, 3);
row("an order of a missing output", refusal(() => host.order(2, 0x21, 0)), 0x04);
row("an answer that nobody asked for", refusal(() => host.readEnded([])), 0xE2);
row("nothing is sent", host.frame(), null);
row("any word", host.possibleWords(0, 0x21), null);
row("an order before limits are known", refusal(() => host.order(0, 0x21, 0x34CD)), 0x28);
host.noLimits(0);
host.order(0, 0x21, 0x34CD);
row("the frame of an order", host.frame().bytes, [0xB0, 0x05, 0x04, 0x00, 0x21, 0xCD, 0x34, 0x5A]);
row("a second job", refusal(() => host.check(0, 0x21)), 0x03);
row("the name of a refusal, and none", [library.nameOf(0x24), library.nameOf(0xFF)], ["L4 AboveLimit", ""]);

// Limits of output 0, from 0.9 V to 1.2 V, are kept in the host's memory.
const [limited, bus] = [new Host(library, 0x58, 2, 3), new Bus(library, [])];
limited.setLimits(0, 900000, 1200000);
limited.noLimits(1);
row("wider limits", refusal(() => limited.setLimits(0, 900000, 1300000)), 0x26);
row("an order before the format is known", refusal(() => limited.order(0, 0x21, 0x1199)), 0x22);
limited.learn(0);
row("a learn", carry(limited, bus).end, "learned");
row("3.3 V where 1.2 V is the most", refusal(() => limited.order(0, 0x21, 0x34CD)), 0x24);
row("0.8 V where 0.9 V is the least", refusal(() => limited.order(0, 0x21, 0x0CCD)), 0x23);
row("nothing is sent after a refusal", limited.frame(), null);
row("1.1 V, and 3.3 V for the output with no limits",
    [provedOrder(limited, bus, 0, 0x1199).end, provedOrder(limited, bus, 1, 0x34CD).end], ["done", "done"]);
row("what the part has", [0, 1].map((output) => bus.part.word(output, 0x21)), [0x1199, 0x34CD]);
row("within limits: registers that nobody read, no limits, no output",
    [limited.limitsState(0), limited.limitsState(1), refusal(() => limited.limitsState(2))], ["not known", "within", 0x04]);
limited.restart();
row("limits after a restart", refusal(() => limited.setLimits(0, 900000, 1300000)), 0x26);
console.log(`${passed} passed, ${failed} failed`);
process.exit(failed ? 1 : 0);
