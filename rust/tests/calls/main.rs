//! Each call on its good path, and refusals; over the model part, whole and with faults.

mod course_rows;
mod delivery;
mod ends;
#[cfg(field)]
mod field_rows;
mod formats;
mod on_off;
#[cfg(target_os = "linux")]
mod other_library;
mod patience;
mod rails;
mod sequences;

use pmhost::*;

const COMMAND: Cell = Cell::Output(0, Register::VoutCommand);

fn framed(address: u8, bytes: &[u8]) -> Vec<u8> {
    [&[address << 1], bytes].concat()
}

fn part() -> Part {
    Part::new(0x58, &[Output { command: 0x34CD, ..Output::default() }, Output::default()], (1, 0, 3)).unwrap()
}

// A host whose outputs are said to have no limits.
fn free(address: u8, outputs: u8, passes: u8) -> Host {
    unlimited(Host::new(address, outputs, passes).unwrap())
}

fn unlimited(mut host: Host) -> Host {
    for output in 0..host.outputs() {
        host.no_limits(output).unwrap();
    }
    host
}

fn learned() -> (Host, Part) {
    let (mut host, mut part) = (free(0x58, 2, 3), part());
    for output in 0..2 {
        assert_eq!(host.run_job(Job::Learn(output), &mut part), Ok(Done::Learned(Format::Ulinear16(-12))));
    }
    (host, part)
}

#[test]
fn every_job_ends() {
    let (mut host, mut part) = learned();
    for (job, end) in [
        (Job::Order(COMMAND, 0x3400), Done::Word(0x3400)),
        (Job::OrderMicrovolts(COMMAND, 3_300_000), Done::Word(0x34CD)),
        (Job::Check(Cell::WriteProtect), Done::Word(0)),
        (Job::Clear(1), Done::Acknowledged),
        (Job::Store, Done::Acknowledged),
        (Job::Restore, Done::Acknowledged),
    ] {
        assert_eq!(host.run_job(job, &mut part), Ok(end), "{job:?}");
    }
    assert_eq!((part.word(COMMAND), part.commanded_microvolts(0)), (Ok(0x34CD), Ok(3_300_048)));
    assert_eq!(host.possible_words(COMMAND).unwrap().words(), None);
    assert_eq!(host.run(&mut part), Err(NotDone::Refused(Refusal::OtherFrame)));
    host.check(COMMAND).unwrap();
    assert_eq!(host.run(&mut part), Ok(()));
    assert_eq!(host.frame(), Sending::Nothing);
    assert_eq!(host.format(1), Ok(Some(Format::Ulinear16(-12))));
}

#[test]
fn limits_are_kept_by_the_host() {
    let (mut host, mut part) = learned();
    let limits = Limits { least: 3_200_000, most: 3_465_000 };
    assert_eq!((host.limits(0), host.limits_state(0)), (Ok(None), Ok(LimitsState::NoLimits)));
    host.set_limits(0, limits).unwrap();
    assert_eq!((host.limits(0), host.limits_state(0)), (Ok(Some(limits)), Ok(LimitsState::NotKnown)));
    assert_eq!(host.order(COMMAND, 0xFFFF), Err(Refusal::L4AboveLimit));
    assert_eq!(host.order_microvolts(COMMAND, 3_199_000), Err(Refusal::L3BelowLimit));
    assert_eq!(host.order(Cell::Output(0, Register::Operation), 0x80), Err(Refusal::L5NotKnownWithin));
    assert_eq!(host.set_limits(0, Limits { most: 3_500_000, ..limits }), Err(Refusal::L6LimitsWidened));
    assert_eq!(host.set_limits(1, Limits { least: 2, most: 1 }), Err(Refusal::L1LimitsInverted));
    assert_eq!(host.set_limits(1, Limits { least: 0, most: i64::MAX }), Err(Refusal::N5TooLarge));
    assert_eq!(host.set_limits(2, limits), Err(Refusal::H4UnknownOutput));
    for register in Register::ALL {
        host.run_job(Job::Check(Cell::Output(0, register)), &mut part).unwrap();
    }
    assert_eq!((host.band(0), host.limits_state(0)), (Ok(Band { least: 3_300_048, greatest: 3_300_049 }), Ok(LimitsState::Yes)));
    host.restart();
    assert_eq!((host.limits(0), host.band(0)), (Ok(Some(limits)), Err(Refusal::H7FormatUnknown)));
    assert_eq!(host.order(COMMAND, 0x34CD), Err(Refusal::L2FormatUnknown));
}

#[test]
fn no_voltage_is_ordered_where_no_limits_are_known() {
    let (mut host, mut part) = (Host::new(0x58, 2, 3).unwrap(), part());
    let switch = |output| Cell::Output(output, Register::Operation);
    assert_eq!((host.limits(0), host.limits_state(0)), (Ok(None), Ok(LimitsState::NoLimits)));
    host.run_job(Job::Learn(0), &mut part).unwrap();
    for register in
        [Register::VoutCommand, Register::VoutMax, Register::VoutMin, Register::VoutMarginHigh, Register::VoutMarginLow]
    {
        assert_eq!(host.order(Cell::Output(0, register), 0x34CD), Err(Refusal::L8NoLimits), "{register:?}");
    }
    assert_eq!(host.order_microvolts(COMMAND, 3_300_000), Err(Refusal::L8NoLimits));
    assert_eq!((host.order(switch(0), 0x80), host.order(switch(0), 0xA8)), (Err(Refusal::L8NoLimits), Err(Refusal::L8NoLimits)));
    assert_eq!(host.run_job(Job::Order(switch(0), 0x00), &mut part), Ok(Done::Word(0x00)));
    assert_eq!(host.run_job(Job::Order(Cell::WriteProtect, 0x00), &mut part), Ok(Done::Word(0x00)));
    let mut course = Course::voltage(0, Register::VoutCommand, 3_300_000, COURSE_TRIES).unwrap();
    let refused = host.run_course(&mut course, &mut part);
    assert!(matches!(refused, Err(NotReached::Refused { refusal: Refusal::L8NoLimits, .. })), "{refused:?}");
    assert_eq!((host.no_limits(2), host.no_limits(0)), (Err(Refusal::H4UnknownOutput), Ok(())));
    assert_eq!((host.limits(0), host.limits_state(0)), (Ok(None), Ok(LimitsState::NoLimits)));
    assert_eq!(host.run_job(Job::Order(COMMAND, 0x3400), &mut part), Ok(Done::Word(0x3400)));
    assert_eq!(host.order(Cell::Output(1, Register::VoutCommand), 0x3400), Err(Refusal::L8NoLimits));
    // Limits that are given later end it, and stay.
    host.set_limits(0, Limits { least: 3_200_000, most: 3_465_000 }).unwrap();
    assert_eq!((host.order(COMMAND, 0xFFFF), host.no_limits(0)), (Err(Refusal::L4AboveLimit), Err(Refusal::L6LimitsWidened)));
}

#[test]
fn what_is_known_of_every_cell() {
    let (mut host, mut part) = learned();
    host.run_job(Job::Check(COMMAND), &mut part).unwrap();
    let known: Vec<Known> = host.known_cells().collect();
    assert_eq!((known.len(), known[1].cell, known[1].confirmed), (13, COMMAND, Some(0x34CD)));
    assert_eq!(known[12].cell, Cell::WriteProtect);
    for it in &known {
        assert_eq!((host.confirmed_word(it.cell), host.possible_words(it.cell)), (Ok(it.confirmed), Ok(it.possible)));
    }
    assert_eq!((host.address(), host.outputs(), host.passes()), (0x58, 2, 3));
    let confirmed = "confirmed: {Output(0, VoutCommand): 0x34CD}";
    assert_eq!(format!("{host:?}"), format!("Host {{ address: 0x58, outputs: 2, passes: 3, {confirmed}, .. }}"));
    let lacking = Host::without(0x08, 8, 15, &[Register::VoutMin]).unwrap();
    assert_eq!(format!("{lacking:?}"), "Host { address: 0x08, outputs: 8, passes: 15, confirmed: {}, .. }");
    assert!(!host.restart_seen());
    part.restart();
    let write = Packet::WriteWord { code: 0x21, word: 7 }.bytes(0x58).unwrap();
    assert_eq!(part.hear(&write, false), Ok(Heard::Taken));
    assert_eq!(host.run_job(Job::Check(COMMAND), &mut part), Ok(Done::Word(7)));
    assert!(host.restart_seen());
}

#[test]
fn a_refusal_has_its_letter_and_its_name() {
    assert_eq!(Refusal::H6TooUncertain.to_string(), "H6 TooUncertain");
    assert_eq!((Refusal::L4AboveLimit.number(), Refusal::Other(9).to_string()), (0x24, "number 09h".to_string()));
    let boxed: Box<dyn core::error::Error> = Box::new(Refusal::NoHost);
    assert_eq!(boxed.to_string(), "NoHost");
    for refusal in Refusal::ALL {
        // The name of the variant is the letter and the name that the library says.
        assert_eq!(refusal.to_string().replace(' ', ""), format!("{refusal:?}"));
    }
    for (step, words) in [
        (Step::Next, "next"),
        (Step::Done, "done"),
        (Step::Differs(0x34CD), "differs 34CD"),
        (Step::Unknown { fault: None }, "unknown"),
        (Step::Unknown { fault: Some(Refusal::F2Short) }, "unknown, the last answer: F2 Short"),
        (Step::Learned, "learned"),
    ] {
        assert_eq!(step.to_string(), words);
    }
    for (number, made) in [(0, Host::new(0x58, 0, 1)), (1, Host::new(0x58, 1, 16)), (2, Host::new(0x78, 1, 1))] {
        let wanted = [Refusal::H1OutputCount, Refusal::H2Passes, Refusal::NoAddress][number];
        assert_eq!(made.err(), Some(wanted));
    }
}

#[test]
fn a_frame_of_the_other_kind_is_refused() {
    let mut host = free(0x58, 1, 2);
    assert_eq!(host.write_ended(true), Err(Refusal::OtherFrame));
    host.check(COMMAND).unwrap();
    assert_eq!((host.write_ended(true), host.order(COMMAND, 1)), (Err(Refusal::OtherFrame), Err(Refusal::H3Busy)));
    let too_long = Step::Unknown { fault: Some(Refusal::F3Long) };
    assert_eq!((host.read_ended(&[]), host.read_ended(&[0xB1; 300])), (Ok(Step::Next), Ok(too_long)));
}

#[test]
fn packets_stand_alone() {
    let write = Packet::PagePlusWrite { page: 0, code: 0x21, data: Data::Word(0x34CD) };
    let bytes = write.bytes(0x58).unwrap();
    assert_eq!(&*bytes, [0xB0, 0x05, 0x04, 0x00, 0x21, 0xCD, 0x34, 0x5A]);
    assert_eq!((Packet::read_write(0x58, &bytes), pec(&bytes[..7])), (Ok(write), 0x5A));
    for packet in [
        Packet::SendByte { code: 0x03 },
        Packet::WriteByte { code: 0x01, byte: 0x80 },
        Packet::WriteWord { code: 0x21, word: 0x1234 },
        Packet::PagePlusWrite { page: 1, code: 0x03, data: Data::Empty },
        Packet::PagePlusWrite { page: 1, code: 0x01, data: Data::Byte(0x40) },
    ] {
        assert_eq!(Packet::read_write(0x58, &packet.bytes(0x58).unwrap()), Ok(packet));
        assert_eq!(packet.answer(), Ok(0));
    }
    for (packet, answer) in [
        (Packet::Read { code: 0x19 }, 2),
        (Packet::Read { code: 0x88 }, 3),
        (Packet::PagePlusRead { page: 1, code: 0x20 }, 3),
        (Packet::PagePlusRead { page: 1, code: 0x21 }, 4),
        (Packet::Coefficients { code: 0x21, side: 0 }, 7),
        (Packet::Coefficients { code: 0x21, side: 1 }, 7),
    ] {
        assert_eq!(Packet::read_request(0x58, &packet.bytes(0x58).unwrap()), Ok(packet));
        assert_eq!(packet.answer(), Ok(answer), "{packet:?}");
    }
    // The side is the last byte: 0 of what is written, 1 of what is read.
    let asked = |side| Packet::Coefficients { code: 0x21, side }.bytes(0x58).unwrap().to_vec();
    assert_eq!((asked(0), asked(1)), (vec![0xB0, 0x30, 0x02, 0x21, 0x00], vec![0xB0, 0x30, 0x02, 0x21, 0x01]));
    assert_eq!(Packet::Read { code: 0x03 }.answer(), Err(Refusal::NoPacket));
    assert_eq!(Packet::WriteByte { code: 0x21, byte: 1 }.bytes(0x58), Err(Refusal::NoPacket));
    assert_eq!(write.read_answer(0x58, &[0xB1]), Err(Refusal::NoPacket));
    assert_eq!(Format::Direct { m: 0, b: 0, r: 0 }.microvolts(1), Err(Refusal::H7FormatUnknown));
    assert_eq!(Format::Direct { m: 1, b: 0, r: 3 }.nearest_word(3_300_000), Ok(0x0CE4));
}

#[test]
fn reads_of_any_code_are_judged() {
    let word = [0xB1, 0x02, 0x20];
    let mut came = [0xB1, 0x02, 0x20, pec(&[&[0xB0, 0x79], &word[..]].concat())];
    assert_eq!(Block::read_plain(0x58, 0x79, 2, &came).as_deref(), Ok(&[0x02, 0x20][..]));
    assert_eq!(Block::read_plain(0x58, 0x79, 33, &came), Err(Refusal::NoPacket));
    came[1] ^= 1;
    assert_eq!(Block::read_plain(0x58, 0x79, 2, &came), Err(Refusal::F5WrongPec));
    assert_eq!(Block::read(0x58, 0x99, &[0xB1, 33, 0, 0]), Err(Refusal::F4WrongCount));
}

#[test]
fn a_read_of_thirty_two_bytes_hands_over_each() {
    let all: Vec<u8> = (1..=32).collect();
    let ended = |request: &[u8], answer: Vec<u8>| {
        let sum = pec(&[request, &answer].concat());
        [&answer[..], &[sum]].concat()
    };
    let plain = ended(&[0xB0, 0xE7], [&[0xB1][..], &all].concat());
    assert_eq!(Block::read_plain(0x58, 0xE7, 32, &plain).as_deref(), Ok(&all[..]));
    let block = ended(&[0xB0, 0x99], [&[0xB1, 32][..], &all].concat());
    assert_eq!(Block::read(0x58, 0x99, &block).as_deref(), Ok(&all[..]));
    let paged = ended(&[0xB0, 0x06, 0x02, 0x00, 0xE7], [&[0xB1, 32][..], &all].concat());
    assert_eq!(Block::read_paged(0x58, 0, 0xE7, 0, &paged).as_deref(), Ok(&all[..]));
    assert_eq!(Block::read_paged(0x58, 0, 0xE7, 32, &paged).as_deref(), Ok(&all[..]));
}

#[test]
fn a_part_fills_the_room_that_a_caller_has_and_no_more() {
    let answer = [0x02, 0xCD, 0x34, pec(&[0xB0, 0x06, 0x02, 0x00, 0x21, 0xB1, 0x02, 0xCD, 0x34])];
    for room in [0, 1, 3, 4, 5, 40] {
        let mut came = vec![0xEE; room];
        part().transaction(0x58, &mut [Operation::Write(&[0x06, 0x02, 0x00, 0x21]), Operation::Read(&mut came)]).unwrap();
        let count = room.min(4);
        assert_eq!((&came[..count], &came[count..]), (&answer[..count], &vec![0xEE; room - count][..]), "{room}");
    }
}

// The first that applies of V1 to V5.
#[test]
fn what_no_part_starts_with_is_refused() {
    let good = Output::default();
    let bad = Output { mode: 0xFF, ..good };
    let direct = Output { mode: 0x40, ..good };
    for (made, wanted) in [
        (Part::new(0x58, &[], (1, 0, 3)), Refusal::V1OutputCount),
        (Part::new(0x78, &[bad; 9], (1, 0, 3)), Refusal::V1OutputCount),
        (Part::new(0x78, &[Output { operation: 0xB0, ..bad }], (1, 0, 3)), Refusal::V2BadStart),
        (Part::protected(0x58, &[good], (1, 0, 3), 0x05), Refusal::V2BadStart),
        (Part::new(0x78, &[bad], (1, 0, 3)), Refusal::V3Address),
        (Part::new(0x58, &[direct, bad], (0, 0, 0)), Refusal::V4BadMode),
        (Part::new(0x58, &[direct], (0, 0, 0)), Refusal::V5BadCoefficients),
    ] {
        assert_eq!(made.err(), Some(wanted));
    }
    let part = Part::protected(0x58, &[good; 8], (1, 0, 3), 0x80).unwrap();
    assert_eq!((part.address(), part.outputs(), part.word(Cell::WriteProtect)), (0x58, 8, Ok(0x80)));
}

// PAGE 1, and VOUT_COMMAND 34CDh by PAGE; the same by PAGE_PLUS for output 0; STORE_USER_ALL.
const PAGE_1: [u8; 4] = [0xB0, 0x00, 0x01, 0xED];
const PLAIN: [u8; 5] = [0xB0, 0x21, 0xCD, 0x34, 0x38];
const CARRIED: [u8; 8] = [0xB0, 0x05, 0x04, 0x00, 0x21, 0xCD, 0x34, 0x5A];
const STORE: [u8; 3] = [0xB0, 0x15, 0x24];

#[test]
fn a_part_has_a_page_and_a_store() {
    let mut part = Part::new(0x58, &[Output::default(); 2], (1, 0, 3)).unwrap();
    assert_eq!((part.hear(&PAGE_1, false), part.page()), (Ok(Heard::Taken), 1));
    assert_eq!(part.hear(&PLAIN, false), Ok(Heard::Taken));
    assert_eq!((part.register(0, Register::VoutCommand), part.register(1, Register::VoutCommand)), (Ok(0x1000), Ok(0x34CD)));
    part.restart();
    assert_eq!((part.page(), part.register(1, Register::VoutCommand)), (0, Ok(0x1000)));
    assert_eq!(part.hear(&CARRIED, false), Ok(Heard::Taken));
    assert_eq!((part.word(COMMAND), part.stored_word(COMMAND)), (Ok(0x34CD), Ok(0x1000)));
    assert_eq!(part.hear(&STORE, false), Ok(Heard::Taken));
    part.restart();
    assert_eq!((part.word(COMMAND), part.commanded_microvolts(0), part.is_on(0)), (Ok(0x34CD), Ok(3_300_048), Ok(true)));
    assert_eq!(part.stored_word(Cell::WriteProtect), Err(Refusal::NoCell));
    assert_eq!(part.stored_word(Cell::Output(2, Register::VoutMin)), Err(Refusal::H4UnknownOutput));
}

#[test]
fn a_part_starts_with_its_words_and_hears_its_own_address() {
    let words = Output {
        mode: 0x14,
        operation: 0x40,
        command: 0x1001,
        max: 0x4002,
        margin_high: 0x1103,
        margin_low: 0x0F04,
        min: 0x0005,
    };
    let mut part = Part::new(0x58, &[words], (1, 0, 3)).unwrap();
    let held = Register::ALL.map(|register| part.register(0, register).unwrap());
    assert_eq!(held, [0x40, 0x1001, 0x4002, 0x1103, 0x0F04, 0x0005]);
    let order = &mut [Operation::Write(&CARRIED[1..])];
    assert_eq!(part.transaction(0x59, order), Err(NoAnswer));
    assert_eq!((part.transaction(0x58, order), part.word(COMMAND)), (Ok(()), Ok(0x34CD)));
}

#[test]
fn a_part_has_readings_and_status() {
    let mut part = Part::new(0x58, &[Output::default(); 2], (1, 0, 3)).unwrap();
    part.set_reading(Reading::Vin, 0xD300).unwrap();
    part.set_reading(Reading::Temperature, 0x0019).unwrap();
    part.set_reading(Reading::Vout(1), 0x34CD).unwrap();
    assert_eq!(part.set_reading(Reading::Iout(2), 1), Err(Refusal::H4UnknownOutput));
    let status = |part: &Part| (part.status_byte(1), part.status_word(1), part.status_vout(1), part.status_cml());
    assert_eq!(status(&part), (Ok(0), Ok(0), Ok(0), 0));
    assert_eq!(part.hear(&[0xB0, 0x05], false), Err(Refusal::K1Frame));
    assert_eq!(status(&part), (Ok(2), Ok(2), Ok(0), 2));
    assert_eq!((part.status_word(2), part.is_on(2)), (Err(Refusal::H4UnknownOutput), Err(Refusal::H4UnknownOutput)));
    let other = part.clone();
    part.restart();
    assert_eq!((status(&part), status(&other)), ((Ok(0), Ok(0), Ok(0), 0), (Ok(2), Ok(2), Ok(0), 2)));
    for (code, low, high) in [(0x88, 0x00, 0xD3), (0x8D, 0x19, 0x00)] {
        let Ok(Heard::Answered(answer)) = part.hear(&[0xB0, code], true) else { panic!("no answer") };
        assert_eq!(answer[..3], [0xB1, low, high]);
    }
    assert_eq!(part.hear(&PAGE_1, false), Ok(Heard::Taken));
    let Ok(Heard::Answered(answer)) = part.hear(&[0xB0, 0x8B], true) else { panic!("no answer") };
    assert_eq!((&answer[..3], answer[3]), (&[0xB1, 0xCD, 0x34][..], pec(&[0xB0, 0x8B, 0xB1, 0xCD, 0x34])));
}

/// A bus that meets a fate for each transaction: 0 good, 1 not heard, 2 heard and the acknowledgement or answer lost, 3 a
/// bit of the answer is another.
struct Faulty {
    part: Part,
    fates: u64,
}

impl Bus for Faulty {
    type Error = NoAnswer;

    fn transaction(&mut self, address: u8, operations: &mut [Operation<'_>]) -> Result<(), NoAnswer> {
        let fate = self.fates % 4;
        self.fates /= 4;
        if fate == 1 {
            return Err(NoAnswer);
        }
        self.part.transaction(address, operations)?;
        match (fate, operations.get_mut(1)) {
            (2, _) => Err(NoAnswer),
            (3, Some(Operation::Read(answer))) => {
                answer[0] ^= 4;
                Ok(())
            }
            _ => Ok(()),
        }
    }
}

#[test]
fn no_confirmed_word_is_wrong_under_every_fault() {
    let mut ends = [0; 3];
    for fates in 0..4096 {
        let mut host = free(0x58, 2, 3);
        let mut bus = Faulty { part: part(), fates };
        let end = host.run_job(Job::Order(COMMAND, 0x3400), &mut bus);
        let held = bus.part.word(COMMAND).unwrap();
        ends[match end {
            Ok(Done::Word(0x3400)) if held == 0x3400 => 0,
            Err(NotDone::Differs { word: 0x34CD }) if held == 0x34CD => 1,
            Err(NotDone::Unknown { .. }) if host.possible_words(COMMAND).unwrap().allows(held) => 2,
            other => panic!("{fates}: {other:?}, while the part holds {held:04X}"),
        }] += 1;
        assert!(host.confirmed_word(COMMAND).unwrap().map_or(true, |word| word == held));
    }
    assert!(ends.iter().all(|count| *count > 0), "{ends:?}");
}
