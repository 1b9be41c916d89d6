//! What an output commands, and courses.

use super::{free, unlimited};
use pmhost::*;

const VOLTS: Wanted = Wanted { command: Some(0x3500), max: None, margin_high: None, margin_low: None, min: None };

/// A part, whose writes may be acknowledged and lost, with how many were sent.
struct Lossy {
    part: Part,
    lost: usize,
    writes: Vec<u8>,
}

impl Bus for Lossy {
    type Error = NoAnswer;

    fn transaction(&mut self, address: u8, operations: &mut [Operation<'_>]) -> Result<(), NoAnswer> {
        if let [Operation::Write(bytes)] = operations {
            self.writes.push(bytes[3]);
            if self.lost > 0 {
                self.lost -= 1;
                return Ok(());
            }
        }
        self.part.transaction(address, operations)
    }
}

fn run<B: Bus>(host: &mut Host, wanted: &Wanted, tries: u16, bus: &mut B) -> Result<(), NotReached<B::Error>> {
    host.run_course(&mut Course::words(0, wanted, tries).unwrap(), bus)
}

fn lossy(lost: usize) -> Lossy {
    let output =
        Output { command: 0x34CD, max: 0x3770, margin_high: 0x3600, margin_low: 0x3400, min: 0x3334, ..Output::default() };
    Lossy { part: Part::new(0x58, &[output], (1, 0, 3)).unwrap(), lost, writes: Vec::new() }
}

#[test]
fn a_rail_is_told_by_what_is_known() {
    let (mut host, mut bus) = (free(0x58, 1, 3), lossy(0));
    let before = host.rail(0).unwrap();
    assert_eq!((before.power, before.selected), (Power::NotKnown, Selected::NotKnown));
    assert_eq!((before.band, before.within), (Err(Refusal::H7FormatUnknown), LimitsState::NoLimits));
    host.run_course(&mut Course::survey(0, 5).unwrap(), &mut bus).unwrap();
    let band = Ok(Band { least: 3_300_048, greatest: 3_300_049 });
    let selected = Selected::Register(Register::VoutCommand);
    assert_eq!(host.rail(0), Ok(Rail { power: Power::On, selected, band, within: LimitsState::NoLimits }));
    host.run_job(Job::Order(Cell::Output(0, Register::Operation), 0), &mut bus).unwrap();
    assert_eq!(host.rail(0).unwrap().power, Power::Off);
    assert_eq!(host.rail(1), Err(Refusal::H4UnknownOutput));
}

#[test]
fn a_set_says_what_its_own_output_commands() {
    let output = |command| Output { command, ..Output::default() };
    let mut part = Part::new(0x58, &[output(0x1000), output(0x1000)], (1, 0, 3)).unwrap();
    let mut host = free(0x58, 2, 3);
    let rail = host.set_microvolts(1, Register::VoutCommand, 3_300_000, COURSE_TRIES, &mut part).unwrap();
    assert_eq!((rail.power, rail.band), (Power::On, Ok(Band { least: 3_300_048, greatest: 3_300_049 })));
    assert_eq!(host.rail(0).unwrap().band, Err(Refusal::H7FormatUnknown));
    // Output 0 has limits that nothing is known to be within, and output 1 none.
    host.set_limits(0, Limits { least: 900_000, most: 1_100_000 }).unwrap();
    assert_eq!((host.rail(0).unwrap().within, host.rail(1).unwrap().within), (LimitsState::NotKnown, LimitsState::NoLimits));
}

#[test]
fn a_refusal_names_the_cell_of_its_own_output() {
    let mut part = Part::new(0x58, &[Output::default(), Output::default()], (1, 0, 3)).unwrap();
    let mut host = free(0x58, 2, 3);
    let wanted = Wanted { command: Some(0x5000), ..Wanted::default() }; // VOUT_MAX is 4000h
    let refused = host.run_course(&mut Course::words(1, &wanted, COURSE_TRIES).unwrap(), &mut part);
    let cell = Some(Cell::Output(1, Register::VoutCommand));
    assert_eq!(refused, Err(NotReached::Refused { refusal: Refusal::P6AboveMax, cell }));
}

#[test]
fn a_rail_says_which_register_has_its_voltage() {
    let rows = [
        (0x40, Selected::Register(Register::VoutCommand)),
        (0xA8, Selected::Register(Register::VoutMarginHigh)),
        (0x98, Selected::Register(Register::VoutMarginLow)),
    ];
    for (byte, selected) in rows {
        let output = Output { operation: byte, ..Output::default() };
        let (mut host, mut bus) = (free(0x58, 1, 1), Part::new(0x58, &[output], (1, 0, 3)).unwrap());
        host.run_job(Job::Check(Cell::Output(0, Register::Operation)), &mut bus).unwrap();
        assert_eq!(host.rail(0).unwrap().selected, selected, "{byte:02X}");
    }
    // No part of the model holds B0h, which hands the voltage to AVSBus.
    let mut host = free(0x58, 1, 1);
    host.check(Cell::Output(0, Register::Operation)).unwrap();
    let _ = host.read_ended(&[0xB1, 0x01, 0xB0, pec(&[0xB0, 0x06, 0x02, 0x00, 0x01, 0xB1, 0x01, 0xB0])]).unwrap();
    assert_eq!(host.rail(0).unwrap().selected, Selected::AvsBus);
}

#[test]
fn a_course_says_what_it_would_begin_and_what_is_under_way() {
    let (mut host, mut bus) = (free(0x58, 1, 3), lossy(0));
    let cell = Cell::Output(0, Register::VoutCommand);
    let mut course = Course::words(0, &VOLTS, 40).unwrap();
    assert_eq!((course.next(&host), course.job(), course.end()), (Some(Job::Learn(0)), None, None));
    let Ok(Sending::Request { frame, answer: 4 }) = course.frame(&mut host) else { panic!("no learn") };
    assert_eq!((course.frame(&mut host), course.job()), (Ok(Sending::Request { frame, answer: 4 }), Some(Job::Learn(0))));
    assert_eq!(course.write_ended(&mut host, true), Err(Refusal::OtherFrame));
    let mut seen = Vec::new();
    loop {
        let step = match course.frame(&mut host).unwrap() {
            Sending::Nothing => break,
            Sending::Write(frame) => {
                let acked = bus.transaction(0x58, &mut [Operation::Write(&frame[1..])]).is_ok();
                course.write_ended(&mut host, acked)
            }
            Sending::Request { frame, answer } => {
                let mut bytes = [0xB1, 0, 0, 0, 0, 0, 0, 0];
                bus.transaction(0x58, &mut [Operation::Write(&frame[1..]), Operation::Read(&mut bytes[1..answer])]).unwrap();
                course.read_ended(&mut host, &bytes[..answer])
            }
        };
        if step != Ok(Step::Next) {
            seen.push((step.unwrap(), course.next(&host)));
        }
    }
    assert_eq!(seen[0], (Step::Learned, Some(Job::Check(Cell::Output(0, Register::Operation)))));
    assert_eq!(seen[5], (Step::Done, Some(Job::Order(cell, 0x3500))));
    assert_eq!(seen[6], (Step::Done, Some(Job::Learn(0))));
    assert_eq!((seen.len(), seen[12], course.next(&host), course.job()), (13, (Step::Done, None), None, None));
    assert_eq!((course.end(), course.output()), (Some(Ok(())), 0));
}

#[test]
fn a_course_is_of_an_output_and_of_voltages() {
    assert_eq!(Course::survey(8, 1).err(), Some(Refusal::H4UnknownOutput));
    assert_eq!(Course::words(8, &VOLTS, 1).err(), Some(Refusal::H4UnknownOutput));
    assert_eq!(Course::power(8, 0, 1).err(), Some(Refusal::H4UnknownOutput));
    assert_eq!(Course::voltage(0, Register::Operation, 1, 1).err(), Some(Refusal::H5BadWord));
    let mut course = Course::voltage(0, Register::VoutCommand, 1, 1).unwrap();
    assert_eq!(course.want(Register::Operation, 1), Err(Refusal::H5BadWord));
    assert_eq!(course.want(Register::VoutMax, 1), Ok(()));
    assert_eq!(Course::survey(0, 1).unwrap().want(Register::VoutMax, 1), Err(Refusal::NoCourse));
    assert_eq!(Course::power(0, 0, 1).unwrap().want(Register::VoutMax, 1), Err(Refusal::NoCourse));
}

#[test]
fn a_course_waits_for_another_job() {
    let (mut host, mut bus) = (free(0x58, 1, 1), lossy(0));
    let mut course = Course::survey(0, 9).unwrap();
    host.check(Cell::WriteProtect).unwrap();
    let busy = NotReached::Refused { refusal: Refusal::H3Busy, cell: None };
    assert_eq!(host.run_course(&mut course, &mut bus), Err(busy));
    host.give_up();
    assert_eq!(host.run_course(&mut course, &mut bus), Ok(()));
    assert_eq!(host.run_course(&mut course, &mut bus), Ok(())); // it stays ended
}

#[test]
fn a_course_writes_what_is_due_and_surveys() {
    let (mut host, mut bus) = (free(0x58, 1, 3), lossy(0));
    let wanted = Wanted { max: Some(0x3A00), command: Some(0x3900), ..Wanted::default() };
    assert_eq!(run(&mut host, &wanted, 40, &mut bus), Ok(()));
    assert_eq!((bus.writes.as_slice(), bus.part.commanded_microvolts(0)), (&[0x24, 0x21][..], Ok(3_562_500)));
    assert_eq!(run(&mut host, &wanted, 40, &mut bus), Ok(()));
    assert_eq!(bus.writes.len(), 2);
    let low = run(&mut host, &Wanted { command: Some(0x3000), ..Wanted::default() }, 40, &mut bus);
    let cell = Some(Cell::Output(0, Register::VoutCommand));
    assert_eq!(low, Err(NotReached::Refused { refusal: Refusal::P5BelowMin, cell }));
    assert_eq!(bus.writes.len(), 2);
}

#[test]
fn a_voltage_is_set_and_told() {
    let (mut host, mut bus) = (free(0x58, 1, 3), lossy(1));
    host.set_limits(0, Limits { least: 3_200_000, most: 3_600_000 }).unwrap();
    // Nothing is known: the format is learned, the first write is lost, and the word is 3501h, 3.312744 V.
    let selected = Selected::Register(Register::VoutCommand);
    let band =
        |least| Ok(Rail { power: Power::On, selected, band: Ok(Band { least, greatest: least + 1 }), within: LimitsState::Yes });
    assert_eq!(host.set_microvolts(0, Register::VoutCommand, 3_312_800, 20, &mut bus), band(3_312_744));
    assert_eq!((bus.writes.as_slice(), bus.part.commanded_microvolts(0)), (&[0x21, 0x21][..], Ok(3_312_744)));
    // As it is wanted: nothing is written. A margin that isn't selected leaves what the output commands.
    assert_eq!(host.set_microvolts(0, Register::VoutCommand, 3_312_800, 20, &mut bus), band(3_312_744));
    assert_eq!(host.set_microvolts(0, Register::VoutMarginHigh, 3_400_000, 20, &mut bus), band(3_312_744));
    assert_eq!(host.set_microvolts(0, Register::VoutMarginLow, 3_275_000, 20, &mut bus), band(3_312_744));
    assert_eq!(host.set_microvolts(0, Register::VoutMax, 3_500_000, 20, &mut bus), band(3_312_744));
    assert_eq!(host.set_microvolts(0, Register::VoutMin, 3_225_000, 20, &mut bus), band(3_312_744));
    assert_eq!(bus.writes, [0x21, 0x21, 0x25, 0x26, 0x24, 0x2B]);
    let held = [Register::VoutMarginHigh, Register::VoutMarginLow, Register::VoutMax, Register::VoutMin]
        .map(|register| host.confirmed_word(Cell::Output(0, register)).unwrap());
    assert_eq!(held, [Some(0x3666), Some(0x3466), Some(0x3800), Some(0x339A)]);
}

#[test]
fn a_voltage_that_is_not_set_says_why() {
    let (mut host, mut bus) = (free(0x58, 1, 1), lossy(9));
    host.set_limits(0, Limits { least: 3_200_000, most: 3_600_000 }).unwrap();
    let mut set = |register, microvolts, tries| host.set_microvolts(0, register, microvolts, tries, &mut bus);
    let refused = |refusal, cell| Err(NotReached::Refused { refusal, cell });
    assert_eq!(set(Register::VoutCommand, 3_300_000, 0), Err(NotReached::Spent { cell: None, fault: None, error: None }));
    assert_eq!(set(Register::Operation, 3_300_000, 20), refused(Refusal::H5BadWord, None));
    let cell = Some(Cell::Output(0, Register::VoutCommand));
    assert_eq!(set(Register::VoutCommand, 16_000_000, 20), refused(Refusal::N4AboveGreatest, cell));
    assert_eq!(set(Register::VoutCommand, 3_700_000, 20), refused(Refusal::L4AboveLimit, cell));
    let differs = Err(NotReached::Differs { register: Register::VoutCommand, word: 0x34CD });
    assert_eq!(set(Register::VoutCommand, 3_312_800, 20), differs);
    assert_eq!(bus.writes, [0x21, 0x21]);
    assert_eq!(host.set_microvolts(1, Register::VoutCommand, 1, 20, &mut bus), refused(Refusal::H4UnknownOutput, None));
}

#[test]
fn a_format_that_is_not_learned_ends_a_set() {
    struct Dead(u16);
    impl Bus for Dead {
        type Error = NoAnswer;
        fn transaction(&mut self, _: u8, _: &mut [Operation<'_>]) -> Result<(), NoAnswer> {
            self.0 += 1;
            Err(NoAnswer)
        }
    }
    let (mut host, mut bus) = (free(0x58, 1, 1), Dead(0));
    let end = host.set_microvolts(0, Register::VoutCommand, 3_300_000, 4, &mut bus);
    let fault = Some(AnswerFault::NoAnswer);
    assert_eq!((end, bus.0), (Err(NotReached::Spent { cell: None, fault, error: Some(NoAnswer) }), 4));
}

#[test]
fn a_lost_order_is_given_once_again() {
    let (mut host, mut bus) = (free(0x58, 1, 1), lossy(1));
    assert_eq!((run(&mut host, &VOLTS, 40, &mut bus), bus.writes.len()), (Ok(()), 2));
    let (mut host, mut bus) = (free(0x58, 1, 1), lossy(9));
    let end = run(&mut host, &VOLTS, 40, &mut bus);
    assert_eq!(end, Err(NotReached::Differs { register: Register::VoutCommand, word: 0x34CD }));
    assert_eq!(bus.writes.len(), 2);
    assert!(matches!(run(&mut host, &VOLTS, 5, &mut bus), Err(NotReached::Spent { .. })));
    assert_eq!(bus.writes.len(), 2);
}

#[test]
fn a_part_may_lack_registers() {
    let missing = [Register::VoutMin, Register::VoutMarginHigh];
    let (mut host, mut bus) = (unlimited(Host::without(0x58, 1, 3, &missing).unwrap()), lossy(0));
    assert_eq!(run(&mut host, &VOLTS, 40, &mut bus), Ok(()));
    assert_eq!(host.check(Cell::Output(0, Register::VoutMin)), Err(Refusal::L7MissingRegister));
    assert_eq!(host.order(Cell::Output(0, Register::Operation), 0xA8), Err(Refusal::L7MissingRegister));
    assert_eq!(host.possible_words(Cell::Output(0, Register::VoutMin)).unwrap().words(), None);
    let wanted = Wanted { min: Some(1), ..VOLTS };
    let refused = |refusal, register| Err(NotReached::Refused { refusal, cell: Some(Cell::Output(0, register)) });
    let writes = bus.writes.len();
    assert_eq!(run(&mut host, &wanted, 40, &mut bus), refused(Refusal::L7MissingRegister, Register::VoutMin));
    bus.part = {
        let output = Output { operation: 0xA8, ..Output::default() };
        Part::new(0x58, &[output], (1, 0, 3)).unwrap()
    };
    assert_eq!(run(&mut host, &VOLTS, 40, &mut bus), refused(Refusal::P4NotKnown, Register::VoutMarginHigh));
    assert_eq!(bus.writes.len(), writes);
}

#[test]
fn off_is_the_first_frame_and_on_comes_after_a_survey() {
    let (mut host, mut bus) = (free(0x58, 1, 1), lossy(0));
    assert_eq!(host.run_course(&mut Course::power(0, 0, 9).unwrap(), &mut bus), Ok(()));
    assert_eq!((bus.writes.as_slice(), host.rail(0).unwrap().power), (&[0x01][..], Power::Off));
    assert_eq!(host.format(0), Ok(None));
    assert_eq!(host.run_course(&mut Course::power(0, 0x80, 40).unwrap(), &mut bus), Ok(()));
    assert_eq!((bus.writes.as_slice(), host.rail(0).unwrap().power), (&[0x01, 0x01][..], Power::On));
}

#[test]
fn what_isnt_reached_is_told_in_a_line() {
    let (cell, output) = (Cell::Output(0, Register::VoutCommand), Register::VoutCommand);
    let rows: [(NotReached<NoAnswer>, &str); 9] = [
        (
            NotReached::Refused { refusal: Refusal::L4AboveLimit, cell: Some(cell) },
            "refused: L4 AboveLimit Output(0, VoutCommand)",
        ),
        (NotReached::Refused { refusal: Refusal::H3Busy, cell: None }, "refused: H3 Busy"),
        (
            NotReached::Differs { register: output, word: 0x1000 },
            "VoutCommand holds 1000 after two orders: they were lost, refused, limited or rounded",
        ),
        (NotReached::NoFormat { mode: 0x21 }, "VOUT_MODE is 21h, a format that this host doesn't have"),
        (
            NotReached::OtherSource { byte: 0xB0 },
            "OPERATION holds B0h, which hands the voltage to AVSBus: order another byte first",
        ),
        (
            NotReached::OtherSource { byte: 0xA0 },
            "OPERATION holds A0h, of which it isn't known what it selects: order another byte first",
        ),
        (NotReached::Spent { cell: None, fault: None, error: None }, "no try is left to learn the format"),
        (
            NotReached::Spent { cell: Some(cell), fault: Some(AnswerFault::NotAcknowledged), error: None },
            "no try is left for Output(0, VoutCommand); the last answer: not acknowledged",
        ),
        (
            NotReached::Spent { cell: None, fault: Some(AnswerFault::Bad(Refusal::F5WrongPec)), error: Some(NoAnswer) },
            "no try is left to learn the format; the last answer: F5 WrongPec; a transfer failed",
        ),
    ];
    for (end, line) in rows {
        assert_eq!(end.to_string(), line);
    }
}

#[test]
fn a_course_stops_before_its_order() {
    let mut part = Part::new(0x58, &[Output::default()], (1, 0, 3)).unwrap();
    let mut host = unlimited(Host::new(0x58, 1, 3).unwrap());
    let mut course = Course::voltage(0, Register::VoutCommand, 1_100_000, COURSE_TRIES).unwrap();
    let mut sending = course.frame(&mut host).unwrap();
    while let Sending::Request { frame, .. } = sending {
        let Ok(Heard::Answered(bytes)) = part.hear(&frame, true) else { panic!("no answer") };
        sending = course.after_read(&mut host, &bytes, true).unwrap().1;
    }
    let word = course.goal(&host, Register::VoutCommand).unwrap();
    assert_eq!((sending, course.end()), (Sending::Nothing, None));
    assert_eq!(course.next(&host), Some(Job::Order(Cell::Output(0, Register::VoutCommand), word)));
    assert!(matches!(course.frame(&mut host), Ok(Sending::Write(_))));
}
