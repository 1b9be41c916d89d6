//! The format that a voltage is set by, and what a loop that didn't come to its end says.

use super::{framed, free};
use pmhost::*;

const SET: Register = Register::VoutCommand;
const MICROVOLTS: i64 = 3_300_000;
/// 3.3 V with the exponent -12 (VOUT_MODE 14h), and with -11 (15h), where 34CDh is 6.6 V.
const WORDS: [u16; 2] = [0x34CD, 0x1A66];
const COMMANDED: [Result<i64, Refusal>; 2] = [Ok(3_300_048), Ok(3_299_804)];

fn parts() -> [Part; 2] {
    [0x14, 0x15].map(|mode| Part::new(0x58, &[Output { mode, ..Output::default() }], (1, 0, 3)).unwrap())
}

/// A place for a part: the second part is in it from a transaction on, by its number from 0, and one transaction fails. It
/// keeps the words that each part was sent.
struct Exchanged {
    parts: [Part; 2],
    at: usize,
    fails: usize,
    count: usize,
    words: [Vec<u16>; 2],
}

impl Exchanged {
    fn new(at: usize) -> Exchanged {
        Exchanged { parts: parts(), at, fails: usize::MAX, count: 0, words: [Vec::new(), Vec::new()] }
    }
}

impl Bus for Exchanged {
    type Error = NoAnswer;

    fn transaction(&mut self, address: u8, operations: &mut [Operation<'_>]) -> Result<(), NoAnswer> {
        let place = usize::from(self.count >= self.at);
        self.count += 1;
        if self.count - 1 == self.fails {
            return Err(NoAnswer);
        }
        if let [Operation::Write(bytes)] = operations {
            let Ok(Packet::PagePlusWrite { data: Data::Word(word), .. }) = Packet::read_write(address, &framed(address, bytes))
            else {
                panic!("no voltage is ordered by {bytes:02X?}")
            };
            self.words[place].push(word);
        }
        self.parts[place].transaction(address, operations)
    }
}

#[test]
fn a_voltage_is_set_in_the_format_that_the_part_has() {
    let (mut host, mut bus) = (free(0x58, 1, 3), Exchanged::new(usize::MAX));
    for place in [0, 1] {
        // From the second call on another part is there.
        assert!(host.set_microvolts(0, SET, MICROVOLTS, COURSE_TRIES, &mut bus).is_ok());
        assert_eq!(
            (bus.parts[place].commanded_microvolts(0), bus.words[place].as_slice()),
            (COMMANDED[place], &WORDS[place..=place])
        );
        bus.at = bus.count;
    }
}

// 20 V have no word with the exponent -12.
#[test]
fn a_set_learns_whatever_is_known() {
    for (is_known, is_lost) in [(false, false), (true, false), (true, true)] {
        let (mut host, mut bus) = (free(0x58, 1, 1), Exchanged::new(usize::from(is_known)));
        if is_known {
            assert_eq!(host.run_job(Job::Learn(0), &mut bus), Ok(Done::Learned(Format::Ulinear16(-12))));
        }
        if is_lost {
            bus.fails = bus.count; // the first frame of the set
        }
        assert!(host.set_microvolts(0, Register::VoutMax, 20_000_000, COURSE_TRIES, &mut bus).is_ok(), "{is_known} {is_lost}");
        assert_eq!(bus.words, [vec![], vec![0xA000]], "{is_known} {is_lost}");
    }
}

#[test]
fn a_part_that_is_exchanged_while_a_voltage_is_set() {
    // Transactions 0 to 5 are the survey, whose first is a learn, 6 and 7 the order, and the survey that comes then begins with 8.
    // After the first learn the word of the other part may be sent; the next survey finds that.
    for (at, sent) in [(0, [&[][..], &WORDS[1..]]), (6, [&[], &WORDS]), (8, [&WORDS[..1], &WORDS[1..]])] {
        let (mut host, mut bus) = (free(0x58, 1, 3), Exchanged::new(at));
        let rail = host.set_microvolts(0, SET, MICROVOLTS, COURSE_TRIES, &mut bus).unwrap();
        assert_eq!(rail.band, Ok(Band { least: 3_299_804, greatest: 3_299_805 }), "{at}");
        assert_eq!((bus.parts[1].commanded_microvolts(0), bus.words), (COMMANDED[1], sent.map(<[u16]>::to_vec)), "{at}");
    }
    for at in 1..=7 {
        let (mut host, mut bus) = (free(0x58, 1, 3), Exchanged::new(at));
        let rail = host.set_microvolts(0, SET, MICROVOLTS, COURSE_TRIES, &mut bus).unwrap();
        assert_eq!(
            (rail.band, bus.parts[1].commanded_microvolts(0)),
            (Ok(Band { least: 3_299_804, greatest: 3_299_805 }), COMMANDED[1])
        );
    }
}

/// A part whose VOUT_MODE says VID, as a good answer, from a read of it on, by its number from 0.
struct Vid {
    part: Part,
    from: usize,
    modes: usize,
    count: usize,
}

impl Bus for Vid {
    type Error = NoAnswer;

    fn transaction(&mut self, address: u8, operations: &mut [Operation<'_>]) -> Result<(), NoAnswer> {
        self.count += 1;
        if let [Operation::Write([0x06, 0x02, 0x00, 0x20]), Operation::Read(answer)] = operations {
            self.modes += 1;
            if self.modes > self.from {
                answer.copy_from_slice(&[0x01, 0x21, pec(&[0xB0, 0x06, 0x02, 0x00, 0x20, 0xB1, 0x01, 0x21])]);
                return Ok(());
            }
        }
        self.part.transaction(address, operations)
    }
}

#[test]
fn a_format_that_no_host_has_ends_a_course() {
    let [part, _] = parts();
    let mut host = free(0x58, 1, 1);
    let mut bus = Vid { part, from: 0, modes: 0, count: 0 };
    let vid = Err(NotReached::NoFormat { mode: 0x21 });
    assert_eq!((host.set_microvolts(0, SET, MICROVOLTS, COURSE_TRIES, &mut bus).map(|_| ()), bus.count), (vid, 1));
    // The learn after an order says it too, and what was learned before is no reason to go on.
    (bus.from, bus.modes) = (1, 0);
    let end = host.set_microvolts(0, SET, MICROVOLTS, COURSE_TRIES, &mut bus).map(|_| ());
    assert_eq!((end, bus.modes, bus.part.register(0, SET)), (vid, 2, Ok(WORDS[0])));
    assert_eq!((host.frame(), host.format(0)), (Sending::Nothing, Ok(Some(Format::Ulinear16(-12)))));
    // A course that ended so stays ended; another one learns anew.
    let mut course = Course::survey(0, 6).unwrap();
    (bus.from, bus.modes) = (0, 0);
    assert_eq!((host.run_course(&mut course, &mut bus), bus.modes), (vid, 1));
    bus.from = usize::MAX;
    assert_eq!((host.run_course(&mut course, &mut bus), bus.modes), (vid, 1));
    assert_eq!((host.run_course(&mut Course::survey(0, 6).unwrap(), &mut bus), bus.modes), (Ok(()), 2));
}

/// A part whose transaction of this number from 0 fails, or has a wrong answer where it is a read.
struct Once {
    part: Part,
    at: usize,
    is_damaged: bool,
    count: usize,
    met: bool,
}

impl Bus for Once {
    type Error = usize;

    fn transaction(&mut self, address: u8, operations: &mut [Operation<'_>]) -> Result<(), usize> {
        let is_here = self.count == self.at;
        self.count += 1;
        if is_here && !self.is_damaged {
            self.met = true;
            return Err(self.at);
        }
        self.part.transaction(address, operations).map_err(|_| usize::MAX)?;
        if let (true, Some(Operation::Read(answer))) = (is_here, operations.get_mut(1)) {
            answer[1] ^= 1;
            self.met = true;
        }
        Ok(())
    }
}

#[test]
fn spent_says_what_the_last_answer_was_and_what_the_bus_said() {
    // The tries end with the order, whose write is transaction 6 and whose answer is 7, or before it.
    let command = Some(Cell::Output(0, SET));
    let (none, pec) = (Some(AnswerFault::NoAnswer), Some(AnswerFault::Bad(Refusal::F5WrongPec)));
    for (at, is_damaged, tries, cell, fault) in [
        (0, false, 1, None, none),
        (0, true, 1, None, pec),
        (5, false, 6, Some(Cell::WriteProtect), none),
        (5, true, 6, Some(Cell::WriteProtect), pec),
        (7, false, 7, command, none),
        (7, true, 7, command, pec),
        (0, true, 3, Some(Cell::Output(0, Register::VoutCommand)), None), // a good answer came since
    ] {
        let [part, _] = parts();
        let (mut host, mut bus) = (free(0x58, 1, 1), Once { part, at, is_damaged, count: 0, met: false });
        let end = host.set_microvolts(0, SET, MICROVOLTS, tries, &mut bus);
        let error = (!is_damaged).then_some(at);
        assert_eq!(end, Err(NotReached::Spent { cell, fault, error }), "{at} {is_damaged} {tries}");
    }
}
