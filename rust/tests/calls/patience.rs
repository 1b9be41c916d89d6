//! A patient bus beside the rows of trials/c/rows/patient.txt, whose head says what they are; and what else it does.

use core::fmt;
use std::cell::Cell as Kept;
use std::error::Error;
use std::rc::Rc;

use super::free;
use pmhost::*;

/// Why a transaction failed: nobody acknowledged the address, or a byte behind it wasn't acknowledged.
#[derive(Clone, Copy, Debug, PartialEq, Eq)]
pub(super) enum Failed {
    Address,
    Byte,
}

impl fmt::Display for Failed {
    fn fmt(&self, to: &mut fmt::Formatter<'_>) -> fmt::Result {
        write!(to, "{self:?}")
    }
}

impl Error for Failed {}

impl Unheard for Failed {
    fn is_unheard(&self) -> bool {
        *self == Failed::Address
    }
}

/// Milliseconds that the test and the bus look at.
#[derive(Clone)]
struct Time(Rc<Kept<u32>>);

impl Clock for Time {
    fn now(&mut self) -> u32 {
        self.0.get()
    }

    fn wait(&mut self, milliseconds: u32) {
        self.0.set(self.0.get().wrapping_add(milliseconds));
    }
}

/// A bus whose transactions do what the letters of the rows say, the last one for ever. It keeps the letters and times of its calls.
struct Scripted {
    does: &'static [u8],
    time: Time,
    calls: String,
    count: usize,
    last: u32,
}

impl Scripted {
    fn new(does: &'static str, time: &Time) -> Scripted {
        Scripted { does: does.as_bytes(), time: time.clone(), calls: String::new(), count: 0, last: 0 }
    }
}

/// The answer to a question.
fn said(code: u8, does: u8) -> [u8; 2] {
    if code == 0x19 {
        return [if does == b'f' { 0xFF } else { 0x80 }, 0xD3];
    }
    let byte = if does == b'b' { 0x20 } else { 0x60 };
    [byte, pec(&[0xB0, code, 0xB1, byte]) ^ u8::from(does == b'x')]
}

impl Bus for Scripted {
    type Error = Failed;

    fn transaction(&mut self, _: u8, operations: &mut [Operation<'_>]) -> Result<(), Failed> {
        let does = self.does[self.count.min(self.does.len() - 1)];
        let asked = match operations {
            [Operation::Write([code @ (0x19 | 0xEF)]), Operation::Read(answer)] if answer.len() == 2 => Some(*code),
            _ => None,
        };
        let passed = self.time.0.get().wrapping_sub(BEGIN);
        self.count += 1;
        self.calls.push(if operations.len() == 1 { 'W' } else { asked.map_or('R', |_| 'Q') });
        if passed != self.last {
            self.calls += &passed.to_string();
            self.last = passed;
        }
        match (does, operations.get_mut(1)) {
            (b'u', _) => return Err(Failed::Address),
            (b'k', _) if passed < 440 => return Err(Failed::Address),
            (b'l', _) if passed < 4100 => return Err(Failed::Address),
            (b'n', _) => return Err(Failed::Byte),
            (b'o', Some(Operation::Read(answer))) => answer.fill(0xFF),
            (_, Some(Operation::Read(answer))) => match asked {
                Some(code) => answer.copy_from_slice(&said(code, does)),
                None => answer.copy_from_slice(&[0x02, 0xCD, 0x34, 0xB9][..answer.len()]),
            },
            _ => {}
        }
        Ok(())
    }
}

const WORD: Cell = Cell::Output(0, Register::VoutCommand);
const ORDER: Job = Job::Order(WORD, 0x34CD);
const ON: Job = Job::Order(Cell::Output(0, Register::Operation), 0x80);
const OFF: Job = Job::Order(Cell::Output(0, Register::Operation), 0x00);
const CHECK: Job = Job::Check(WORD);
const BEGIN: u32 = 10_u32.wrapping_neg(); // The clock wraps round after 10 ms.

type Ended = Result<Done, NotDone<NotHeard<Failed>>>;

fn begin() -> Time {
    Time(Rc::new(Kept::new(BEGIN)))
}

/// A clock that steps back by a millisecond each time that it is looked at.
struct Back(u32);

impl Clock for Back {
    fn now(&mut self) -> u32 {
        self.0 -= 1;
        self.0
    }

    fn wait(&mut self, _: u32) {}
}

#[test]
fn a_clock_that_steps_back_ends_the_patience() {
    let below = Scripted::new("uuuu", &begin());
    let mut bus = Patient::new(below, Back(50));
    assert!(free(0x58, 1, 1).run_job(ORDER, &mut bus).is_err());
    assert_eq!(bus.into_inner().calls, "WR");
}

#[test]
fn a_bus_may_be_borrowed_and_is_given_back() {
    let mut part = Part::new(0x58, &[Output::default()], (1, 0, 3)).unwrap();
    let mut host = free(0x58, 1, 1);
    let mut bus = Patient::new(&mut part, begin());
    assert_eq!(host.run_job(ORDER, &mut bus), Ok(Done::Word(0x34CD)));
    bus.bus_mut().restart();
    assert_eq!(bus.into_inner().word(WORD), Ok(0x1000));
    assert!(!NoAnswer.is_unheard());
    // A bus whose type isn't known.
    let mut any: &mut dyn Bus<Error = NoAnswer> = &mut part;
    assert_eq!(host.run_job(CHECK, &mut any), Ok(Done::Word(0x1000)));
}

/// A bus whose first transaction goes, and which counts them.
struct Counts(u32);

impl Bus for Counts {
    type Error = Failed;

    fn transaction(&mut self, _: u8, _: &mut [Operation<'_>]) -> Result<(), Failed> {
        self.0 += 1;
        if self.0 == 1 {
            Ok(())
        } else {
            Err(Failed::Byte)
        }
    }
}

#[test]
fn a_borrowed_bus_hands_each_transaction_on_once() {
    let mut below = Counts(0);
    let mut over = &mut below;
    assert_eq!(Bus::transaction(&mut over, 0x58, &mut [Operation::Write(&[])]), Ok(()));
    assert_eq!(Bus::transaction(&mut over, 0x58, &mut [Operation::Write(&[])]), Err(Failed::Byte));
    assert_eq!(below.0, 2);
}

/// A row: its job, passes, patience, byte of readiness, deadline, what the transfers do, how the job ended and with which fault, the transfers,
/// when it was over, and what it shows.
type Row = [&'static str; 11];

const ROWS: &str = include_str!("../../../trials/c/rows/patient.txt");

/// How a row ends, the transfers, when it was over, and whether that was late; and then when a wait of a second is over.
fn carried_out([job, passes, patience, ready, deadline, does, ..]: Row) -> (Ended, String, u32, bool, u32) {
    let time = begin();
    let mut bus = Patient::new(Scripted::new(does, &time), time.clone());
    if patience != "-" {
        bus = bus.with_patience(patience.parse().unwrap());
    }
    if ready != "-" {
        bus = bus.with_ready(0xEF, u8::from_str_radix(ready, 16).unwrap());
    }
    bus.set_deadline(deadline.parse().ok());
    let mut host = free(if job == "p" { 0x4A } else { 0x58 }, 1, passes.parse().unwrap());
    let job_of = || match job {
        "o" => ORDER,
        "n" => ON,
        "f" => OFF,
        "v" => CHECK,
        "p" => Job::Check(Cell::WriteProtect),
        "r" => Job::Restore,
        _ => Job::Store,
    };
    let mut ended = host.run_job(job_of(), &mut bus);
    if job == "t" {
        ended = host.run_job(job_of(), &mut bus);
    }
    let passed = || time.0.get().wrapping_sub(BEGIN);
    let (over, is_late) = (passed(), bus.is_late());
    bus.wait(1000);
    let waited = passed();
    bus.set_deadline(None);
    bus.wait(1000);
    assert_eq!(passed(), waited + 1000, "without a deadline");
    (ended, bus.bus().calls.clone(), over, is_late, waited)
}

#[test]
fn a_busy_part_is_waited_for() {
    let mut count = 0;
    for line in ROWS.lines().filter(|line| !line.starts_with('#')) {
        let row: Row = line.splitn(11, ' ').collect::<Vec<_>>().try_into().unwrap();
        let [.., deadline, does, kind, fault, calls, over, name] = row;
        // An answer has no room for another byte here, and a deadline stands ahead.
        if does.contains('m') || deadline == "-5" {
            continue;
        }
        let (ended, found, when, is_late, waited) = carried_out(row);
        let calls = if calls == "-" { "" } else { calls };
        let over: u32 = over.parse().unwrap();
        assert_eq!((ended.is_ok(), found.as_str(), when), (kind == "1", calls, over), "{name}: {ended:?}");
        let fault = u8::from_str_radix(fault, 16).ok();
        match ended {
            Err(NotDone::Unknown { fault: found, .. }) => assert_eq!(found.map(Refusal::number), fault, "{name}"),
            _ => assert!(ended.is_ok() && fault.is_none(), "{name}: {ended:?}"),
        }
        let is_ones = matches!(ended, Err(NotDone::Unknown { error: Some(NotHeard::Ones), .. }));
        assert_eq!(is_ones, does.ends_with('o') && kind == "3", "{name}");
        let deadline: Option<u32> = deadline.parse().ok();
        assert_eq!(is_late, deadline.is_some_and(|it| over >= it), "{name}");
        assert_eq!(waited, deadline.unwrap_or(over + 1000), "{name}: no longer than to the deadline");
        count += 1;
    }
    assert_eq!(count, 45);
    assert_eq!(NotHeard::<Failed>::Late.to_string(), "the deadline has passed");
}

/// How a check of one word ends over a bus whose transactions do this.
fn checked(does: &'static str) -> Ended {
    free(0x58, 1, 2).run_job(CHECK, &mut Patient::new(Scripted::new(does, &begin()), begin()))
}

#[test]
fn the_last_error_is_the_source() {
    assert_eq!(checked("o"), Err(NotDone::Unknown { error: Some(NotHeard::Ones), fault: None }));
    let error = checked("n").unwrap_err();
    assert_eq!(error, NotDone::Unknown { error: Some(NotHeard::Bus(Failed::Byte)), fault: None });
    let heard = error.source().unwrap();
    assert_eq!((heard.to_string(), heard.source().unwrap().to_string()), ("the transfer failed".into(), "Byte".into()));
    assert_eq!(NotHeard::<Failed>::Ones.to_string(), "nothing but FFh");
}

#[test]
fn a_write_that_turns_on_is_sent_once() {
    let write = |job| {
        let mut host = free(0x58, 1, 1);
        host.begin(job).unwrap();
        host.frame().is_once()
    };
    assert_eq!([ON, OFF, ORDER, CHECK].map(write), [true, false, false, false]);
}
