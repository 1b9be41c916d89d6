//! The rows of trials/field/rows.txt, whose head says what they are, over the part of that folder, which is C: what the rail does behind
//! each call, in words, and at how many microvolts it is.

use std::cell::{Cell as Kept, RefCell};
use std::ffi::{c_char, c_void, CString};

use super::patience::Failed;
use pmhost::*;

const ROWS: &str = include_str!("../../../trials/field/rows.txt");
const ADDRESS: u8 = 0x58;

extern "C" {
    fn field_size() -> u64;
    fn field_new(part: *mut c_void, address: u8, outputs: u8) -> u8;
    fn field_restart(part: *mut c_void);
    fn field_set(part: *mut c_void, output: u8, name: *const c_char, value: i64) -> u8;
    fn field_get(part: *mut c_void, output: u8, name: *const c_char, value: *mut i64) -> u8;
    fn field_write(part: *mut c_void, bytes: *const u8, count: u64) -> u8;
    fn field_read(part: *mut c_void, request: *const u8, count: u64, answer: *mut u8, room: u64) -> u64;
}

/// A part, in memory of its own, and how many writes were sent to it.
struct Field(RefCell<Vec<u64>>, Kept<u32>);

impl Field {
    fn new() -> Field {
        let size = usize::try_from(unsafe { field_size() }).unwrap();
        let field = Field(RefCell::new(vec![0; size.div_ceil(8)]), Kept::new(0));
        assert_eq!(unsafe { field_new(field.at(), ADDRESS, 2) }, 0);
        field
    }

    fn at(&self) -> *mut c_void {
        self.0.borrow_mut().as_mut_ptr().cast()
    }

    fn set(&self, output: u8, name: &str, value: i64) {
        let text = CString::new(name).unwrap();
        assert_eq!(unsafe { field_set(self.at(), output, text.as_ptr(), value) }, 0, "{name}");
    }

    fn get(&self, output: u8, name: &str) -> i64 {
        let (text, mut value) = (CString::new(name).unwrap(), 0);
        assert_eq!(unsafe { field_get(self.at(), output, text.as_ptr(), &mut value) }, 0, "{name}");
        value
    }
}

impl Bus for &Field {
    type Error = Failed;

    fn transaction(&mut self, address: u8, operations: &mut [Operation<'_>]) -> Result<(), Failed> {
        let framed = |bytes: &[u8]| [&[address << 1], bytes].concat();
        match operations {
            [Operation::Write(bytes)] => {
                let frame = framed(bytes);
                self.1.set(self.1.get() + 1);
                match unsafe { field_write(self.at(), frame.as_ptr(), frame.len() as u64) } {
                    0xA5 => Ok(()),
                    0x3C => Err(Failed::Address),
                    _ => Err(Failed::Byte),
                }
            }
            [Operation::Write(bytes), Operation::Read(answer)] => {
                let (frame, room) = (framed(bytes), answer.len() as u64);
                match unsafe { field_read(self.at(), frame.as_ptr(), frame.len() as u64, answer.as_mut_ptr(), room) } {
                    0 => Err(Failed::Byte),
                    _ => Ok(()),
                }
            }
            _ => panic!("no such transaction"),
        }
    }
}

/// The part's own time.
impl Clock for &Field {
    fn now(&mut self) -> u32 {
        u32::try_from(self.get(0, "now") / 1000).unwrap()
    }

    fn wait(&mut self, milliseconds: u32) {
        self.set(0, "now", self.get(0, "now") + 1000 * i64::from(milliseconds));
    }
}

/// A row: its lines, the key and the text of each.
struct Row(Vec<(&'static str, &'static str)>);

fn rows() -> Vec<Row> {
    let lines: Vec<&str> = ROWS.lines().filter(|line| !line.starts_with('#')).collect();
    let blocks = lines.split(|line| line.is_empty()).filter(|lines| !lines.is_empty());
    blocks.map(|lines| Row(lines.iter().map(|line| line.split_once(": ").unwrap()).collect())).collect()
}

/// What is wanted of a call of a chain.
#[derive(Default)]
struct Wanted {
    call: &'static str,
    is: &'static str,
    end: Option<&'static str>,
    says: Option<&'static str>,
    status: &'static str,
}

impl Row {
    fn said(&self, key: &str) -> Option<&'static str> {
        self.0.iter().find(|line| line.0 == key).map(|line| line.1)
    }

    fn all(&self, key: &'static str) -> impl Iterator<Item = Vec<&'static str>> + '_ {
        self.0.iter().filter(move |line| line.0 == key).map(|line| line.1.split(' ').collect())
    }

    fn part(&self) -> Field {
        let part = Field::new();
        for words in self.all("part") {
            let output = words.get(2).map_or(0, |text| text.parse().unwrap());
            let value = i64::from_str_radix(words[1], 16).unwrap();
            part.set(output, words[0], if words[0] == "error" { i64::from(value as i16) } else { value });
        }
        part
    }

    /// The codes that the host is told the part lacks.
    fn lacks(&self) -> impl Iterator<Item = &'static str> + '_ {
        self.all("lacks").flatten()
    }

    fn host(&self) -> Host {
        let lacks: Vec<Register> = self.lacks().filter(|code| *code == "2B").map(register_of).collect();
        let mut host = Host::without(ADDRESS, 2, 3, &lacks).unwrap();
        let (least, most) = self.said("band").and_then(|band| band.split_once(' ')).unwrap_or(("800000", "1300000"));
        host.set_limits(0, Limits { least: least.parse().unwrap(), most: most.parse().unwrap() }).unwrap();
        host.set_limits(1, Limits { least: 800_000, most: 1_300_000 }).unwrap();
        host
    }

    fn looks(&self) -> Looks {
        let fault_limits = match self.said("limits") {
            Some("tell") => FaultLimits::Tell,
            Some("skip") => FaultLimits::Skip,
            _ => FaultLimits::Refuse,
        };
        let power_good = if self.said("power-good") == Some("tell") { PowerGood::Tell } else { PowerGood::Judge };
        let number = |key, otherwise| self.said(key).map_or(otherwise, |text| text.parse().unwrap());
        Looks {
            has_to_deliver: false,
            fault_limits,
            power_good,
            has_status_word: self.lacks().all(|code| code != "79"),
            has_read_vout: self.lacks().all(|code| code != "8B"),
            within: number("within", 50),
            rounds: number("rounds", 7),
        }
    }

    fn calls(&self) -> Vec<Wanted> {
        let mut calls = Vec::new();
        for (key, text) in &self.0 {
            match (*key, calls.last_mut()) {
                ("call", _) => calls.push(Wanted { call: text, ..Wanted::default() }),
                ("is", Some(call)) => call.is = text,
                ("end", Some(call)) => call.end = Some(text),
                ("says", Some(call)) => call.says = Some(text),
                ("status", Some(call)) => call.status = text,
                _ => {}
            }
        }
        calls
    }
}

fn register_of(code: &str) -> Register {
    let code = u8::from_str_radix(code, 16).unwrap();
    Register::ALL.into_iter().find(|register| register.code() == code).unwrap()
}

/// The standard's name of a register.
fn name_of(cell: Option<Cell>) -> &'static str {
    match cell {
        None => "VOUT_MODE",
        Some(Cell::WriteProtect) => "WRITE_PROTECT",
        Some(Cell::Output(_, register)) => match register {
            Register::Operation => "OPERATION",
            Register::VoutCommand => "VOUT_COMMAND",
            Register::VoutMax => "VOUT_MAX",
            Register::VoutMarginHigh => "VOUT_MARGIN_HIGH",
            Register::VoutMarginLow => "VOUT_MARGIN_LOW",
            Register::VoutMin => "VOUT_MIN",
        },
    }
}

fn step_of(call: &str, looks: Looks) -> SequenceStep {
    let words: Vec<&str> = call.split(' ').collect();
    let output = words[1].parse().unwrap();
    let wishes = |register, wish| match register {
        Register::VoutMax => Wishes { max: wish, ..Wishes::default() },
        Register::VoutMarginHigh => Wishes { margin_high: wish, ..Wishes::default() },
        Register::VoutMarginLow => Wishes { margin_low: wish, ..Wishes::default() },
        Register::VoutMin => Wishes { min: wish, ..Wishes::default() },
        Register::VoutCommand => Wishes { command: wish, ..Wishes::default() },
        Register::Operation => panic!("no voltage"),
    };
    let act = match words[0] {
        "survey" => Act::Surveys,
        "power" => Act::Turns(u8::from_str_radix(words[2], 16).unwrap()),
        "word" => Act::Sets(wishes(register_of(words[2]), Wish::Word(u16::from_str_radix(words[3], 16).unwrap()))),
        _ => {
            let register = words.get(3).map_or(Register::VoutCommand, |code| register_of(code));
            Act::Sets(wishes(register, Wish::Microvolts(words[2].parse().unwrap())))
        }
    };
    SequenceStep::new(0, output, act).with_looks(Some(looks))
}

fn kind_of(verdict: &Verdict) -> &'static str {
    match verdict {
        Verdict::NotYet => "not-yet",
        Verdict::Delivers { .. } => "delivers",
        Verdict::CommandedOff => "commanded-off",
        Verdict::NotKnownOn => "not-known-on",
        Verdict::IsOff { .. } => "off",
        Verdict::NewFault { .. } => "fault",
        Verdict::OutsideLimits { .. } => "outside",
        Verdict::Beyond { .. } => "beyond",
        Verdict::PowerGoodAlone { .. } => "power-good-alone",
        Verdict::NoPowerGood => "no-power-good",
        Verdict::NotKnown { .. } => "not-known",
        Verdict::WentOff => "went-off",
        Verdict::StillOn => "still-on",
        Verdict::DeliversByReadVout { .. } => "delivers-by-READ_VOUT",
    }
}

fn end_of(why: NotReached<Failed>) -> String {
    match why {
        NotReached::Refused { refusal, cell } => {
            format!("refused {} {}", refusal.to_string().split(' ').next().unwrap(), name_of(cell))
        }
        NotReached::Differs { register: Register::Operation, word } => format!("differs OPERATION {word:02X}"),
        NotReached::Differs { register, word } => format!("differs {} {word:04X}", name_of(Some(Cell::Output(0, register)))),
        NotReached::Spent { cell, fault, .. } => format!("spent {} {}", name_of(cell), fault.unwrap()),
        other => format!("{other}"),
    }
}

/// What a call is, its end where it isn't reached, what it says, and its status.
fn ended(found: Result<Delivered, NotDelivered<Failed>>) -> (&'static str, Option<String>, String, &'static str) {
    match found {
        Ok(found) => (kind_of(&found.verdict), None, found.to_string(), "0"),
        Err(NotDelivered::Does(found)) => (kind_of(&found.verdict), None, found.to_string(), "1"),
        Err(why @ NotDelivered::BeyondFaultLimit(_)) => {
            ("P8", None, why.to_string().trim_start_matches("refused: ").to_string(), "1")
        }
        Err(NotDelivered::NotReached(why)) => ("ended", Some(end_of(why)), String::new(), "1"),
        Err(NotDelivered::Stopped(end)) => ("stopped", None, end.to_string(), "1"),
        Err(NotDelivered::Refused(refusal)) => ("refused", None, refusal.to_string(), "1"),
    }
}

/// The registers that a chain orders, each with the word that it had behind its call.
fn ordered(host: &Host, call: &str) -> Option<(Cell, Option<u16>)> {
    let words: Vec<&str> = call.split(' ').collect();
    let register = match words[0] {
        "survey" => return None,
        "power" => Register::Operation,
        _ => words.get(3).filter(|_| words[0] == "set").map_or(Register::VoutCommand, |code| register_of(code)),
    };
    let cell = Cell::Output(words[1].parse().unwrap(), register);
    Some((cell, host.confirmed_word(cell).unwrap()))
}

/// Looks again at what a chain ordered: what is gone, in words.
fn again(host: &mut Host, part: &Field, all: &[(Cell, Option<u16>)]) -> Option<String> {
    all.iter().find_map(|(cell, was)| {
        let Cell::Output(output, _) = *cell else { return None };
        let _ = host.run_job(Job::Check(*cell), &mut &*part);
        let held = host.confirmed_word(*cell).unwrap();
        let told =
            || format!("{} of output {output} is {:04X}, and was {:04X}", name_of(Some(*cell)), held.unwrap(), was.unwrap());
        (held != *was).then(told)
    })
}

fn is_as_its_row_says(row: &Row) {
    let name = row.said("name").unwrap();
    let (part, mut host, mut all, mut is_well) = (row.part(), row.host(), Vec::new(), true);
    let mut records = [SequenceRecord::default(); 2];
    for wanted in row.calls() {
        assert_eq!(is_well, !wanted.is.is_empty(), "{name}: {} begins where each call before it ended well", wanted.call);
        if !is_well {
            continue;
        }
        let step = step_of(wanted.call, row.looks());
        let output = step.output();
        let wait = |milliseconds| (&part).wait(milliseconds);
        let found = host.deliver(&step, &mut records[usize::from(output)], &mut &part, wait);
        let (kind, end, says, status) = ended(found);
        let is = format!("{kind} {}", part.get(output, "microvolts"));
        assert_eq!((is.as_str(), status), (wanted.is, wanted.status), "{name}: {}, {end:?} {says}", wanted.call);
        let is_end = end.as_deref().unwrap_or("reached").starts_with(wanted.end.unwrap_or("reached"));
        assert!(is_end, "{name}: {}: {end:?} and not {:?}", wanted.call, wanted.end);
        if end.is_none() {
            assert_eq!(says, wanted.says.unwrap_or(""), "{name}: {}", wanted.call);
        }
        is_well = status == "0";
        if let Some((cell, word)) = ordered(&host, wanted.call) {
            all.retain(|each: &(Cell, Option<u16>)| each.0 != cell);
            all.push((cell, word));
        }
    }
    if row.calls().len() > 1 && is_well {
        assert_eq!(again(&mut host, &part, &all).as_deref(), row.said("again"), "{name}");
    }
}

#[test]
fn each_call_in_the_field_does_and_says_what_its_row_has() {
    let rows = rows();
    assert!(rows.len() >= 60, "{} rows", rows.len());
    let mut bad = 0;
    for row in &rows {
        bad += i32::from(std::panic::catch_unwind(|| is_as_its_row_says(row)).is_err());
    }
    assert_eq!(bad, 0);
}

// The part restarts before any one frame, each of which takes 10 ms, hears nothing for 100 ms, and comes up off, at 1 V: 0.8 to 0.9 V are allowed.
#[test]
fn a_part_that_comes_up_anew_is_not_turned_on() {
    let steps = [SequenceStep::turns(0, 0, 0x80).with_looks(None)];
    let mut reached = 0;
    for (at, rules) in (0..=20).flat_map(|at| [(at, Rules::UP), (at, Rules::DOWN)]) {
        let part = Field::new();
        for (name, value) in [("OPERATION", 0), ("VOUT_COMMAND", 0x0DC3), ("pin_command", 0x1000), ("boot_ms", 100)] {
            part.set(0, name, value);
        }
        part.set(0, "transfer_us", 10_000);
        part.set(0, "restart_at", at);
        if at == 0 {
            unsafe { field_restart(part.at()) };
        }
        let mut bus = Patient::new(&part, &part);
        let mut host = Host::new(ADDRESS, 1, 3).unwrap();
        host.set_limits(0, Limits { least: 800_000, most: 900_000 }).unwrap();
        let mut list = Sequence::new(COURSE_TRIES, rules).unwrap();
        let mut records = [SequenceRecord::default()];
        let send = |_: usize, frame: &Sending, answer: &mut [u8]| bus.send(frame, answer).ok();
        let end = list.run(&steps, &mut records, &mut [&mut host], send, |_| {}, |_| true).unwrap();
        let is_as_before = part.get(0, "VOUT_COMMAND") == 0x0DC3;
        assert!(is_as_before || part.get(0, "OPERATION") & 0x80 == 0, "{at}: {end:?}");
        assert!(part.1.get() < 2, "{at}: {} writes", part.1.get());
        reached += usize::from(is_as_before);
    }
    assert_eq!(reached, 2);
}
