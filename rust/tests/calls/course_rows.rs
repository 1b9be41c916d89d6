//! The rows of trials/course/rows.txt and accept.txt, whose heads say what they are: each course over a bus that has the row's answers.

use super::{framed, unlimited};
use pmhost::*;

const ROWS: &str = include_str!("../../../trials/course/rows.txt");
const ACCEPT: &str = include_str!("../../../trials/course/accept.txt");

/// A row, as its lines say it.
#[derive(Default)]
struct Row {
    row: String,
    host: String,
    before: String,
    course: String,
    bus: String,
    end: String,
    accept: String,
    then: String,
    ends: String,
}

fn rows_of(text: &'static str) -> Vec<Row> {
    let lines: Vec<&str> = text.lines().filter(|line| !line.starts_with('#')).collect();
    lines.split(|line| line.is_empty()).filter(|lines| !lines.is_empty()).map(row_of).collect()
}

fn row_of(lines: &[&str]) -> Row {
    let (mut row, mut last) = (Row::default(), "");
    for line in lines {
        let (word, text) = line.split_once(' ').unwrap_or((line, ""));
        last = if word.is_empty() { last } else { word };
        let to = match last {
            "row" => &mut row.row,
            "host" => &mut row.host,
            "before" => &mut row.before,
            "course" => &mut row.course,
            "bus" => &mut row.bus,
            "end" => &mut row.end,
            "accept" => &mut row.accept,
            "then" => &mut row.then,
            "ends" => &mut row.ends,
            other => panic!("no line begins with {other}"),
        };
        to.push(' ');
        to.push_str(text.trim());
    }
    row
}

fn code_of(token: &str) -> u8 {
    u8::from_str_radix(&token[1..3], 16).unwrap()
}

/// The bytes of a token's word, the low one first; those of coefficients stand in the order in which they come.
fn word_of(token: &str) -> Vec<u8> {
    let digits = token[4..].trim_end_matches(['!', '*', '#', '-']);
    let bytes: Vec<u8> = (0..digits.len() / 2).map(|at| u8::from_str_radix(&digits[2 * at..2 * at + 2], 16).unwrap()).collect();
    if token.starts_with('c') {
        bytes
    } else {
        bytes.into_iter().rev().collect()
    }
}

/// The frame of a token, the address byte first.
fn frame_of(token: &str, page: u8) -> Vec<u8> {
    let (code, word) = (code_of(token), word_of(token));
    let count = u8::try_from(word.len()).unwrap();
    let mut frame = match (token.as_bytes()[0], code) {
        (b'c', _) => return vec![0xB0, 0x30, 0x02, 0x21, 0x00],
        (b'r', 0x10) => return vec![0xB0, code],
        (b'r', _) => return vec![0xB0, 0x06, 0x02, page, code],
        (_, 0x10) => vec![0xB0, code],
        _ => vec![0xB0, 0x05, 2 + count, page, code],
    };
    frame.extend(word);
    frame.push(pec(&frame));
    frame
}

/// What comes back for a token, after the read address.
fn answer_of(token: &str, request: &[u8]) -> Vec<u8> {
    let word = word_of(token);
    let mut answer = Vec::new();
    if code_of(token) != 0x10 {
        answer.push(u8::try_from(word.len()).unwrap() + u8::from(token.ends_with('#')));
    }
    answer.extend(word);
    answer.push(pec(&[request, &[0xB1], &answer].concat()) ^ u8::from(token.ends_with('*')));
    answer
}

/// A bus that takes these frames and no other.
struct Told<'a> {
    tokens: Vec<&'a str>,
    at: usize,
    page: u8,
    row: &'a str,
}

impl<'a> Told<'a> {
    fn new(text: &'a str, page: u8, row: &'a str) -> Told<'a> {
        Told { tokens: text.split_whitespace().collect(), at: 0, page, row }
    }

    fn take(&mut self, frame: &[u8]) -> &'a str {
        let token = self.tokens.get(self.at).unwrap_or_else(|| panic!("{}: a frame more: {frame:02X?}", self.row));
        self.at += 1;
        assert_eq!(frame, frame_of(token, self.page), "{}: frame {}, {token}", self.row, self.at);
        token
    }
}

impl Bus for Told<'_> {
    type Error = NoAnswer;

    fn transaction(&mut self, address: u8, operations: &mut [Operation<'_>]) -> Result<(), NoAnswer> {
        match operations {
            [Operation::Write(bytes)] => {
                let token = self.take(&framed(address, bytes));
                assert!(token.starts_with('w'), "{}: {token}", self.row);
                if token.ends_with('!') {
                    Err(NoAnswer)
                } else {
                    Ok(())
                }
            }
            [Operation::Write(bytes), Operation::Read(answer)] => {
                let request = framed(address, bytes);
                let token = self.take(&request);
                assert!(!token.starts_with('w'), "{}: {token}", self.row);
                if token.ends_with('-') {
                    return Err(NoAnswer);
                }
                answer.copy_from_slice(&answer_of(token, &request));
                Ok(())
            }
            _ => panic!("{}: no such transaction", self.row),
        }
    }
}

/// What a line has after a name.
fn said<'a>(line: &'a str, name: &str) -> Option<&'a str> {
    line.split_whitespace().find_map(|word| word.strip_prefix(name))
}

fn register_of(code: &str) -> Register {
    let code = u8::from_str_radix(code, 16).unwrap();
    Register::ALL.into_iter().find(|register| register.code() == code).unwrap()
}

fn host_of(line: &str) -> Host {
    let number = |name| said(line, name).map_or(1, |text| text.parse().unwrap());
    let missing: Vec<Register> = said(line, "lacks=").map_or(Vec::new(), |codes| codes.split(',').map(register_of).collect());
    let mut host = unlimited(Host::without(0x58, number("outputs="), number("passes="), &missing).unwrap());
    if let Some((least, most)) = said(line, "limits=").and_then(|limits| limits.split_once(':')) {
        host.set_limits(0, Limits { least: least.parse().unwrap(), most: most.parse().unwrap() }).unwrap();
    }
    host
}

/// Carries out the jobs before the course.
fn prepare(host: &mut Host, bus: &mut Told<'_>) {
    while let Some(token) = bus.tokens.get(bus.at) {
        let word = word_of(token).iter().rev().fold(0, |word, byte| word << 8 | u16::from(*byte));
        let cell = match code_of(token) {
            0x10 => Cell::WriteProtect,
            0x20 => Cell::Output(0, Register::VoutCommand), // of a learn
            _ => Cell::Output(0, register_of(&token[1..3])),
        };
        let job = match (token.as_bytes()[0], code_of(token)) {
            (b'w', _) => Job::Order(cell, word),
            (_, 0x20) => Job::Learn(0),
            _ => Job::Check(cell),
        };
        let _ = host.run_job(job, bus);
    }
}

fn course_of(line: &str) -> Course {
    let tries = said(line, "tries=").map_or(40, |text| text.parse().unwrap());
    let words: Vec<&str> = line.split_whitespace().filter(|word| !word.starts_with("tries=")).collect();
    let output = words[1].parse().unwrap();
    match words[0] {
        "survey" => return Course::survey(output, tries).unwrap(),
        "power" => return Course::power(output, u8::from_str_radix(words[2], 16).unwrap(), tries).unwrap(),
        _ => {}
    }
    let (mut wanted, mut voltages) = (Wanted::default(), Vec::new());
    for word in &words[2..] {
        if let Some((code, microvolts)) = word.split_once(':') {
            voltages.push((register_of(code), microvolts.parse().unwrap()));
        } else if let Some((code, word)) = word.split_once('=') {
            let word = Some(u16::from_str_radix(word, 16).unwrap());
            match register_of(code) {
                Register::VoutCommand => wanted.command = word,
                Register::VoutMax => wanted.max = word,
                Register::VoutMarginHigh => wanted.margin_high = word,
                Register::VoutMarginLow => wanted.margin_low = word,
                _ => wanted.min = word,
            }
        }
    }
    if let (1, Some((register, microvolts))) = (words.len() - 2, voltages.first()) {
        return Course::voltage(output, *register, *microvolts, tries).unwrap();
    }
    let mut course = Course::words(output, &wanted, tries).unwrap();
    for (register, microvolts) in voltages {
        course.want(register, microvolts).unwrap();
    }
    course
}

fn code_of_cell(cell: Option<Cell>, otherwise: u8) -> u8 {
    match cell {
        None => otherwise,
        Some(Cell::WriteProtect) => 0x10,
        Some(Cell::Output(_, register)) => register.code(),
    }
}

fn end_of<E>(end: Result<(), NotReached<E>>) -> String {
    match end {
        Ok(()) => "reached".into(),
        Err(NotReached::Refused { refusal, cell }) => format!("refused {refusal} {:02X}", code_of_cell(cell, 0)),
        Err(NotReached::Differs { register, word }) => format!("differs {:02X} {word:04X}", register.code()),
        Err(NotReached::NoFormat { mode }) => format!("format {mode:02X}"),
        Err(NotReached::OtherSource { byte }) => format!("source {byte:02X}"),
        Err(NotReached::Spent { cell, fault, .. }) => {
            let fault = fault.map_or("good".into(), |fault| fault.to_string());
            format!("spent {:02X} {fault}", code_of_cell(cell, 0x20))
        }
    }
}

/// Carries each row's course out in this way: the bus has to have sent the row's frames, and the end is the row's.
fn each_row(carried_out: impl Fn(&mut Host, &mut Course, &mut Told<'_>) -> String) {
    let rows = rows_of(ROWS);
    assert!(rows.len() >= 60, "{} rows", rows.len());
    for row in &rows {
        let mut host = host_of(&row.host);
        prepare(&mut host, &mut Told::new(&row.before, 0, &row.row));
        let mut course = course_of(&row.course);
        let mut bus = Told::new(&row.bus, course.output(), &row.row);
        assert_eq!(carried_out(&mut host, &mut course, &mut bus), row.end.trim(), "{}", row.row);
        assert_eq!(bus.at, bus.tokens.len(), "{}: a frame less", row.row);
    }
}

#[test]
fn each_course_sends_the_frames_of_its_row_and_ends_so() {
    each_row(|host, course, bus| end_of(host.run_course(course, bus)));
}

#[test]
fn each_course_goes_the_same_way_in_a_loop_of_ones_own() {
    each_row(|host, course, bus| loop {
        let step = match course.frame(host) {
            Err(refusal) => {
                assert_eq!((course.end(), course.next(host)), (None, None), "a refused course goes on");
                return format!("refused {refusal} 00");
            }
            Ok(Sending::Nothing) => return end_of(course.end().unwrap()),
            Ok(Sending::Write(frame)) => {
                let acked = bus.transaction(0x58, &mut [Operation::Write(&frame[1..])]).is_ok();
                course.write_ended(host, acked)
            }
            Ok(Sending::Request { frame, answer }) => {
                let mut bytes = [0xB1, 0, 0, 0, 0, 0, 0, 0];
                let came = bus.transaction(0x58, &mut [Operation::Write(&frame[1..]), Operation::Read(&mut bytes[1..answer])]);
                course.read_ended(host, if came.is_ok() { &bytes[..answer] } else { &[] })
            }
        };
        assert!(step.is_ok(), "{step:?}");
    });
}

/// Carries a course out over these frames, and says how it ended.
fn carried_out(host: &mut Host, course: &mut Course, frames: &str, row: &str) -> String {
    let mut bus = Told::new(frames, course.output(), row);
    let end = end_of(host.run_course(course, &mut bus));
    assert_eq!(bus.at, bus.tokens.len(), "{row}: a frame less");
    end
}

#[test]
fn a_held_word_is_taken_or_refused_as_its_row_says() {
    let rows = rows_of(ACCEPT);
    assert!(rows.len() >= 30, "{} rows", rows.len());
    for row in &rows {
        let mut host = host_of(&row.host);
        prepare(&mut host, &mut Told::new(&row.before, 0, &row.row));
        let mut course = course_of(&row.course);
        if !row.end.is_empty() {
            assert_eq!(carried_out(&mut host, &mut course, &row.bus, &row.row), row.end.trim(), "{}", row.row);
        }
        let (near, wanted) = row.accept.trim().split_once(' ').unwrap();
        let found = course.accept(&host, near.parse().unwrap());
        assert_eq!(found.map_or_else(|it| format!("refused {it}"), |()| "taken".into()), wanted, "{}", row.row);
        if !row.ends.is_empty() {
            assert_eq!(carried_out(&mut host, &mut course, &row.then, &row.row), row.ends.trim(), "{}", row.row);
        }
    }
}
