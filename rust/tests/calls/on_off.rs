//! The rows of trials/c/rows/on_off.txt, whose head says what they are; and how a register is asked for.

use pmhost::*;

const ROWS: &str = include_str!("../../../trials/c/rows/on_off.txt");

#[test]
fn a_byte_says_what_turns_an_output_off() {
    let rows: Vec<_> = ROWS.lines().filter(|line| !line.starts_with('#')).map(|line| line.split_once(' ').unwrap()).collect();
    assert_eq!(rows.len(), 39);
    for (byte, what) in rows {
        let is = OnOffConfig::of(u8::from_str_radix(byte, 16).unwrap());
        let (wanted, words) = match what {
            "OPERATION" => (OnOffConfig::Operation, "OPERATION turns it off"),
            "pin" => (OnOffConfig::Pin, "only its pin turns it off"),
            _ => (OnOffConfig::Supply, "nothing but its supply turns it off"),
        };
        assert_eq!((is, is.to_string(), is.heeds_operation()), (wanted, words.to_string(), what == "OPERATION"), "{byte}");
    }
}

/// A bus that gives one answer, and how often it was asked.
struct Answers(Result<[u8; 3], NoAnswer>, u8);

impl Bus for Answers {
    type Error = NoAnswer;

    fn transaction(&mut self, address: u8, operations: &mut [Operation<'_>]) -> Result<(), NoAnswer> {
        let [Operation::Write(request), Operation::Read(answer)] = operations else { panic!("{operations:?}") };
        assert_eq!((address, *request), (0x58, &[0x06, 0x02, 0x01, 0x02][..]));
        assert_eq!(**answer, [0; 3]); // as a bus is promised
        self.1 += 1;
        answer.copy_from_slice(&self.0?);
        Ok(())
    }
}

#[test]
fn on_off_config_is_asked_once() {
    for (answer, wanted) in [
        (Ok([0x01, 0x16, 0xC0]), Some(OnOffConfig::Pin)),
        (Ok([0x01, 0x16, 0xC1]), None), // another packet error code
        (Ok([0x02, 0x16, 0xC0]), None),
        (Ok([0xFF; 3]), None), // nobody drives the bus
        (Err(NoAnswer), None),
    ] {
        let mut bus = Answers(answer, 0);
        assert_eq!((OnOffConfig::ask(0x58, 1, &mut bus), bus.1), (wanted, 1), "{answer:?}");
    }
    assert_eq!(OnOffConfig::ask(0x07, 1, &mut Answers(Err(NoAnswer), 0)), None);
}
