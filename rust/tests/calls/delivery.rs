//! What an output does, over the model part with a layer that trips: rows with their words, written by hand.

use pmhost::*;

/// The model part behind a layer that has fault limits, STATUS_WORD and READ_VOUT of its own. `wrong` has what is wrong with it:
/// `t` it trips at 1.3 V and above, `r` its RUN pin is low, `n` it stays on, `l` READ_VOUT is 90 %, `s` STATUS_WORD gives no answer,
/// `v` READ_VOUT gives none, `f` the fault limits give none, `g` power good is missing, `u` a fault of VOUT_UV comes with an order,
/// `o` VOUT_OV_FAULT stands from the beginning, `c` CML comes with an order, `q` STATUS_WORD gives no answer after one, `p` READ_VOUT comes
/// with another PEC, `i` a fault of IOUT comes with an order and STATUS_IOUT gives no answer, `d` READ_VOUT comes with another PEC in the
/// first round and gives no answer then, `x` READ_VOUT is nothing but FFh, `k` no write is acknowledged, `z` nothing is answered, `h` READ_VOUT is
/// three times as high.
struct Rail {
    part: Part,
    wrong: &'static str,
    has_ordered: bool,
    writes: u32,
    rounds: u32,
}

impl Rail {
    fn of(wrong: &'static str, operation: u8) -> Rail {
        let part = Part::new(0x58, &[Output { operation, max: 0x2000, ..Output::default() }], (1, 0, 3)).unwrap();
        Rail { part, wrong, has_ordered: false, writes: 0, rounds: 0 }
    }

    fn is(&self, what: char) -> bool {
        self.wrong.contains(what)
    }

    fn commanded(&self) -> u16 {
        self.part.word(Cell::Output(0, Register::VoutCommand)).unwrap()
    }

    fn is_on(&self) -> bool {
        self.part.word(Cell::Output(0, Register::Operation)).unwrap() >= 0x80
    }

    fn status(&self) -> u16 {
        let trips = self.is('t') && self.is_on() && self.commanded() >= 0x14CD;
        let is_off = trips || self.is('r') || !(self.is_on() || self.is('n'));
        (u16::from(is_off) * 0x0840)
            | (u16::from(trips || self.is('o')) * 0x8020)
            | (u16::from(self.is('g')) * 0x0800)
            | (u16::from(self.is('u') && self.has_ordered) * 0x8000)
            | (u16::from(self.is('c') && self.has_ordered) * 0x0002)
            | (u16::from(self.is('i') && self.has_ordered) * 0x4000)
    }

    /// The bytes of a register of the layer; `None` of another one, or where it gives no answer.
    fn held(&self, code: u8) -> Option<Option<(u16, usize)>> {
        let volts = if self.status() & 0x40 != 0 { 0 } else { self.commanded() };
        let read = if self.is('l') { volts * 9 / 10 } else { volts * if self.is('h') { 3 } else { 1 } };
        Some(match code {
            0x40 => (!self.is('f')).then_some((0x14CD, 2)),
            0x42 => (!self.is('f')).then_some((0x1333, 2)),
            0x43 => (!self.is('f')).then_some((0x0B33, 2)),
            0x44 => (!self.is('f')).then_some((0x0A66, 2)),
            0x5E => Some((0x1333, 2)),
            0x5F => Some((0x1266, 2)),
            0x79 => (!(self.is('s') || self.is('q') && self.has_ordered)).then_some((self.status(), 2)),
            0x7B => None,
            0x7A => Some((if self.is('u') { 0x10 } else { 0x80 }, 1)),
            0x8B => (!(self.is('v') || self.is('d') && self.rounds > 1)).then_some((read, 2)),
            _ => return None,
        })
    }
}

impl Bus for Rail {
    type Error = NoAnswer;

    fn transaction(&mut self, address: u8, operations: &mut [Operation<'_>]) -> Result<(), NoAnswer> {
        if self.is('z') {
            return Err(NoAnswer);
        }
        if let [Operation::Write(request), Operation::Read(answer)] = operations {
            if let [0x06, 0x02, page, code] = **request {
                self.rounds += u32::from(code == 0x79 && self.has_ordered);
                if code == 0x8B && self.is('x') {
                    answer.fill(0xFF);
                    return Ok(());
                }
                if let Some(held) = self.held(code) {
                    let (word, size) = held.ok_or(NoAnswer)?;
                    let mut whole = vec![address << 1, 0x06, 0x02, page, code, address << 1 | 1, size as u8];
                    whole.extend_from_slice(&word.to_le_bytes()[..size]);
                    whole.push(pec(&whole) ^ u8::from(code == 0x8B && (self.is('p') || self.is('d'))));
                    answer.copy_from_slice(&whole[6..]);
                    return Ok(());
                }
            }
        } else {
            if self.is('k') {
                return Err(NoAnswer);
            }
            self.has_ordered = true;
            self.writes += 1;
        }
        self.part.transaction(address, operations)
    }
}

/// What a course ends as and the rail does, in words, and how many writes there were.
fn delivered(wrong: &'static str, what: &str, fault_limits: FaultLimits) -> (String, u32) {
    let mut rail = Rail::of(wrong, if what == "on" { 0x00 } else { 0x80 });
    let mut host = Host::new(0x58, 1, 2).unwrap();
    host.set_limits(0, Limits { least: 500_000, most: 2_000_000 }).unwrap();
    let act = match what {
        "on" => Act::Turns(0x80),
        "off" => Act::Turns(0x00),
        "survey" => Act::Surveys,
        microvolts => Act::Sets(Wishes::microvolts(microvolts.parse().unwrap())),
    };
    let step = SequenceStep::new(0, 0, act).with_looks(Some(Looks { fault_limits, rounds: 3, ..Looks::default() }));
    let said = match host.deliver(&step, &mut SequenceRecord::default(), &mut rail, |_| ()) {
        Ok(verdict) => format!("well: {verdict}"),
        Err(why) => why.to_string(),
    };
    (said, rail.writes)
}

#[test]
fn an_end_says_what_the_rail_does() {
    use FaultLimits::{Refuse, Skip, Tell};
    let tripped = "STATUS_WORD 8860 VOUT, POWER_GOOD#, OFF, VOUT_OV_FAULT and STATUS_VOUT 80 VOUT_OV_FAULT: the rail is off";
    let off = "STATUS_WORD 0840 POWER_GOOD#, OFF: the rail is off";
    let silent = "; VOUT_OV_FAULT_LIMIT, VOUT_OV_WARN_LIMIT, VOUT_UV_WARN_LIMIT, VOUT_UV_FAULT_LIMIT gave no good answer, and aren't judged";
    let at = "VOUT_COMMAND 1.300048V is at or beyond VOUT_OV_FAULT_LIMIT";
    let warned = "; VOUT_COMMAND 1.300048V is at or beyond VOUT_OV_WARN_LIMIT 1.199951V";
    let refused = |words: &str| format!("refused: P8 BeyondFaultLimit: {words}: move the limit first");
    for (wrong, what, limits, said, writes) in [
        ("", "1100000", Refuse, "well: delivers 1.100097V", 1),
        ("t", "1300000", Refuse, &refused(&format!("{at}, which is 1.300048V")), 0),
        ("t", "1300000", Tell, &format!("{tripped}; {at} 1.300048V{warned}"), 1),
        ("t", "1300000", Skip, tripped, 1),
        ("tf", "1300000", Refuse, &format!("{tripped}{silent}"), 1),
        (
            "t",
            "1299000",
            Refuse,
            "well: delivers 1.299072V; VOUT_COMMAND 1.299072V is at or beyond VOUT_OV_WARN_LIMIT 1.199951V",
            1,
        ),
        ("", "650000", Refuse, &refused("VOUT_COMMAND 0.649902V is at or beyond VOUT_UV_FAULT_LIMIT, which is 0.649902V"), 0),
        ("r", "1100000", Refuse, off, 1),
        ("r", "survey", Refuse, off, 0),
        ("r", "on", Refuse, off, 1),
        ("u", "1100000", Refuse, "STATUS_WORD 8000 VOUT and STATUS_VOUT 10 VOUT_UV_FAULT: VOUT_UV_FAULT came with this call", 1),
        ("o", "1100000", Refuse, "well: delivers 1.100097V; STATUS_WORD 8020 VOUT, VOUT_OV_FAULT (set before this call)", 1),
        (
            "oc",
            "1100000",
            Refuse,
            "well: delivers 1.100097V; STATUS_WORD 8022 VOUT, VOUT_OV_FAULT, CML (VOUT, VOUT_OV_FAULT set before this call)",
            1,
        ),
        ("o", "survey", Refuse, "well: delivers 1V; STATUS_WORD 8020 VOUT, VOUT_OV_FAULT", 0),
        ("g", "1100000", Refuse, "READ_VOUT 1.100097V; STATUS_WORD 0800 POWER_GOOD#: power good begins at 1.199951V", 1),
        (
            "g",
            "1199951",
            Refuse,
            "READ_VOUT 1.199951V; STATUS_WORD 0800 POWER_GOOD#: power good is missing, and begins at 1.199951V; \
             VOUT_COMMAND 1.199951V is at or beyond VOUT_OV_WARN_LIMIT 1.199951V",
            1,
        ),
        ("l", "1100000", Refuse, "READ_VOUT 0.98999V is more than 5% away from what is commanded", 1),
        ("s", "1100000", Refuse, "well: delivers 1.100097V by READ_VOUT", 1),
        ("q", "1100000", Refuse, "delivery not known: STATUS_WORD gave no good answer: no answer", 1),
        ("v", "1100000", Refuse, "well: delivers by STATUS_WORD", 1),
        ("vg", "1100000", Refuse, "STATUS_WORD 0800 POWER_GOOD#: power good is missing", 1),
        ("p", "1100000", Refuse, "delivery not known: READ_VOUT gave no good answer: F5 WrongPec", 1),
        ("d", "1100000", Refuse, "delivery not known: READ_VOUT gave no good answer: no answer", 1),
        ("x", "1100000", Refuse, "well: delivers by STATUS_WORD", 1),
        ("i", "1100000", Refuse, "delivery not known: STATUS_IOUT gave no good answer: no answer", 1),
        ("", "off", Refuse, "well: the part says that it is off", 1),
        ("n", "off", Refuse, "commanded off, and the part says that it is on: STATUS_WORD 0000", 1),
        ("", "on", Refuse, "well: delivers 1V", 1),
    ] {
        assert_eq!(delivered(wrong, what, limits), (said.to_string(), writes), "{wrong:?} {what}");
    }
}

/// A host whose output has limits.
fn host() -> Host {
    let mut host = Host::new(0x58, 1, 2).unwrap();
    host.set_limits(0, Limits { least: 500_000, most: 2_000_000 }).unwrap();
    host
}

/// A set of an output over a bus in so many rounds, and what it says.
fn set(
    host: &mut Host,
    record: &mut SequenceRecord,
    rail: &mut Rail,
    microvolts: i32,
    looks: Looks,
) -> Result<Delivered, NotDelivered<NoAnswer>> {
    let step = SequenceStep::sets(0, 0, Wishes::microvolts(microvolts)).with_looks(Some(looks));
    host.deliver(&step, record, rail, |_| ())
}

/// All is asked so often.
fn rounds(rounds: u16) -> Looks {
    Looks { rounds, ..Looks::default() }
}

#[test]
fn a_voltage_above_its_limit_fails_at_once_unless_it_was_lowered() {
    let raised = Act::Sets(Wishes::microvolts(1_100_000));
    let lowered = Act::Sets(Wishes::microvolts(900_000));
    for (wrong, act, said, milliseconds) in [
        ("h", Act::Turns(0x80), "READ_VOUT 3V is OUTSIDE 0.5V to 2V", 0),
        ("h", raised, "READ_VOUT 3.300292V is OUTSIDE 0.5V to 2V", 0),
        ("h", lowered, "READ_VOUT 2.699707V is OUTSIDE 0.5V to 2V", 630),
        ("r", Act::Turns(0x80), "STATUS_WORD 0840 POWER_GOOD#, OFF: the rail is off", 630),
        ("u", Act::Turns(0x80), "STATUS_WORD 8000 VOUT and STATUS_VOUT 10 VOUT_UV_FAULT: VOUT_UV_FAULT came with this call", 630),
        ("", Act::Turns(0x80), "delivers 1V", 0),
    ] {
        let mut rail = Rail::of(wrong, if act == Act::Turns(0x80) { 0x00 } else { 0x80 });
        let (step, mut waited) = (SequenceStep::new(0, 0, act).with_looks(Some(Looks::default())), 0);
        let found = match host().deliver(&step, &mut SequenceRecord::default(), &mut rail, |each| waited += each) {
            Ok(verdict) => verdict.to_string(),
            Err(why) => why.to_string(),
        };
        assert_eq!((found.as_str(), waited), (said, milliseconds), "{wrong}");
    }
}

#[test]
fn a_fault_that_came_with_a_chain_stays_new_in_it() {
    let (mut host, mut record, mut rail) = (host(), SequenceRecord::default(), Rail::of("u", 0x80));
    let new = "STATUS_WORD 8000 VOUT and STATUS_VOUT 10 VOUT_UV_FAULT: VOUT_UV_FAULT came with this call";
    for microvolts in [1_100_000, 1_050_000] {
        let found = set(&mut host, &mut record, &mut rail, microvolts, rounds(3));
        assert_eq!(found.unwrap_err().to_string(), new);
    }
    let found = set(&mut host, &mut SequenceRecord::default(), &mut rail, 1_100_000, rounds(3)).unwrap();
    assert!(found.to_string().starts_with("delivers 1.100097V; STATUS_WORD 8000 VOUT (set before this call)"), "{found}");
    // A record of another output says nothing of this one.
    let [own, other] = [0, 1].map(|output| SequenceStep::turns(0, output, 0x80));
    assert_eq!((own.after(&record) == own, other.after(&record) == other), (false, true));
}

#[test]
fn what_an_earlier_call_wanted_is_told_of_no_later_one() {
    use std::error::Error;
    let (mut host, mut record, mut rail) = (host(), SequenceRecord::default(), Rail::of("k", 0x80));
    // 1.25 V is above VOUT_OV_WARN_LIMIT, and no write arrives.
    let high = SequenceStep::sets(0, 0, Wishes { margin_high: Wish::Microvolts(1_250_000), ..Wishes::default() });
    let lost = host.deliver(&high, &mut record, &mut rail, |_| ()).unwrap_err();
    assert!(matches!(lost, NotDelivered::NotReached(NotReached::Differs { register: Register::VoutMarginHigh, .. })), "{lost}");
    assert!(lost.source().is_none());
    rail.wrong = "";
    let found = set(&mut host, &mut record, &mut rail, 1_100_000, rounds(3)).unwrap();
    assert_eq!(found.to_string(), "delivers 1.100097V");
    rail.wrong = "z";
    let spent = set(&mut host, &mut record, &mut rail, 1_050_000, rounds(3)).unwrap_err();
    assert!(matches!(spent, NotDelivered::NotReached(NotReached::Spent { .. })), "{spent}");
    assert_eq!(spent.source().unwrap().to_string(), NoAnswer.to_string());
}

#[test]
fn a_read_of_any_code_is_judged() {
    let came = [0xB1, 0x02, 0xCD, 0x3C, 0x4F];
    assert_eq!(&*Block::read_paged(0x58, 0, 0x40, 2, &came).unwrap(), [0xCD, 0x3C]);
    assert_eq!(&*Block::read_paged(0x58, 0, 0x40, 0, &came).unwrap(), [0xCD, 0x3C]);
    for (page, code, size, bytes, why) in [
        (1, 0x40, 2, &came[..], Refusal::F5WrongPec),
        (0, 0x44, 2, &came[..], Refusal::F5WrongPec),
        (0, 0x40, 1, &came[..], Refusal::F4WrongCount),
        (0, 0x40, 2, &came[..4], Refusal::F2Short),
        (0, 0x40, 2, &came[..1], Refusal::F2Short),
        (0, 0x40, 2, &[][..], Refusal::F1NotOurs),
        (0, 0x40, 2, &[0xB1, 0xFF, 0xFF, 0xFF, 0xFF][..], Refusal::F4WrongCount),
        (0, 0x00, 1, &came[..], Refusal::NoPacket),
        (0, 0x05, 1, &came[..], Refusal::NoPacket),
        (0, 0x06, 1, &came[..], Refusal::NoPacket),
        (0, 0x30, 1, &came[..], Refusal::NoPacket),
        (0, 0x40, 33, &came[..], Refusal::NoPacket),
    ] {
        assert_eq!(Block::read_paged(0x58, page, code, size, bytes).err(), Some(why), "{page} {code:02X} {size}");
    }
    assert_eq!(Block::paged_request(0x58, 0, 0x30, 2), Err(Refusal::NoPacket));
    assert_eq!(Block::paged_request(0x07, 0, 0x40, 2), Err(Refusal::NoAddress));
}
