//! Lists of steps over the outputs of two parts: up, back and down, how they end, and what is said on the way.

use super::{framed, unlimited};
use pmhost::*;

/// A part whose rails follow what it commands, behind a layer with STATUS_WORD, READ_VOUT and VOUT_OV_FAULT_LIMIT of its own.
struct Board {
    part: Part,
    has_status_word: bool,
    has_read_vout: bool,
    /// VOUT_OV_FAULT_LIMIT.
    limit: u16,
    /// OFF is 1 whatever OPERATION says.
    is_off: bool,
    /// After how many frames it answers nothing more.
    gone_after: usize,
    /// Writes of output 0 do nothing.
    is_deaf: bool,
    frames: usize,
    writes: usize,
}

impl Board {
    fn new(address: u8) -> Board {
        let output =
            Output { command: 0x1000, max: 0x4000, margin_high: 0x1100, margin_low: 0x0F00, min: 0, ..Output::default() };
        let part = Part::new(address, &[output; 2], (1, 0, 3)).unwrap();
        Board {
            part,
            has_status_word: true,
            has_read_vout: true,
            limit: 0x2000,
            is_off: false,
            gone_after: usize::MAX,
            is_deaf: false,
            frames: 0,
            writes: 0,
        }
    }

    fn word(&self, output: u8, register: Register) -> u16 {
        self.part.word(Cell::Output(output, register)).unwrap()
    }

    /// What a register of the layer holds; `None` of another one, or where it gives no answer.
    fn held(&self, output: u8, code: u8) -> Option<Option<u16>> {
        let is_off = self.is_off || self.word(output, Register::Operation) < 0x80;
        match code {
            0x40 => Some(Some(self.limit)),
            0x42..=0x44 | 0x5E | 0x5F => Some(None),
            0x79 => Some(self.has_status_word.then_some(u16::from(is_off) * 0x0840)),
            0x8B => Some(self.has_read_vout.then_some(self.word(output, Register::VoutCommand))),
            _ => None,
        }
    }
}

impl Bus for Board {
    type Error = NoAnswer;

    fn transaction(&mut self, address: u8, operations: &mut [Operation<'_>]) -> Result<(), NoAnswer> {
        self.frames += 1;
        if self.frames > self.gone_after {
            return Err(NoAnswer);
        }
        match operations {
            [Operation::Write(request), Operation::Read(answer)] => {
                if let [0x06, 0x02, page, code] = **request {
                    if let Some(held) = self.held(page, code) {
                        let mut whole = vec![address << 1, 0x06, 0x02, page, code, address << 1 | 1, 2];
                        whole.extend_from_slice(&held.ok_or(NoAnswer)?.to_le_bytes());
                        whole.push(pec(&whole));
                        answer.copy_from_slice(&whole[6..]);
                        return Ok(());
                    }
                }
            }
            [Operation::Write(bytes)] => {
                self.writes += 1;
                if self.is_deaf && bytes[2] == 0 {
                    return Ok(());
                }
            }
            _ => panic!("no such transaction"),
        }
        self.part.transaction(address, operations)
    }
}

/// Two hosts, each with a part of its own, and what a list said and waited.
struct Boards {
    hosts: [Host; 2],
    parts: [Board; 2],
    said: Vec<SequenceNext>,
    waits: Vec<u32>,
}

impl Boards {
    fn new() -> Boards {
        let hosts = [0x58, 0x59].map(|address| unlimited(Host::new(address, 2, 2).unwrap()));
        Boards { hosts, parts: [0x58, 0x59].map(Board::new), said: Vec::new(), waits: Vec::new() }
    }

    /// Carries a list out, up to what `stops` names.
    fn run_to(
        &mut self,
        list: &mut Sequence,
        steps: &[SequenceStep],
        records: &mut [SequenceRecord],
        stops: fn(&SequenceNext) -> bool,
    ) -> SequenceNext {
        let Boards { hosts: [first, second], parts, said, waits } = self;
        let send = |at: usize, frame: &Sending, answer: &mut [u8]| parts[at].send(frame, answer).ok();
        let told = |next: &SequenceNext| {
            said.push(*next);
            !stops(next)
        };
        list.run(steps, records, &mut [first, second], send, |milliseconds| waits.push(milliseconds), told).unwrap()
    }

    fn end(&mut self, list: &mut Sequence, steps: &[SequenceStep], records: &mut [SequenceRecord]) -> SequenceEnd {
        match self.run_to(list, steps, records, |_| false) {
            SequenceNext::Ended(end) => end,
            other => panic!("{other:?}"),
        }
    }

    /// OPERATION and VOUT_COMMAND of each output.
    fn words(&self) -> [[u16; 2]; 4] {
        [(0, 0), (0, 1), (1, 0), (1, 1)]
            .map(|(at, output)| [Register::Operation, Register::VoutCommand].map(|it| self.parts[at].word(output, it)))
    }

    /// The verdicts that were told.
    fn told(&self) -> Vec<Verdict> {
        let does = |said: &SequenceNext| match said {
            SequenceNext::Told(SequenceEnd { what: SequenceStop::Does(delivered), .. }) => Some(delivered.verdict),
            _ => None,
        };
        self.said.iter().filter_map(does).collect()
    }
}

fn sets(host: usize, output: u8, microvolts: i32) -> SequenceStep {
    must(SequenceStep::sets(host, output, Wishes::microvolts(microvolts)))
}

fn must(step: SequenceStep) -> SequenceStep {
    step.with_looks(Some(Looks { has_to_deliver: true, rounds: 4, ..Looks::default() }))
}

fn up() -> Sequence {
    Sequence::new(COURSE_TRIES, Rules::UP).unwrap()
}

/// A set of output 0 beside a part: its end, what was told, and how many frames and writes there were.
fn set(change: fn(&mut Board), microvolts: i32) -> (String, usize, usize, usize) {
    let mut boards = Boards::new();
    change(&mut boards.parts[0]);
    let mut records = [SequenceRecord::default()];
    let end = boards.end(&mut up(), &[sets(0, 0, microvolts)], &mut records);
    (end.to_string(), boards.told().len(), boards.parts[0].frames, boards.parts[0].writes)
}

#[test]
fn a_set_ends_as_its_rail_does() {
    let is = |text: &str, told, frames, writes| (text.to_string(), told, frames, writes);
    let over = "each of 1 steps is over";
    assert_eq!(set(|_| (), 1_200_000), is(over, 1, 24, 1));
    assert_eq!(set(|_| (), 1_000_000), is(over, 1, 8, 0));
    assert_eq!(set(|part| part.has_status_word = false, 1_200_000), is(over, 1, 28, 1));
    let beyond = "step 0: refused: P8 BeyondFaultLimit: VOUT_COMMAND 1.199951V is at or beyond VOUT_OV_FAULT_LIMIT, which is \
                  1.125V: move the limit first";
    assert_eq!(set(|part| part.limit = 0x1200, 1_200_000), is(beyond, 0, 14, 0));
    let off = "step 0: STATUS_WORD 0840 POWER_GOOD#, OFF: the rail is off; VOUT_OV_WARN_LIMIT, VOUT_UV_WARN_LIMIT, \
               VOUT_UV_FAULT_LIMIT gave no good answer, and aren't judged";
    let (said, told, _, writes) = set(|part| part.is_off = true, 1_200_000);
    assert_eq!((said.as_str(), told, writes), (off, 0, 1));
}

#[test]
fn a_bus_that_goes_is_no_success() {
    let good = set(|_| (), 1_200_000).2;
    for frames in 0..=good {
        let mut boards = Boards::new();
        boards.parts[0].gone_after = frames;
        let end = boards.end(&mut up(), &[sets(0, 0, 1_200_000)], &mut [SequenceRecord::default()]);
        assert_eq!(end.what == SequenceStop::Reached, frames == good, "{frames}: {end}");
    }
}

#[test]
fn a_list_over_two_parts_goes_up_and_comes_back() {
    let mut boards = Boards::new();
    let before = boards.words();
    let steps = [sets(0, 0, 1_200_000), sets(1, 0, 1_100_000).with_wait(15), must(SequenceStep::turns(0, 1, 0)).with_wait(5)];
    let mut records = [SequenceRecord::default(); 3];
    let mut list = up();
    let reached = SequenceEnd { step: 3, what: SequenceStop::Reached };
    assert_eq!(boards.end(&mut list, &steps, &mut records), reached);
    assert_eq!((list.begun(), list.left(), &boards.waits[..]), (3, 0, &[15, 5][..]));
    assert_eq!(boards.words(), [[0x80, 0x1333], [0, 0x1000], [0x80, 0x119A], [0x80, 0x1000]]);
    let kinds = boards.told();
    assert!(matches!(kinds[..], [Verdict::Delivers { .. }, Verdict::Delivers { .. }, Verdict::WentOff]), "{kinds:?}");
    let old = Wishes { command: Wish::Word(0x1000), ..Wishes::default() };
    assert_eq!(records[0].back().map(|back| back.act()), Some(Act::Sets(old)));
    assert_eq!(records[2].back().map(|back| (back.act(), back.looks())), Some((Act::Turns(0x80), None)));
    let back = [2, 1, 0].map(|at: usize| records[at].back().expect("it has begun"));
    assert_eq!(boards.end(&mut Sequence::new(COURSE_TRIES, Rules::default()).unwrap(), &back, &mut []), reached);
    assert_eq!(boards.words(), before);
}

#[test]
fn each_host_has_a_bus_of_its_own_type() {
    let (mut board, mut part) = (Board::new(0x58), Part::new(0x59, &[Output::default()], (1, 0, 3)).unwrap());
    let (mut first, mut second) = (unlimited(Host::new(0x58, 2, 2).unwrap()), unlimited(Host::new(0x59, 1, 2).unwrap()));
    let send = |at: usize, frame: &Sending, answer: &mut [u8]| match at {
        0 => board.send(frame, answer).ok(),
        _ => part.send(frame, answer).ok(),
    };
    let (steps, mut records) = ([sets(0, 0, 1_200_000), SequenceStep::turns(1, 0, 0)], [SequenceRecord::default(); 2]);
    let ended = up().run(&steps, &mut records, &mut [&mut first, &mut second], send, |_| (), |_| true);
    assert_eq!(ended, Ok(SequenceNext::Ended(SequenceEnd { step: 2, what: SequenceStop::Reached })));
    assert_eq!((board.word(0, Register::VoutCommand), part.is_on(0)), (0x1333, Ok(false)));
}

#[test]
fn a_rail_that_stays_off_ends_a_way_up() {
    let mut boards = Boards::new();
    boards.parts[1].is_off = true;
    let steps = [sets(0, 0, 1_200_000), sets(1, 0, 1_100_000), sets(0, 1, 1_050_000)];
    let end = boards.end(&mut up(), &steps, &mut [SequenceRecord::default(); 3]);
    let SequenceStop::Does(found) = end.what else { panic!("{end:?}") };
    assert!(!found.is_good());
    assert_eq!((end.step, found.verdict), (1, Verdict::IsOff { status: 0x0840 }));
    assert_eq!((boards.waits.as_slice(), boards.words()[1]), (&[10, 20, 40][..], [0x80, 0x1000]));
}

#[test]
fn a_way_down_leaves_what_stays_on_and_says_so() {
    let list = [SequenceStep::turns(0, 0, 0), SequenceStep::turns(1, 0, 0), SequenceStep::turns(0, 1, 0)].map(must);
    for (change, which) in [
        (&(|boards: &mut Boards| boards.parts[0].is_deaf = true) as &dyn Fn(&mut Boards), 0),
        (&|boards| boards.parts[1].gone_after = 0, 1),
    ] {
        let mut boards = Boards::new();
        change(&mut boards);
        let mut down = Sequence::new(60, Rules::DOWN).unwrap();
        let end = boards.end(&mut down, &list, &mut []);
        assert_eq!((end.step, end.what, down.left()), (3, SequenceStop::Left(1), 1));
        assert_eq!(end.to_string(), "each of 3 steps is over, but for 1 that stopped and were left");
        let left = boards.said.iter().find_map(|said| match said {
            SequenceNext::Told(SequenceEnd { step, what: SequenceStop::NotReached(_) }) => Some(*step),
            _ => None,
        });
        assert_eq!((left, boards.told().len()), (Some(which), 2));
        assert_eq!(boards.words()[2 * which][0], 0x80);
        assert_eq!(boards.words()[1][0], 0);
    }
}

#[test]
fn the_first_frame_of_a_way_down_is_its_order() {
    let mut boards = Boards::new();
    let steps = [SequenceStep::turns(1, 1, 0x00)];
    let mut down = Sequence::new(1, Rules::DOWN).unwrap();
    loop {
        match down.next(&mut boards.hosts[down.host()], &steps, &mut []).unwrap() {
            SequenceNext::Again => {}
            SequenceNext::Send(Sending::Write(frame)) => {
                assert_eq!((down.host(), &frame[..6]), (1, &framed(0x59, &[0x05, 0x03, 0x01, 0x01, 0x00])[..]));
                break;
            }
            other => panic!("{other:?}"),
        }
    }
}

#[test]
fn a_list_that_asks_says_each_order_and_begins_none_before() {
    let mut boards = Boards::new();
    let mut list = Sequence::new(COURSE_TRIES, Rules { asks: true, ..Rules::UP }).unwrap();
    let (steps, mut records) = ([sets(0, 0, 1_200_000)], [SequenceRecord::default()]);
    let order = SequenceNext::Order { step: 0, cell: Cell::Output(0, Register::VoutCommand), word: 0x1333 };
    let stops = |next: &SequenceNext| matches!(next, SequenceNext::Order { .. });
    assert_eq!(boards.run_to(&mut list, &steps, &mut records, stops), order);
    assert_eq!((boards.parts[0].writes, list.begun()), (0, 0));
    assert_eq!(boards.end(&mut list, &steps, &mut records).what, SequenceStop::Reached);
    assert_eq!(boards.parts[0].writes, 1);
}

#[test]
fn a_list_that_is_stopped_at_a_wait_goes_on() {
    let mut boards = Boards::new();
    let (steps, mut records, mut list) = ([sets(0, 0, 1_200_000).with_wait(15)], [SequenceRecord::default()], up());
    let stops = |next: &SequenceNext| matches!(next, SequenceNext::Wait { .. });
    let wait = SequenceNext::Wait { step: 0, milliseconds: 15 };
    assert_eq!((boards.run_to(&mut list, &steps, &mut records, stops), boards.parts[0].frames), (wait, 0));
    assert_eq!(boards.end(&mut list, &steps, &mut records).what, SequenceStop::Reached);
    assert_eq!(boards.waits, []);
}

#[test]
fn what_has_no_way_back_says_so_once() {
    let mut boards = Boards::new();
    boards.hosts[0] = Host::new(0x58, 2, 2).unwrap();
    boards.hosts[0].set_limits(0, Limits { least: 1_020_000, most: 1_300_000 }).unwrap(); // it starts at 1 V
    let (steps, mut records, mut list) = ([sets(0, 0, 1_200_000)], [SequenceRecord::default()], up());
    let stops = |next: &SequenceNext| matches!(next, SequenceNext::NoWayBack { .. });
    let cell = Some(Cell::Output(0, Register::VoutCommand));
    let said = SequenceNext::NoWayBack { step: 0, refusal: Refusal::L3BelowLimit, cell };
    assert_eq!(boards.run_to(&mut list, &steps, &mut records, stops), said);
    assert_eq!((list.begun(), boards.parts[0].writes), (0, 0));
    assert_eq!(boards.end(&mut list, &steps, &mut records).what, SequenceStop::Reached);
    assert_eq!(boards.said.iter().filter(|it| **it == said).count(), 1);
}

#[test]
fn a_survey_orders_nothing_and_a_rest_undoes_it() {
    let mut boards = Boards::new();
    let mut records = [SequenceRecord::default()];
    let steps = [must(SequenceStep::new(0, 1, Act::Surveys))];
    assert_eq!(boards.end(&mut up(), &steps, &mut records).what, SequenceStop::Reached);
    assert_eq!(
        (records[0].back().map(|back| back.act()), boards.parts[0].writes, records[0].status()),
        (Some(Act::Rests), 0, Some(0))
    );
    // One that is off is good, unless it has to deliver.
    let off = SequenceStep::turns(0, 1, 0x00);
    assert_eq!(boards.end(&mut up(), &[off], &mut records).what, SequenceStop::Reached);
    assert!(Verdict::WentOff.is_delivered() && !Verdict::CommandedOff.is_delivered());
    assert!(Verdict::CommandedOff.has_nothing_to_deliver() && !Verdict::WentOff.has_nothing_to_deliver());
    let loose = [steps[0].with_looks(Some(Looks::default()))];
    assert_eq!(boards.end(&mut up(), &loose, &mut records).what, SequenceStop::Reached);
    let end = boards.end(&mut up(), &steps, &mut records);
    assert!(matches!(end.what, SequenceStop::Does(found) if found.verdict == Verdict::CommandedOff && !found.is_good()), "{end}");
}

#[test]
fn wrong_lists_are_refused() {
    let mut boards = Boards::new();
    let [first, second] = &mut boards.hosts;
    let mut refused = |list: &[SequenceStep]| {
        let (mut sequence, mut records) = (up(), [SequenceRecord::default()]);
        sequence.run(list, &mut records, &mut [first, second], |_, _, _| None, |_| (), |_| true)
    };
    assert_eq!(refused(&[SequenceStep::turns(0, 0, 0); 2]), Err(Refusal::NoRoom));
    assert_eq!(refused(&[SequenceStep::turns(2, 0, 0)]), Err(Refusal::NoStep));
    assert_eq!(refused(&[SequenceStep::turns(256, 0, 0)]), Err(Refusal::NoStep));
    assert_eq!(refused(&[SequenceStep::turns(0, 8, 0)]), Err(Refusal::H4UnknownOutput));
}

#[test]
fn a_part_that_restarts_ends_a_way_up() {
    let mut boards = Boards::new();
    let list = [SequenceStep::turns(0, 1, 0x00), SequenceStep::turns(0, 0, 0x00), SequenceStep::turns(0, 1, 0x80)];
    let (mut up, mut records) = (up(), [SequenceRecord::default(); 3]);
    let stops = |next: &SequenceNext| matches!(next, SequenceNext::Told(_));
    assert!(stops(&boards.run_to(&mut up, &list, &mut records, stops)));
    boards.parts[0].part.restart();
    let end = boards.end(&mut up, &list, &mut records);
    assert_eq!((end.what, up.begun()), (SequenceStop::Restarted, end.step));
    assert_eq!(end.to_string(), format!("step {}: a part restarted or was exchanged", end.step));
}

#[test]
fn another_who_orders_beside_a_step_is_seen_as_a_restart() {
    let mut boards = Boards::new();
    let wishes = Wishes { margin_high: Wish::Word(0x1100), ..Wishes::microvolts(1_200_000) };
    let (steps, mut records) = ([SequenceStep::sets(0, 0, wishes)], [SequenceRecord::default()]);
    let ([host, _], [board, _]) = (&mut boards.hosts, &mut boards.parts);
    let send = |_: usize, frame: &Sending, answer: &mut [u8]| {
        let ended = board.send(frame, answer).ok();
        if board.writes == 1 {
            // VOUT_MARGIN_HIGH, which the step found as it is to be.
            let mut order = framed(0x58, &[0x05, 0x04, 0x00, 0x25, 0x80, 0x11]);
            order.push(pec(&order));
            assert!(matches!(board.part.hear(&order, false), Ok(Heard::Taken)));
        }
        ended
    };
    let ended = up().run(&steps, &mut records, &mut [host], send, |_| (), |_| true);
    assert_eq!(ended, Ok(SequenceNext::Ended(SequenceEnd { step: 0, what: SequenceStop::Restarted })));
    assert_eq!(board.writes, 1);
}

#[test]
fn a_step_has_its_tries() {
    let frames = |tries| {
        let mut boards = Boards::new();
        boards.parts[0].gone_after = 0;
        let list = [SequenceStep::turns(0, 0, 0x00).with_looks(None)];
        let end = boards.end(&mut Sequence::new(tries, Rules::DOWN).unwrap(), &list, &mut []);
        assert_eq!(end.what, SequenceStop::Left(1));
        boards.parts[0].frames
    };
    assert_eq!([1, 2, 3].map(frames), [4, 8, 12]);
}

#[test]
fn a_way_down_tells_a_lost_order() {
    let mut boards = Boards::new();
    let mut down = Sequence::new(1, Rules::DOWN).unwrap();
    let [host, _] = &mut boards.hosts;
    let list = [SequenceStep::turns(0, 0, 0x00).with_looks(None)];
    let part = &mut boards.parts[0];
    let send = |_: usize, frame: &Sending, answer: &mut [u8]| match frame {
        Sending::Write(_) => None, // the part never hears it
        _ => part.send(frame, answer).ok(),
    };
    let mut told = Vec::new();
    let ended = down.run(
        &list,
        &mut [],
        &mut [host],
        send,
        |_| (),
        |said| {
            told.push(*said);
            true
        },
    );
    assert!(matches!(ended, Ok(SequenceNext::Ended(end)) if end.what == SequenceStop::Left(1)), "{ended:?}");
    let cell = Some(Cell::Output(0, Register::Operation));
    let why = NotReached::Spent { cell, fault: Some(AnswerFault::NotAcknowledged), error: None };
    assert_eq!(told, [SequenceNext::Told(SequenceEnd { step: 0, what: SequenceStop::NotReached(why) })]);
}

#[test]
fn each_end_is_one_line() {
    let end = |what| SequenceEnd { step: 2, what }.to_string();
    assert_eq!(end(SequenceStop::Reached), "each of 2 steps is over");
    assert_eq!(end(SequenceStop::Changed), "step 2: the format changed, or another orders beside it");
    assert_eq!(end(SequenceStop::NotJudged), "step 2: refused: H7 FormatUnknown");
    assert_eq!(
        end(SequenceStop::NotReached(NotReached::NoFormat { mode: 0x21 })),
        "step 2: VOUT_MODE is 21h, a format that this host doesn't have"
    );
}

#[test]
fn a_step_says_what_it_does() {
    let wishes = Wishes {
        command: Wish::Word(1),
        max: Wish::Microvolts(-2),
        margin_high: Wish::Stay,
        margin_low: Wish::Word(4),
        min: Wish::Microvolts(5),
    };
    let (sets, turns) = (SequenceStep::sets(3, 2, wishes), SequenceStep::turns(4, 1, 0x80));
    assert_eq!((sets.host(), sets.output(), sets.act(), sets.looks()), (3, 2, Act::Sets(wishes), Some(Looks::default())));
    assert_eq!((turns.host(), turns.output(), turns.act(), turns.wait()), (4, 1, Act::Turns(0x80), 0));
    assert_eq!(SequenceStep::default(), SequenceStep::new(0, 0, Act::Rests).with_looks(None));
    assert_eq!((SequenceStep::default().host(), SequenceStep::default().output(), Looks::default().rounds), (0, 0, 7));
    assert_eq!([Act::Surveys, Act::Rests].map(|act| SequenceStep::new(0, 0, act).act()), [Act::Surveys, Act::Rests]);
    let looks = Looks {
        has_to_deliver: true,
        fault_limits: FaultLimits::Skip,
        power_good: PowerGood::Tell,
        has_status_word: false,
        has_read_vout: true,
        within: 7,
        rounds: 3,
    };
    let other = Looks { fault_limits: FaultLimits::Tell, has_status_word: true, has_read_vout: false, ..looks };
    for looks in [None, Some(looks), Some(other)] {
        assert_eq!(turns.with_looks(looks).looks(), looks);
        assert_ne!(turns.with_looks(looks), turns);
    }
    for other in [
        SequenceStep::turns(5, 1, 0x80),
        SequenceStep::turns(4, 2, 0x80),
        SequenceStep::turns(4, 1, 0x40),
        turns.with_wait(1),
        sets,
    ] {
        assert_ne!(turns, other);
    }
    let text = format!("{:?}", turns.with_looks(None));
    assert_eq!(text, "SequenceStep { host: 4, output: 1, act: Turns(128), looks: None, wait: 0 }");
    assert_eq!(format!("{:?}", Sequence::new(1, Rules::DOWN).unwrap()), "Sequence { begun: 0, left: 0, host: 0, .. }");
    let record = format!("{:?}", SequenceRecord::default());
    assert_eq!(record, "SequenceRecord { back: None, status_before: None, status: None, .. }");
}
