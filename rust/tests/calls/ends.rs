//! How jobs end over buses that fail, and which frames they send.

use core::fmt;
use core::sync::atomic::{AtomicBool, Ordering};
use std::error::Error;
use std::panic::{catch_unwind, AssertUnwindSafe};

use super::{framed, free, learned, part, COMMAND};
use pmhost::*;

/// A transaction that failed, by its number from 1.
#[derive(Clone, Copy, Debug, PartialEq, Eq)]
struct Broken(usize);

impl fmt::Display for Broken {
    fn fmt(&self, to: &mut fmt::Formatter<'_>) -> fmt::Result {
        write!(to, "transaction {} is broken", self.0)
    }
}

impl Error for Broken {}

/// What a transaction does: it goes well with these bytes as the answer, zeros behind them; or it fails, and has left these
/// bytes in the buffer.
#[derive(Clone, Copy, Debug)]
enum Does {
    Answers(&'static [u8]),
    Fails(&'static [u8]),
}
use Does::{Answers, Fails};

/// A bus that keeps the frames that it is handed, and does as a script says, the last line of it for ever.
struct Scripted {
    script: &'static [Does],
    frames: Vec<Vec<u8>>,
}

impl Scripted {
    fn new(script: &'static [Does]) -> Scripted {
        Scripted { script, frames: Vec::new() }
    }
}

impl Bus for Scripted {
    type Error = Broken;

    fn transaction(&mut self, address: u8, operations: &mut [Operation<'_>]) -> Result<(), Broken> {
        let Some(Operation::Write(bytes)) = operations.first() else { panic!("a transaction begins with a write") };
        self.frames.push(framed(address, bytes));
        let does = self.script[(self.frames.len() - 1).min(self.script.len() - 1)];
        let (Answers(left) | Fails(left)) = does;
        if let Some(Operation::Read(to)) = operations.get_mut(1) {
            assert!(to.iter().all(|byte| *byte == 0), "the room of an answer is zeros before");
            let count = left.len().min(to.len());
            to[..count].copy_from_slice(&left[..count]);
        }
        match does {
            Answers(_) => Ok(()),
            Fails(_) => Err(Broken(self.frames.len())),
        }
    }
}

/// A part whose frames are kept.
struct Watched {
    part: Part,
    frames: Vec<Vec<u8>>,
}

impl Bus for Watched {
    type Error = NoAnswer;

    fn transaction(&mut self, address: u8, operations: &mut [Operation<'_>]) -> Result<(), NoAnswer> {
        let Some(Operation::Write(bytes)) = operations.first() else { panic!("a transaction begins with a write") };
        self.frames.push(framed(address, bytes));
        self.part.transaction(address, operations)
    }
}

// Each job of a course over a silent bus is one read here.
#[test]
fn a_course_has_sixty_four_jobs_if_a_caller_says_nothing_else() {
    let (mut host, mut bus) = (free(0x58, 1, 1), Scripted::new(&[Fails(&[])]));
    let spent = host.run_course(&mut Course::survey(0, COURSE_TRIES).unwrap(), &mut bus).unwrap_err();
    assert!(matches!(spent, NotReached::Spent { .. }), "{spent}");
    assert_eq!(bus.frames.len(), 64);
}

fn host() -> Host {
    free(0x58, 2, 3)
}

// VOUT_COMMAND 34CDh of output 0 as it is answered, without the address; and the same with another PEC.
const ANSWER: &[u8] = &[0x02, 0xCD, 0x34, 0xB9];
const DAMAGED: &[u8] = &[0x02, 0xCD, 0x34, 0xB8];

#[test]
fn a_refused_job_is_an_error_and_sends_nothing() {
    let (mut host, _) = learned();
    host.set_limits(0, Limits { least: 3_200_000, most: 3_465_000 }).unwrap();
    for (job, refusal) in [
        (Job::OrderMicrovolts(COMMAND, 12_000_000), Refusal::L4AboveLimit),
        (Job::Order(COMMAND, 0xFFFF), Refusal::L4AboveLimit),
        (Job::OrderMicrovolts(COMMAND, 3_199_000), Refusal::L3BelowLimit),
        (Job::Order(Cell::Output(0, Register::Operation), 0x80), Refusal::L5NotKnownWithin),
        (Job::OrderMicrovolts(Cell::WriteProtect, 1), Refusal::H5BadWord),
        (Job::Check(Cell::Output(9, Register::VoutMax)), Refusal::H4UnknownOutput),
        (Job::Learn(9), Refusal::H4UnknownOutput),
        (Job::Clear(9), Refusal::H4UnknownOutput),
    ] {
        let mut bus = Scripted::new(&[Answers(ANSWER)]);
        assert_eq!(host.run_job(job, &mut bus), Err(NotDone::Refused(refusal)), "{job:?}");
        assert_eq!(bus.frames, [[0; 0]; 0], "{job:?}");
    }
}

#[test]
fn no_command_is_done_over_a_dead_bus() {
    // A store is sent once, each other command in each pass.
    for (job, frame, times) in [
        (Job::Store, &[0xB0, 0x15, 0x24][..], 1),
        (Job::Restore, &[0xB0, 0x16, 0x2D], 3),
        (Job::Clear(1), &[0xB0, 0x05, 0x02, 0x01, 0x03, 0x45], 3),
    ] {
        let mut bus = Scripted::new(&[Fails(&[])]);
        let end = host().run_job(job, &mut bus);
        assert_eq!(end, Err(NotDone::Unknown { error: Some(Broken(times)), fault: None }), "{job:?}");
        assert_eq!(bus.frames, vec![frame; times], "{job:?}");
    }
}

#[test]
fn what_a_failed_transaction_left_is_no_answer() {
    let unknown = Err(NotDone::Unknown { error: Some(Broken(3)), fault: None });
    let (mut host, mut bus) = (host(), Scripted::new(&[Fails(ANSWER)]));
    assert_eq!(host.run_job(Job::Check(COMMAND), &mut bus), unknown);
    assert_eq!((bus.frames.len(), host.confirmed_word(COMMAND)), (3, Ok(None)));
    let mut bus = Scripted::new(&[Fails(ANSWER)]);
    let end = host.run_job(Job::Order(COMMAND, 0x34CD), &mut bus);
    assert_eq!(end, Err(NotDone::Unknown { error: Some(Broken(6)), fault: None }));
    assert_eq!((bus.frames.len(), host.confirmed_word(COMMAND)), (6, Ok(None)));
}

#[test]
fn unknown_says_what_the_bus_and_the_last_answer_had() {
    let wrong_pec = Some(Refusal::F5WrongPec);
    let (check, order) = (Job::Check(COMMAND), Job::Order(COMMAND, 1));
    let rows: [(Job, &[Does], _); 5] = [
        (check, &[Answers(DAMAGED)], (None, wrong_pec)),
        (check, &[Answers(&[])], (None, Some(Refusal::F4WrongCount))),
        (check, &[Fails(&[]), Answers(DAMAGED)], (Some(Broken(1)), wrong_pec)),
        (check, &[Answers(DAMAGED), Fails(&[])], (Some(Broken(3)), None)),
        (order, &[Fails(&[]), Answers(DAMAGED)], (Some(Broken(1)), wrong_pec)),
    ];
    for (job, script, (error, fault)) in rows {
        let end = host().run_job(job, &mut Scripted::new(script));
        assert_eq!(end, Err(NotDone::Unknown { error, fault }), "{job:?} {script:?}");
        let source = end.unwrap_err().source().map(ToString::to_string);
        assert_eq!(source, error.map(|it| it.to_string()), "{job:?} {script:?}");
    }
}

#[test]
fn a_format_that_no_host_has_is_told() {
    // VOUT_MODE 60h is no format; its answer is good.
    const NO_FORMAT: &[u8] = &[0x01, 0x60, 0x05];
    let unknown = |error| NotDone::Unknown { error, fault: None };
    let rows: [(&[Does], _); 4] = [
        (&[Answers(NO_FORMAT)], NotDone::NoFormat),
        (&[Answers(DAMAGED), Answers(NO_FORMAT)], NotDone::NoFormat),
        (&[Fails(&[]), Answers(NO_FORMAT)], NotDone::NoFormat),
        (&[Fails(NO_FORMAT)], unknown(Some(Broken(3)))),
    ];
    for (script, end) in rows {
        assert_eq!(host().run_job(Job::Learn(0), &mut Scripted::new(script)), Err(end), "{script:?}");
    }
}

#[test]
fn a_job_that_is_given_up_leaves_what_is_true() {
    let mut given_up = host();
    given_up.give_up(); // no job is open
    given_up.run_job(Job::Check(COMMAND), &mut Scripted::new(&[Answers(ANSWER)])).unwrap();
    // Before the first frame, and behind a write that was acknowledged: the word may be the old one or the new one.
    for is_sent in [false, true] {
        given_up.order(COMMAND, 0x3400).unwrap();
        if is_sent {
            assert_eq!(given_up.write_ended(true), Ok(Step::Next));
        }
        given_up.give_up();
        assert_eq!((given_up.frame(), given_up.confirmed_word(COMMAND)), (Sending::Nothing, Ok(None)));
        let possible = given_up.possible_words(COMMAND).unwrap();
        assert_eq!((possible.words().map(<[u16]>::len), possible.allows(0x34CD), possible.allows(0x3400)), (Some(2), true, true));
    }
    assert_eq!(given_up.check(COMMAND), Ok(()));
}

#[test]
fn a_wrong_answer_before_a_good_one_is_no_error() {
    let mut bus = Scripted::new(&[Answers(DAMAGED), Fails(&[]), Answers(ANSWER)]);
    assert_eq!(host().run_job(Job::Check(COMMAND), &mut bus), Ok(Done::Word(0x34CD)));
    assert_eq!(bus.frames, [[0xB0, 0x06, 0x02, 0x00, 0x21]; 3]);
}

#[test]
fn each_job_sends_its_own_frames() {
    let of = |output, register| Cell::Output(output, register);
    let rows: [(Job, Done, &[&[u8]]); 9] = [
        (Job::Clear(0), Done::Acknowledged, &[&[0xB0, 0x05, 0x02, 0x00, 0x03, 0x50]]),
        (Job::Clear(1), Done::Acknowledged, &[&[0xB0, 0x05, 0x02, 0x01, 0x03, 0x45]]),
        (Job::Store, Done::Acknowledged, &[&[0xB0, 0x15, 0x24]]),
        (Job::Restore, Done::Acknowledged, &[&[0xB0, 0x16, 0x2D]]),
        (Job::Learn(1), Done::Learned(Format::Ulinear16(-12)), &[&[0xB0, 0x06, 0x02, 0x01, 0x20]]),
        (Job::Check(of(1, Register::VoutMin)), Done::Word(0), &[&[0xB0, 0x06, 0x02, 0x01, 0x2B]]),
        (
            Job::Order(of(1, Register::VoutCommand), 0x34CD),
            Done::Word(0x34CD),
            &[&[0xB0, 0x05, 0x04, 0x01, 0x21, 0xCD, 0x34, 0x4C], &[0xB0, 0x06, 0x02, 0x01, 0x21]],
        ),
        (
            Job::Order(of(1, Register::Operation), 0x80),
            Done::Word(0x80),
            &[&[0xB0, 0x05, 0x03, 0x01, 0x01, 0x80, 0x69], &[0xB0, 0x06, 0x02, 0x01, 0x01]],
        ),
        (Job::Order(Cell::WriteProtect, 0x80), Done::Word(0x80), &[&[0xB0, 0x10, 0x80, 0x34], &[0xB0, 0x10]]),
    ];
    for (job, done, frames) in rows {
        let mut bus = Watched { part: part(), frames: Vec::new() };
        assert_eq!(host().run_job(job, &mut bus), Ok(done), "{job:?}");
        assert_eq!(bus.frames, frames, "{job:?}");
    }
}

#[test]
fn a_protected_part_makes_an_order_an_error() {
    let mut part = Part::protected(0x58, &[Output::default()], (1, 0, 3), 0x80).unwrap();
    let mut host = free(0x58, 1, 3);
    let mut order = || -> Result<Done, NotDone<NoAnswer>> {
        host.run_job(Job::Learn(0), &mut part)?;
        host.run_job(Job::OrderMicrovolts(COMMAND, 3_300_000), &mut part)?;
        host.run_job(Job::Check(COMMAND), &mut part)
    };
    assert_eq!(order(), Err(NotDone::Differs { word: 0x1000 }));
    assert_eq!(part.commanded_microvolts(0), Ok(1_000_000));
}

// In steps of one microvolt round 33.554433 V, which is 2 to the 25th, and 1: no number of 32 floating bits.
#[test]
fn microvolts_are_exact() {
    const EXACT: i64 = 33_554_433;
    let direct = Format::Direct { m: 100, b: -3355, r: 4 };
    assert_eq!((direct.nearest_word(EXACT), direct.microvolts(4433)), (Ok(4433), Ok(EXACT)));
    let mut part = Part::new(0x58, &[Output { mode: 0x40, ..Output::default() }], (100, -3355, 4)).unwrap();
    assert_eq!(format!("{part:?}"), "Part { address: 88, outputs: 1, .. }");
    let mut host = free(0x58, 1, 3);
    assert_eq!(host.run_job(Job::Learn(0), &mut part), Ok(Done::Learned(direct)));
    assert_eq!(host.run_job(Job::OrderMicrovolts(COMMAND, EXACT), &mut part), Ok(Done::Word(4433)));
    assert_eq!(part.commanded_microvolts(0), Ok(EXACT));
    let limits = Limits { least: EXACT, most: EXACT };
    host.set_limits(0, limits).unwrap();
    assert_eq!(host.limits(0), Ok(Some(limits)));
    for (microvolts, wanted) in
        [(EXACT, Ok(())), (EXACT - 1, Err(Refusal::L3BelowLimit)), (EXACT + 1, Err(Refusal::L4AboveLimit))]
    {
        assert_eq!(host.clone().order_microvolts(COMMAND, microvolts), wanted, "{microvolts}");
    }
}

#[test]
fn a_bound_is_no_nearest_word() {
    // 34CCh is 3.299804 V and 34CDh 3.300048 V, at 2 to the -12th of a volt.
    let format = Format::Ulinear16(-12);
    for (microvolts, below, nearest, above) in [(3_299_850, 0x34CC, 0x34CC, 0x34CD), (3_300_000, 0x34CC, 0x34CD, 0x34CD)] {
        let found = (format.at_most(microvolts), format.nearest_word(microvolts), format.at_least(microvolts));
        assert_eq!(found, (Ok(below), Ok(nearest), Ok(above)), "{microvolts}");
    }
}

#[test]
fn a_number_that_a_format_lacks_is_refused() {
    let format = Format::Ulinear16(-12);
    let (below, above) = (Err(Refusal::N3BelowLeast), Err(Refusal::N4AboveGreatest));
    assert_eq!((format.nearest_word(-1_000_000), format.nearest_word(20_000_000)), (below, above));
    assert_eq!((format.at_most(-1_000_000), format.at_least(20_000_000)), (below, above));
    assert_eq!((format.at_most(20_000_000), format.at_least(-1_000_000)), (Ok(0xFFFF), Ok(0)));
    assert_eq!(Format::Direct { m: 0, b: 0, r: 0 }.microvolts(1), Err(Refusal::H7FormatUnknown));
}

#[test]
fn an_output_that_isnt_there_is_h4() {
    let (host, cell) = (host(), Cell::Output(9, Register::VoutCommand));
    let found = [
        ("limits", host.limits(9).err()),
        ("within", host.limits_state(9).err()),
        ("band", host.band(9).err()),
        ("format", host.format(9).err()),
        ("standing", host.confirmed_word(cell).err()),
        ("possible", host.possible_words(cell).err()),
        ("narrow", host.clone().set_limits(9, Limits { least: 0, most: 1 }).err()),
    ];
    for (name, refusal) in found {
        assert_eq!(refusal, Some(Refusal::H4UnknownOutput), "{name}");
    }
}

#[test]
fn an_error_is_one_line() {
    let unknown = |error, fault| NotDone::Unknown { error, fault };
    for (end, line) in [
        (NotDone::Refused(Refusal::L4AboveLimit), "refused: L4 AboveLimit"),
        (NotDone::NoFormat, "the output's voltages have a format that this host doesn't have"),
        (NotDone::Differs { word: 0x34C8 }, "the part holds 34C8: the order was lost, refused, limited or rounded"),
        (unknown(None, None), "it isn't known what became of the job: no good answer or acknowledgement came"),
        (
            unknown(None, Some(Refusal::F2Short)),
            "it isn't known what became of the job: no good answer or acknowledgement came; the last answer: F2 Short",
        ),
        (
            unknown(Some(Broken(2)), Some(Refusal::F5WrongPec)),
            "it isn't known what became of the job: no good answer or acknowledgement came; the last answer: F5 WrongPec; \
             a transfer failed",
        ),
    ] {
        assert_eq!(end.to_string(), line);
        let boxed: Box<dyn Error> = end.into();
        assert_eq!(boxed.to_string(), line);
    }
}

#[test]
fn what_was_turned_on_is_turned_off_again_the_last_one_first() {
    let (neither, fault_limits) = (false, FaultLimits::Skip);
    let unseen = Looks { has_status_word: neither, has_read_vout: neither, fault_limits, ..Looks::default() };
    type Orders = &'static [(u8, u8)];
    const ALL: Orders = &[(0, 0x80), (1, 0x80), (2, 0x80), (2, 0), (1, 0), (0, 0)];
    // OPERATION of the outputs before, which are brought up, whether they are kept, and the orders of OPERATION.
    let rows: [([u8; 3], &[u8], bool, Orders); 6] = [
        ([0; 3], &[0, 1, 2], false, ALL),
        ([0; 3], &[0, 1, 2], true, &ALL[..3]),
        ([0; 3], &[0, 0], false, &[(0, 0x80), (0, 0)]),
        ([0x80, 0x40, 0x80], &[0, 1, 2], false, &[(1, 0x80), (1, 0)]),
        ([0x98, 0, 0], &[0], false, &[(0, 0x80)]),
        ([0; 3], &[], false, &[]),
    ];
    for (before, outputs, keeps, orders) in rows {
        let starts = before.map(|operation| Output { operation, ..Output::default() });
        let mut bus = Watched { part: Part::new(0x58, &starts, (1, 0, 3)).unwrap(), frames: Vec::new() };
        let mut host = free(0x58, 3, 3);
        let mut board = OffOnDrop::new(&mut host, &mut bus);
        for &output in outputs {
            let step = SequenceStep::turns(0, output, 0x80).with_looks(Some(unseen));
            let _ = board.deliver(&step, &mut SequenceRecord::default(), |_| ()).unwrap();
        }
        if keeps {
            board.keep();
        } else {
            drop(board);
        }
        let writes = bus.frames.iter().filter(|frame| frame[1] == 0x05 && frame[4] == 0x01);
        assert_eq!(writes.map(|frame| (frame[3], frame[5])).collect::<Vec<_>>(), orders, "{before:?} {outputs:?}");
    }
}

/// A part whose bus goes away, or panics.
struct Leaving<'a> {
    part: Part,
    is_gone: &'a AtomicBool,
    panics: &'a AtomicBool,
}

impl Bus for Leaving<'_> {
    type Error = NoAnswer;

    fn transaction(&mut self, address: u8, operations: &mut [Operation<'_>]) -> Result<(), NoAnswer> {
        assert!(!self.panics.load(Ordering::Relaxed), "the bus panics");
        if self.is_gone.load(Ordering::Relaxed) {
            return Err(NoAnswer);
        }
        self.part.transaction(address, operations)
    }
}

#[test]
fn what_could_not_be_turned_off_is_said_once_and_a_panic_turns_off_too() {
    let (is_gone, panics) = (AtomicBool::new(false), AtomicBool::new(false));
    let starts = [0; 2].map(|operation| Output { operation, ..Output::default() });
    let unseen = Looks { has_status_word: false, has_read_vout: false, fault_limits: FaultLimits::Skip, ..Looks::default() };
    let on = |output| SequenceStep::turns(0, output, 0x80).with_looks(Some(unseen));
    let mut bus = Leaving { part: Part::new(0x58, &starts, (1, 0, 3)).unwrap(), is_gone: &is_gone, panics: &panics };
    let mut host = free(0x58, 2, 3);
    let mut board = OffOnDrop::new(&mut host, &mut bus);
    for output in [0, 1] {
        let _ = board.deliver(&on(output), &mut SequenceRecord::default(), |_| ()).unwrap();
    }
    is_gone.store(true, Ordering::Relaxed);
    assert!(matches!(board.turn_off(), Err(NotReached::Spent { .. })));
    assert_eq!(board.turn_off(), Ok(()));
    drop(board);

    is_gone.store(false, Ordering::Relaxed);
    for output in [0, 1] {
        assert_eq!(host.run_course(&mut Course::power(output, 0x00, 8).unwrap(), &mut bus), Ok(()));
    }
    let mut board = OffOnDrop::new(&mut host, &mut bus);
    let _ = board.deliver(&on(0), &mut SequenceRecord::default(), |_| ()).unwrap();
    panics.store(true, Ordering::Relaxed);
    // A job is open then: it is given up before the output that was turned on goes off.
    catch_unwind(AssertUnwindSafe(|| board.deliver(&on(1), &mut SequenceRecord::default(), |_| ()))).unwrap_err();
    panics.store(false, Ordering::Relaxed);
    drop(board);
    assert_eq!([0, 1].map(|output| bus.part.is_on(output)), [Ok(false); 2]);
}

#[test]
fn nothing_is_ordered_of_an_output_of_which_nothing_is_known() {
    let (mut host, mut bus) = (free(0x58, 1, 1), Scripted::new(&[Fails(&[])]));
    let mut board = OffOnDrop::new(&mut host, &mut bus);
    let ended = board.deliver(&SequenceStep::turns(0, 0, 0x80), &mut SequenceRecord::default(), |_| ());
    assert!(matches!(ended, Err(NotDelivered::NotReached(NotReached::Spent { .. }))));
    drop(board);
    assert!(bus.frames.iter().all(|frame| frame[1] != 0x05), "{:?}", bus.frames);
}

#[test]
fn a_main_prints_the_words_of_an_error() {
    let spent = NotReached::Spent { cell: None, fault: Some(AnswerFault::NoAnswer), error: Some(NoAnswer) };
    let of_spent = "no try is left to learn the format; the last answer: no answer; a transfer failed: the part didn't acknowledge or answer";
    for (said, words) in [
        (format!("{NoAnswer:?}"), "the part didn't acknowledge or answer"),
        (format!("{:?}", NotHeard::Bus(NoAnswer)), "the transfer failed: the part didn't acknowledge or answer"),
        (format!("{:?}", NotHeard::<NoAnswer>::Ones), "nothing but FFh"),
        (
            format!("{:?}", NotDone::<Broken>::Differs { word: 0x1000 }),
            "the part holds 1000: the order was lost, refused, limited or rounded",
        ),
        (
            format!("{:?}", NotDone::Unknown { error: Some(NoAnswer), fault: None }),
            "it isn't known what became of the job: no good answer or acknowledgement came; a transfer failed: \
             the part didn't acknowledge or answer",
        ),
        (format!("{spent:?}"), of_spent),
        (format!("{:?}", NotDelivered::NotReached(spent)), of_spent),
        (format!("{:?}", NotDelivered::<Broken>::Refused(Refusal::H3Busy)), "refused: H3 Busy"),
        (
            format!("{:?}", NotDelivered::<Broken>::Stopped(SequenceEnd { step: 0, what: SequenceStop::Changed })),
            "step 0: the format changed, or another orders beside it",
        ),
    ] {
        assert_eq!(said, words);
    }
}
