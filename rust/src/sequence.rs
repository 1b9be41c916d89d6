//! Lists of steps: outputs of several parts come up and go down in order, one step after another; one output is a list of one step.

use core::{fmt, slice};

use crate::bus::Bus;
use crate::course::{NotReached, COURSE_TRIES};
use crate::delivered::{silent_limits, BeyondFaultLimit, Delivered, NotDelivered};
use crate::ffi;
use crate::host::{step_of, Cell, Host, Sending, Step};
use crate::refusal::{Refusal, ENDED};
use crate::step::{SequenceRecord, SequenceStep};

const AGAIN: u8 = 0x96;
const NO_WAY_BACK: u8 = 0x97;
const WAIT: u8 = 0x98;
const ASKED: u8 = 0x99;
const TOLD: u8 = 0x9A;

/// What holds for a whole list. The default is none of it.
#[derive(Clone, Copy, Debug, Default, PartialEq, Eq)]
pub struct Rules {
    /// A way back is kept: OPERATION is read before an order that turns an output off, so that it can be undone.
    pub keeps_back: bool,
    /// A restart of a part that was seen ends the list; otherwise what the part holds is learned anew.
    pub ends_at_restart: bool,
    /// A step that stops is left, which [`SequenceNext::Told`] says, and the next one goes on; otherwise it ends the list.
    pub leaves: bool,
    /// [`SequenceNext::Order`] names each order before it begins.
    pub asks: bool,
}

impl Rules {
    /// Those of a way up, which can be undone.
    pub const UP: Rules = Rules { keeps_back: true, ends_at_restart: true, leaves: false, asks: false };

    /// Those of a way down, which leaves what doesn't go off.
    pub const DOWN: Rules = Rules { keeps_back: false, ends_at_restart: false, leaves: true, asks: false };

    fn number(self) -> u8 {
        u8::from(self.keeps_back) | u8::from(self.ends_at_restart) << 1 | u8::from(self.leaves) << 2 | u8::from(self.asks) << 3
    }
}

/// What became of a step or of a list.
#[derive(Clone, Copy, Debug, PartialEq, Eq)]
pub enum SequenceStop {
    /// Each step is over, none was left, and each that has to deliver was found to.
    Reached,
    /// Each step is over but for so many that were left.
    Left(u16),
    /// The orders of the step didn't reach what it asks for.
    NotReached(NotReached),
    /// The step's next order isn't due by the words with which it began: the format changed, or another orders beside it.
    Changed,
    /// An answer showed that a part restarted or was exchanged.
    Restarted,
    /// P8: what is wanted is at or beyond a fault limit, and the order wasn't sent.
    BeyondFaultLimit(BeyondFaultLimit),
    /// What is wanted can't be judged by the fault limits, since no format is known, and the order wasn't sent.
    NotJudged,
    /// What the rail of the step does: [`Delivered::is_good`] says whether it is what it is to do.
    Does(Delivered),
}

/// How a list ended, or what it says of one of its steps.
#[derive(Clone, Copy, Debug, PartialEq, Eq)]
#[must_use = "a list may have ended in another way than `Reached`"]
pub struct SequenceEnd {
    /// The place of the step in the list; how many steps there are if all are over.
    pub step: usize,
    /// What became of it.
    pub what: SequenceStop,
}

impl fmt::Display for SequenceEnd {
    /// One line.
    fn fmt(&self, to: &mut fmt::Formatter<'_>) -> fmt::Result {
        let step = self.step;
        match &self.what {
            SequenceStop::Reached => write!(to, "each of {step} steps is over"),
            SequenceStop::Left(left) => write!(to, "each of {step} steps is over, but for {left} that stopped and were left"),
            SequenceStop::NotReached(why) => write!(to, "step {step}: {why}"),
            SequenceStop::Changed => write!(to, "step {step}: the format changed, or another orders beside it"),
            SequenceStop::Restarted => write!(to, "step {step}: a part restarted or was exchanged"),
            SequenceStop::BeyondFaultLimit(beyond) => {
                write!(to, "step {step}: refused: {}: {beyond}: move the limit first", Refusal::P8BeyondFaultLimit)
            }
            SequenceStop::NotJudged => write!(to, "step {step}: refused: {}", Refusal::H7FormatUnknown),
            SequenceStop::Does(delivered) => write!(to, "step {step}: {delivered}"),
        }
    }
}

/// What a list says next.
#[derive(Clone, Copy, Debug, PartialEq, Eq)]
pub enum SequenceNext {
    /// This frame goes on the bus of the host at the place [`Sequence::host`]: tell what became of it.
    Send(Sending),
    /// Ask at once, by the host at the place [`Sequence::host`], which may be another.
    Again,
    /// Ask again once so many milliseconds have passed: the wait before a step, or the time that its rail is given.
    Wait {
        /// The place of the step.
        step: usize,
        /// How long.
        milliseconds: u32,
    },
    /// In a list that asks: this order comes next, and nothing has begun. Asked again it begins, if it is still due.
    Order {
        /// The place of the step.
        step: usize,
        /// What is ordered.
        cell: Cell,
        /// The word.
        word: u16,
    },
    /// What the rail of a step does that does what it is to, or how a step stopped that was left.
    Told(SequenceEnd),
    /// In a list that keeps a way back, before a step's first order, once: the plan of its way back would be refused. Asked again, the step
    /// begins.
    NoWayBack {
        /// The place of the step.
        step: usize,
        /// Why.
        refusal: Refusal,
        /// The cell that it is about, if it is about one.
        cell: Option<Cell>,
    },
    /// Nothing more is to be sent.
    Ended(SequenceEnd),
}

/// Steps of several outputs of at most eight hosts, one after another. The fault limits are read and judged before each order that leaves an
/// output on, and the rail is asked once its step is over, as each step's looks say. A step begins only if the one before is over by what its
/// host knows then, or was left. Over one host each output then commands what it did before its step or what that step brings it to, in the
/// list's order, whatever is lost, cut or repeated, while the part doesn't restart and nobody else orders: this is tested, and proved of the
/// way up without looks that it goes by.
/// Begin no job and no restore of these outputs meanwhile. It holds no host and no list, and may be copied.
///
/// ```
/// use pmhost::{Bus, Host, Limits, Output, Part, Reading, Rules, Sequence, SequenceNext, SequenceRecord, SequenceStep};
/// use pmhost::{SequenceStop, Wishes, COURSE_TRIES};
///
/// let mut bus = Part::new(0x58, &[Output::default(); 2], (1, 0, 3))?;
/// bus.set_reading(Reading::Vout(1), 0x1333)?; // 1.2 V
/// let mut host = Host::new(0x58, 2, 3)?;
/// for output in 0..2 {
///     host.set_limits(output, Limits { least: 900_000, most: 1_300_000 })?;
/// }
/// let steps = [SequenceStep::sets(0, 1, Wishes::microvolts(1_200_000)), SequenceStep::turns(0, 0, 0x00).with_wait(20)];
/// let mut records = [SequenceRecord::default(); 2];
/// let send = |_place, frame: &_, answer: &mut [u8]| bus.send(frame, answer).ok();
/// let wait = |milliseconds| println!("{milliseconds} ms pass");
/// let mut sequence = Sequence::new(COURSE_TRIES, Rules::UP)?;
/// let ended = sequence.run(&steps, &mut records, &mut [&mut host], send, wait, |_| true)?;
/// assert!(matches!(ended, SequenceNext::Ended(end) if end.what == SequenceStop::Reached));
/// assert_eq!((bus.commanded_microvolts(1)?, bus.is_on(0)?), (1_199_951, false));
/// # Ok::<(), Box<dyn core::error::Error>>(())
/// ```
///
/// [`Sequence::run`] is the loop. With an async task it is one of one's own:
///
/// ```
/// use pmhost::{Host, Refusal, Sending, Sequence, SequenceEnd, SequenceNext, SequenceRecord, SequenceStep};
///
/// trait Board {
///     async fn write(&mut self, bytes: &[u8]) -> bool;
///     async fn ask(&mut self, request: &[u8], answer: &mut [u8]) -> bool;
///     async fn wait(&mut self, milliseconds: u32);
/// }
///
/// async fn carry_out(
///     list: &mut Sequence,
///     (steps, records): (&[SequenceStep], &mut [SequenceRecord]),
///     host: &mut Host,
///     board: &mut impl Board,
/// ) -> Result<SequenceEnd, Refusal> {
///     loop {
///         match list.next(host, steps, records)? {
///             SequenceNext::Send(Sending::Request { frame, answer }) => {
///                 let mut bytes = [0; 8];
///                 bytes[0] = frame[0] | 1; // the read address; then what came
///                 let came = board.ask(&frame, &mut bytes[1..answer]).await;
///                 let _step = list.read_ended(host, if came { &bytes[..answer] } else { &[] })?;
///             }
///             SequenceNext::Send(Sending::Write(frame)) => {
///                 let acked = board.write(&frame).await;
///                 let _step = list.write_ended(host, acked)?;
///             }
///             SequenceNext::Wait { milliseconds, .. } => board.wait(milliseconds).await,
///             SequenceNext::Ended(end) => return Ok(end),
///             _ => {} // what is told on the way
///         }
///     }
/// }
/// # struct Model(pmhost::Part);
/// # impl Board for Model {
/// #     async fn write(&mut self, bytes: &[u8]) -> bool { matches!(self.0.hear(bytes, false), Ok(pmhost::Heard::Taken)) }
/// #     async fn ask(&mut self, request: &[u8], answer: &mut [u8]) -> bool {
/// #         let Ok(pmhost::Heard::Answered(bytes)) = self.0.hear(request, true) else { return false };
/// #         answer.copy_from_slice(&bytes[1..]);
/// #         true
/// #     }
/// #     async fn wait(&mut self, _: u32) {}
/// # }
/// # struct Still;
/// # impl std::task::Wake for Still { fn wake(self: std::sync::Arc<Self>) {} }
/// # let mut board = Model(pmhost::Part::new(0x58, &[pmhost::Output::default()], (1, 0, 3))?);
/// # let mut host = Host::new(0x58, 1, 3)?;
/// # host.no_limits(0)?;
/// # let steps = [SequenceStep::turns(0, 0, 0x00)];
/// # let (mut list, mut records) = (Sequence::new(9, pmhost::Rules::UP)?, [SequenceRecord::default()]);
/// # let mut task = Box::pin(carry_out(&mut list, (&steps, &mut records), &mut host, &mut board));
/// # let waker = std::sync::Arc::new(Still).into();
/// # let std::task::Poll::Ready(end) = task.as_mut().poll(&mut std::task::Context::from_waker(&waker)) else { panic!() };
/// # assert_eq!(end?.what, pmhost::SequenceStop::Reached);
/// # use std::future::Future;
/// # Ok::<(), Box<dyn core::error::Error>>(())
/// ```
///
/// In a handler of interrupts each transfer's end is handed over, and what comes next is asked once more:
///
/// ```
/// use pmhost::{Host, Sending, Sequence, SequenceNext, SequenceRecord, SequenceStep};
///
/// struct List {
///     host: Host,
///     list: Sequence,
///     steps: [SequenceStep; 1],
///     records: [SequenceRecord; 1],
/// }
///
/// impl List {
///     /// What is begun now: a transfer, or a timer of so many milliseconds.
///     fn next(&mut self) -> SequenceNext {
///         loop {
///             match self.list.next(&mut self.host, &self.steps, &mut self.records) {
///                 Ok(next @ (SequenceNext::Send(_) | SequenceNext::Wait { .. } | SequenceNext::Ended(_))) => return next,
///                 Ok(_) => {}
///                 Err(refusal) => panic!("the list is wrong: {refusal}"),
///             }
///         }
///     }
///
///     /// A write has ended.
///     fn on_write(&mut self, acked: bool) -> SequenceNext {
///         let _step = self.list.write_ended(&mut self.host, acked);
///         self.next()
///     }
///
///     /// A read has ended: its bytes, the read address first; none if it failed.
///     fn on_read(&mut self, bytes: &[u8]) -> SequenceNext {
///         let _step = self.list.read_ended(&mut self.host, bytes);
///         self.next()
///     }
/// }
/// # let mut host = Host::new(0x58, 1, 1)?;
/// # host.no_limits(0)?;
/// # let mut it = List { host, list: Sequence::new(1, pmhost::Rules::DOWN)?, steps: [SequenceStep::turns(0, 0, 0)], records: Default::default() };
/// # assert!(matches!(it.next(), SequenceNext::Send(Sending::Write(_))));
/// # assert!(matches!(it.on_write(false), SequenceNext::Send(Sending::Request { .. })));
/// # assert!(matches!(it.on_read(&[]), SequenceNext::Ended(end) if end.what == pmhost::SequenceStop::Left(1)));
/// # Ok::<(), Box<dyn core::error::Error>>(())
/// ```
///
/// As a step begins, the step that undoes it stands in its record: those that stand there, the newest first, are the list of the way back.
#[derive(Clone)]
#[must_use = "a list does nothing until it is carried out"]
pub struct Sequence {
    image: ffi::SequenceImage,
    /// How many steps had begun as the last order was handed out.
    ordered: u16,
}

impl fmt::Debug for Sequence {
    fn fmt(&self, to: &mut fmt::Formatter<'_>) -> fmt::Result {
        let mut list = to.debug_struct("Sequence");
        list.field("begun", &self.begun()).field("left", &self.left()).field("host", &self.host()).finish_non_exhaustive()
    }
}

// SAFETY of each call of the library: references are valid and aligned, the one that is written overlaps nothing, a
// slice's pointer and count are its own. A SequenceStep and a SequenceRecord are their images alone.
impl Sequence {
    /// No step has begun, and each has at most so many jobs. NoSequence if the library is of another version.
    pub fn new(tries: u16, rules: Rules) -> Result<Sequence, Refusal> {
        let found = unsafe { (ffi::pm_sequence_version(), ffi::pm_sequence_size()) };
        if found != (ffi::SEQUENCE_VERSION, ffi::SEQUENCE_SIZE as u64) {
            return Err(Refusal::NoSequence);
        }
        let mut image = ffi::SequenceImage::default();
        unsafe { ffi::pm_sequence_new(&mut image, tries, rules.number()) };
        Ok(Sequence { image, ordered: 0 })
    }

    /// What comes next, by the host at the place [`Sequence::host`]. `steps` is the whole list, the same each time; `records` has one record
    /// for each, or fewer in a list that keeps no way back. Nothing changes with NoRoom, NoHost, H4, and NoStep if a step has what there isn't,
    /// as a host beyond the eighth.
    pub fn next(
        &mut self,
        host: &mut Host,
        steps: &[SequenceStep],
        records: &mut [SequenceRecord],
    ) -> Result<SequenceNext, Refusal> {
        let mut found = ffi::SendingImage::default();
        let (list, room) = (steps.as_ptr().cast(), records.as_mut_ptr().cast());
        let (count, space) = (steps.len() as u64, records.len() as u64);
        let number = unsafe { ffi::pm_sequence_next(&mut self.image, &mut host.image, list, count, room, space, &mut found) };
        let (said, step) = (&self.image.said, usize::from(self.image.said.step));
        let output = steps.get(step).map_or(0, SequenceStep::output);
        Ok(match number {
            0 => {
                let frame = Sending::of(found);
                if matches!(frame, Sending::Write(_)) {
                    self.ordered = self.image.begun;
                }
                SequenceNext::Send(frame)
            }
            AGAIN => SequenceNext::Again,
            WAIT => SequenceNext::Wait { step, milliseconds: said.milliseconds },
            ASKED => SequenceNext::Order { step, cell: Cell::of(output, said.code), word: said.word },
            NO_WAY_BACK => SequenceNext::NoWayBack {
                step,
                refusal: Refusal::of(said.number),
                cell: (said.code != 0).then(|| Cell::of(output, said.code)),
            },
            TOLD => SequenceNext::Told(self.end_of(host, steps, records)),
            ENDED => SequenceNext::Ended(self.end_of(host, steps, records)),
            number => return Err(Refusal::of(number)),
        })
    }

    fn end_of(&self, host: &Host, steps: &[SequenceStep], records: &[SequenceRecord]) -> SequenceEnd {
        let (said, at) = (&self.image.said, usize::from(self.image.said.step));
        let step = steps.get(at).copied().unwrap_or_default();
        let record = records.get(at).copied().unwrap_or_default();
        let has_ordered = usize::from(self.ordered) == at + 1;
        let (number, code, word, fault) = (said.number, said.code, said.word, said.fault);
        let course = ffi::CourseEndImage { kind: said.kind, number, code, unused: 0, word, fault };
        let what = match said.kind {
            7 => SequenceStop::Changed,
            8 => SequenceStop::Restarted,
            10 => SequenceStop::Left(said.word),
            11 => SequenceStop::BeyondFaultLimit(BeyondFaultLimit::of(said, &step, host)),
            12 => SequenceStop::NotJudged,
            13 | 14 => SequenceStop::Does(Delivered::of(said, &step, &record, host, has_ordered)),
            _ => match NotReached::of(&course, step.output(), None) {
                Some(Err(why)) => SequenceStop::NotReached(why),
                Some(Ok(())) | None => SequenceStop::Reached,
            },
        };
        SequenceEnd { step: at, what }
    }

    /// A write was sent, and acknowledged or not, by the host at the place [`Sequence::host`]. OtherFrame if none is to be sent.
    pub fn write_ended(&mut self, host: &mut Host, acked: bool) -> Result<Step, Refusal> {
        step_of(unsafe { ffi::pm_sequence_write_ended(&mut self.image, &mut host.image, u8::from(acked)) })
    }

    /// A request was sent, and these bytes came back, the read address first; none if there was no answer. It answers the step of a job, and
    /// `Step::Next` of what was read of a rail. OtherFrame if none is to be sent.
    pub fn read_ended(&mut self, host: &mut Host, bytes: &[u8]) -> Result<Step, Refusal> {
        let (from, count) = (bytes.as_ptr(), bytes.len() as u64);
        step_of(unsafe { ffi::pm_sequence_read_ended(&mut self.image, &mut host.image, from, count) })
    }

    /// The place of the host that the next call takes, and on whose bus the frame goes.
    #[must_use]
    pub fn host(&self) -> usize {
        usize::from(self.image.host)
    }

    /// How many steps have begun, or were left: the outputs stand on this stair, that of the newest step there or on the one before.
    #[must_use]
    pub fn begun(&self) -> usize {
        usize::from(self.image.begun)
    }

    /// How many steps were left.
    #[must_use]
    pub fn left(&self) -> usize {
        usize::from(self.image.left)
    }

    /// Carries the list out, frame after frame. `send` is handed the place of the host on whose bus a frame goes, the frame, and room for the
    /// bytes that come after the read address; it answers how many came, or `None` if the frame failed, as [`Bus::send`] does by its `ok`.
    /// `wait` waits for so many milliseconds. `told` hears all that is said meanwhile, a wait before it begins; if it answers false the loop
    /// ends there, and called again it goes on. The answer is the end, or what it was stopped at.
    pub fn run(
        &mut self,
        steps: &[SequenceStep],
        records: &mut [SequenceRecord],
        hosts: &mut [&mut Host],
        mut send: impl FnMut(usize, &Sending, &mut [u8]) -> Option<usize>,
        mut wait: impl FnMut(u32),
        mut told: impl FnMut(&SequenceNext) -> bool,
    ) -> Result<SequenceNext, Refusal> {
        loop {
            let at = self.host();
            let host = hosts.get_mut(at).ok_or(Refusal::NoStep)?;
            match self.next(host, steps, records)? {
                SequenceNext::Again => {}
                SequenceNext::Send(frame) => {
                    let _goes_on = self.sent(host, &frame, |answer| send(at, &frame, answer))?;
                }
                SequenceNext::Ended(end) => return Ok(SequenceNext::Ended(end)),
                next if !told(&next) => return Ok(next),
                SequenceNext::Wait { milliseconds, .. } => wait(milliseconds),
                SequenceNext::Order { .. } | SequenceNext::Told(_) | SequenceNext::NoWayBack { .. } => {}
            }
        }
    }

    /// Has a frame sent, and hands over what became of it.
    fn sent(&mut self, host: &mut Host, frame: &Sending, send: impl FnOnce(&mut [u8]) -> Option<usize>) -> Result<Step, Refusal> {
        let Sending::Request { frame, answer } = frame else {
            let acked = send(&mut []).is_some();
            return self.write_ended(host, acked);
        };
        let (mut bytes, room) = ([0; 8], (*answer).clamp(1, 8));
        bytes[0] = frame[0] | 1;
        let came = send(&mut bytes[1..room]).filter(|count| (1..room).contains(count));
        self.read_ended(host, came.map_or(&[], |count| &bytes[..=count]))
    }
}

impl Host {
    /// Carries out one step over a bus, by at most [`COURSE_TRIES`] jobs, and asks what its output does then: a list of this one step,
    /// whose place of its host is 0. Before the first order, unless that turns the output off, STATUS_WORD and the fault limits are read, and
    /// nothing is ordered if what is wanted is at or beyond one (P8). `wait` waits for so many milliseconds before all is asked again of an
    /// output that doesn't do yet what it is to.
    ///
    /// The record is a new one, or that of the call before of this output: which faults stood before the first of these calls is kept, and
    /// that a limit gave no good answer isn't said once more.
    ///
    /// ```
    /// use pmhost::{FaultLimits, Host, Looks, NotDelivered, Output, Part, Reading, SequenceRecord, SequenceStep, Wishes};
    ///
    /// let mut bus = Part::new(0x58, &[Output::default()], (1, 0, 3))?;
    /// let mut host = Host::new(0x58, 1, 3)?;
    /// host.no_limits(0)?;
    /// let looks = Looks { fault_limits: FaultLimits::Skip, rounds: 2, ..Looks::default() };
    /// let step = SequenceStep::sets(0, 0, Wishes::microvolts(1_100_000)).with_looks(Some(looks));
    /// bus.set_reading(Reading::Vout(0), 0x0000)?;
    /// let dead = host.deliver(&step, &mut SequenceRecord::default(), &mut bus, |_| ());
    /// let Err(NotDelivered::Does(dead)) = dead else { panic!("it isn't dead") };
    /// assert_eq!(dead.to_string(), "READ_VOUT 0V is more than 5% away from what is commanded");
    /// bus.set_reading(Reading::Vout(0), 0x1199)?;
    /// let alive = host.deliver(&step, &mut SequenceRecord::default(), &mut bus, |_| ())?;
    /// assert_eq!(alive.to_string(), "delivers 1.099853V");
    /// # Ok::<(), Box<dyn core::error::Error>>(())
    /// ```
    pub fn deliver<B: Bus>(
        &mut self,
        step: &SequenceStep,
        record: &mut SequenceRecord,
        bus: &mut B,
        wait: impl FnMut(u32),
    ) -> Result<Delivered, NotDelivered<B::Error>> {
        let step = step.with_looks(Some(step.looks().unwrap_or_default())).after(record);
        let told_before = silent_limits(record);
        let (mut error, mut found) = (None, None);
        let send = |_: usize, frame: &Sending, answer: &mut [u8]| bus.send(frame, answer).map_err(|why| error = Some(why)).ok();
        let told = |said: &SequenceNext| {
            if let SequenceNext::Told(SequenceEnd { what: SequenceStop::Does(delivered), .. }) = said {
                found = Some(*delivered);
            }
            true
        };
        let mut list = Sequence::new(COURSE_TRIES, Rules::default())?;
        let ended = list.run(slice::from_ref(&step), slice::from_mut(record), &mut [self], send, wait, told)?;
        let SequenceNext::Ended(end) = ended else { return Err(Refusal::NoSequence.into()) };
        match end.what {
            SequenceStop::Reached => found.map(|it| it.without(told_before)).ok_or(NotDelivered::Stopped(end)),
            SequenceStop::Does(delivered) => Err(NotDelivered::Does(delivered.without(told_before))),
            SequenceStop::NotReached(why) => Err(NotDelivered::NotReached(why.over(error))),
            SequenceStop::BeyondFaultLimit(beyond) => Err(NotDelivered::BeyondFaultLimit(beyond)),
            SequenceStop::NotJudged => Err(NotDelivered::Refused(Refusal::H7FormatUnknown)),
            SequenceStop::Left(_) | SequenceStop::Changed | SequenceStop::Restarted => Err(NotDelivered::Stopped(end)),
        }
    }
}
