//! A bus that waits for a busy part.

use core::{error, fmt};

use crate::bus::{Bus, Operation};
use crate::done::words_and_source;
use crate::packet::Block;

const CAPABILITY: u8 = 0x19;
pub(crate) const STORE_USER_ALL: u8 = 0x15;
const RESTORE_USER_ALL: u8 = 0x16;
/// Milliseconds before the first question; of patience after a write, after a restore, after a store.
const FIRST_WAIT: u32 = 10;
const PATIENCE: u32 = 200;
const LONG_PATIENCE: u32 = 1000;
const STORE_PATIENCE: u32 = 5000;

/// The error of a bus that knows whether anybody heard a write.
pub trait Unheard {
    /// Whether nobody acknowledged the address, so that nobody heard the bytes after it. An error that a bus also gives for
    /// one of these bytes doesn't say so. Of embedded-hal's errors it is `NoAcknowledge(NoAcknowledgeSource::Address)`.
    fn is_unheard(&self) -> bool;
}

/// A clock of the board's own.
pub trait Clock {
    /// Milliseconds of a clock that nobody sets. It may wrap round to 0 after 4,294,967,295, and nowhere else: if a clock of 16
    /// bits, or of milliseconds that are counted from 32 bits of microseconds, starts anew, the patience ends early. It also does
    /// if a clock steps back.
    fn now(&mut self) -> u32;

    /// Waits for so many milliseconds.
    fn wait(&mut self, milliseconds: u32);
}

/// Why a transaction over a patient bus failed.
#[derive(Clone, Copy, PartialEq, Eq)]
pub enum NotHeard<E> {
    /// What the bus below said.
    Bus(E),
    /// Nothing but FFh came: nobody gave that answer.
    Ones,
    /// The deadline had passed: nothing was sent.
    Late,
}

impl<E> fmt::Display for NotHeard<E> {
    /// One line, without what the bus said, which is the source.
    fn fmt(&self, to: &mut fmt::Formatter<'_>) -> fmt::Result {
        to.write_str(match self {
            NotHeard::Bus(_) => "the transfer failed",
            NotHeard::Ones => "nothing but FFh",
            NotHeard::Late => "the deadline has passed",
        })
    }
}

impl<E: fmt::Debug> fmt::Debug for NotHeard<E> {
    /// Its words, and what the bus said: a `main` that answers an error prints them.
    fn fmt(&self, to: &mut fmt::Formatter<'_>) -> fmt::Result {
        let said = match self {
            NotHeard::Bus(error) => Some(error),
            NotHeard::Ones | NotHeard::Late => None,
        };
        words_and_source(to, self, said)
    }
}

impl<E: error::Error + 'static> error::Error for NotHeard<E> {
    fn source(&self) -> Option<&(dyn error::Error + 'static)> {
        match self {
            NotHeard::Bus(error) => Some(error),
            NotHeard::Ones | NotHeard::Late => None,
        }
    }
}

/// A bus over another one, for parts that are busy after a write: they don't acknowledge their address, or answer nothing but
/// FFh, for milliseconds, and for some hundred after a store.
///
/// Each write is followed by a question, a plain read of CAPABILITY after 10 ms and then after twice the wait each time, until an
/// answer came that isn't of ones, or the patience is spent. So the next frame meets a part that is ready. A part may note each
/// question as a BUSY fault and pull SMBALERT#: by [`Patient::with_ready`] it is asked for a byte of its own. A write whose
/// address nobody acknowledged is sent again after such waits, but for a store, which wears the memory, and one that
/// [`Sending::is_once`](crate::Sending::is_once) names. A read is sent once. An
/// answer of nothing but FFh is an error: a bus that nobody drives is high, and no true answer of the host's jobs is of nothing
/// but ones.
///
/// It keeps a deadline, too ([`Patient::set_deadline`]).
#[derive(Debug)]
pub struct Patient<B, C> {
    bus: B,
    clock: C,
    patience: Option<u32>,
    ready: Option<(u8, u8)>,
    deadline: Option<u32>,
}

/// Waits from a moment on: how long the patience is, and the next wait.
#[derive(Clone, Copy)]
struct Waits {
    begun: u32,
    patience: u32,
    next: u32,
}

impl<B: Bus, C: Clock> Patient<B, C>
where
    B::Error: Unheard,
{
    /// Over a bus, with 200 ms of patience after a write, 1,000 ms after a restore and 5,000 ms after a store.
    pub fn new(bus: B, clock: C) -> Patient<B, C> {
        Patient { bus, clock, patience: None, ready: None, deadline: None }
    }

    /// With so many milliseconds of patience after every write; with 0 nothing is asked, and nothing sent again.
    #[must_use]
    pub fn with_patience(self, milliseconds: u32) -> Patient<B, C> {
        Patient { patience: Some(milliseconds), ..self }
    }

    /// The part is ready if its byte of this command code has all bits of the mask, by a plain read with a right packet error code. It
    /// is asked for that in the place of CAPABILITY.
    #[must_use]
    pub fn with_ready(self, code: u8, mask: u8) -> Patient<B, C> {
        Patient { ready: Some((code, mask)), ..self }
    }

    /// From so many milliseconds on, less than 2^31, nothing is sent and nothing waited for, so that what is under way ends at once, as over
    /// a bus that is away. `None` ends that: turn the rails off then.
    pub fn set_deadline(&mut self, milliseconds: Option<u32>) {
        let now = self.clock.now();
        self.deadline = milliseconds.map(|left| now.wrapping_add(left));
    }

    /// Whether the deadline has passed.
    pub fn is_late(&mut self) -> bool {
        self.left() == 0
    }

    /// Waits for so many milliseconds, to the deadline at most.
    pub fn wait(&mut self, milliseconds: u32) {
        let left = self.left();
        if left != 0 {
            self.clock.wait(milliseconds.min(left));
        }
    }

    /// The milliseconds that are left to the deadline.
    fn left(&mut self) -> u32 {
        let now = self.clock.now();
        self.deadline.map_or(u32::MAX, |moment| match moment.wrapping_sub(now) {
            left @ 1..=0x7FFF_FFFF => left,
            _ => 0,
        })
    }

    /// The bus below.
    pub fn bus(&self) -> &B {
        &self.bus
    }

    /// The same, to be written to. A write that is sent by it isn't waited for.
    pub fn bus_mut(&mut self) -> &mut B {
        &mut self.bus
    }

    /// Gives the bus below back.
    pub fn into_inner(self) -> B {
        self.bus
    }

    /// Waits twice as long as the last time, to the end of the patience at most. False at once if that or the deadline is over, and if it
    /// comes meanwhile.
    fn has_waited(&mut self, waits: &mut Waits) -> bool {
        let passed = self.clock.now().wrapping_sub(waits.begun);
        if passed >= waits.patience {
            return false;
        }
        self.wait(waits.next.min(waits.patience - passed));
        waits.next = waits.next.saturating_mul(2);
        !self.is_late()
    }

    fn is_ready(&mut self, address: u8) -> bool {
        let (code, mask) = self.ready.unwrap_or((CAPABILITY, 0));
        let mut answer = [0; 2];
        let mut operations = [Operation::Write(&[code]), Operation::Read(&mut answer)];
        if self.bus.transaction(address, &mut operations).is_err() || is_ones(&answer) {
            return false;
        }
        let came = [address << 1 | 1, answer[0], answer[1]];
        self.ready.is_none() || Block::read_plain(address, code, 1, &came).is_ok_and(|byte| byte[0] & mask == mask)
    }

    fn written(&mut self, address: u8, bytes: &[u8]) -> Result<(), B::Error> {
        // A command without data is its code and the packet error code.
        let command = if let [code, _] = bytes { Some(*code) } else { None };
        let patience = self.patience.unwrap_or(match command {
            Some(STORE_USER_ALL) => STORE_PATIENCE,
            Some(RESTORE_USER_ALL) => LONG_PATIENCE,
            _ => PATIENCE,
        });
        let mut again = Waits { begun: self.clock.now(), patience, next: FIRST_WAIT };
        let mut asked = again;
        let is_once = command == Some(STORE_USER_ALL) || turns_on(bytes);
        let mut ended = self.bus.transaction(address, &mut [Operation::Write(bytes)]);
        while ended.as_ref().is_err_and(Unheard::is_unheard) && !is_once && self.has_waited(&mut again) {
            ended = self.bus.transaction(address, &mut [Operation::Write(bytes)]);
        }
        while self.has_waited(&mut asked) && !self.is_ready(address) {}
        ended
    }
}

impl<B: Bus, C: Clock> Bus for Patient<B, C>
where
    B::Error: Unheard,
{
    type Error = NotHeard<B::Error>;

    fn transaction(&mut self, address: u8, operations: &mut [Operation<'_>]) -> Result<(), NotHeard<B::Error>> {
        if self.is_late() {
            return Err(NotHeard::Late);
        }
        if let [Operation::Write(bytes)] = operations {
            return self.written(address, bytes).map_err(NotHeard::Bus);
        }
        self.bus.transaction(address, operations).map_err(NotHeard::Bus)?;
        match operations.last() {
            Some(Operation::Read(came)) if is_ones(came) => Err(NotHeard::Ones),
            _ => Ok(()),
        }
    }
}

/// Whether these bytes after the address give OPERATION a byte with bit 7 set, by PAGE_PLUS_WRITE.
pub(crate) fn turns_on(bytes: &[u8]) -> bool {
    matches!(bytes, [0x05, _, _, 0x01, byte, _] if byte & 0x80 != 0)
}

/// Whether there are bytes, and all of them are FFh.
pub(crate) fn is_ones(bytes: &[u8]) -> bool {
    !bytes.is_empty() && bytes.iter().all(|byte| *byte == 0xFF)
}
