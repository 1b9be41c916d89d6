//! Outputs that are turned off again if what comes after them fails.

use core::fmt;

use crate::bus::Bus;
use crate::course::{Course, NotReached, COURSE_TRIES};
use crate::delivered::{Delivered, NotDelivered};
use crate::host::Host;
use crate::rail::Power;
use crate::step::{SequenceRecord, SequenceStep};

/// How many jobs a course that turns an output off may have: over a dead bus it ends soon.
const OFF_TRIES: u16 = 4;

/// A host and its bus. When it is dropped it turns off the outputs that it turned on, the last one first, so that `?` leaves none of them on.
/// An output that was on before its first step stays on. [`OffOnDrop::keep`] leaves all as they are. What becomes of the orders of a drop
/// isn't said: [`OffOnDrop::turn_off`] says it.
///
/// ```
/// use pmhost::{FaultLimits, Host, Limits, Looks, NotDelivered, OffOnDrop, Output, Part, Reading, SequenceRecord, SequenceStep};
///
/// fn bring_up(host: &mut Host, bus: &mut Part) -> Result<(), NotDelivered<pmhost::NoAnswer>> {
///     let looks = Looks { fault_limits: FaultLimits::Skip, rounds: 2, ..Looks::default() };
///     let mut board = OffOnDrop::new(host, bus);
///     for output in 0..2 {
///         let step = SequenceStep::turns(0, output, 0x80).with_looks(Some(looks));
///         let _ = board.deliver(&step, &mut SequenceRecord::default(), |_| ())?;
///     }
///     board.keep();
///     Ok(())
/// }
///
/// let off = Output { operation: 0x00, ..Output::default() };
/// let mut bus = Part::new(0x58, &[off, off], (1, 0, 3))?;
/// bus.set_reading(Reading::Vout(0), 0x1000)?; // 1 V; the second rail is dead
/// let mut host = Host::new(0x58, 2, 3)?;
/// for output in 0..2 {
///     host.set_limits(output, Limits { least: 900_000, most: 1_100_000 })?;
/// }
/// assert!(bring_up(&mut host, &mut bus).is_err());
/// assert!(!bus.is_on(0)? && !bus.is_on(1)?);
/// bus.set_reading(Reading::Vout(1), 0x1000)?;
/// bring_up(&mut host, &mut bus)?;
/// assert!(bus.is_on(0)? && bus.is_on(1)?);
/// # Ok::<(), Box<dyn core::error::Error>>(())
/// ```
#[must_use = "dropped at once it turns nothing off"]
pub struct OffOnDrop<'a, B: Bus> {
    host: &'a mut Host,
    bus: &'a mut B,
    turned_on: [u8; 8],
    count: usize,
}

impl<B: Bus> fmt::Debug for OffOnDrop<'_, B> {
    fn fmt(&self, to: &mut fmt::Formatter<'_>) -> fmt::Result {
        to.debug_struct("OffOnDrop").field("turned_on", &&self.turned_on[..self.count]).finish_non_exhaustive()
    }
}

impl<'a, B: Bus> OffOnDrop<'a, B> {
    /// Of a host over a bus, which has turned nothing on.
    pub fn new(host: &'a mut Host, bus: &'a mut B) -> OffOnDrop<'a, B> {
        OffOnDrop { host, bus, turned_on: [0; 8], count: 0 }
    }

    /// As [`Host::deliver`]. Before an output's first step it is surveyed: one that isn't on is turned off at the end, whatever becomes
    /// of the step. If nothing is known of it nothing is ordered.
    pub fn deliver(
        &mut self,
        step: &SequenceStep,
        record: &mut SequenceRecord,
        wait: impl FnMut(u32),
    ) -> Result<Delivered, NotDelivered<B::Error>> {
        let output = step.output();
        if !self.turned_on[..self.count].contains(&output) && !self.is_on(output)? {
            self.turned_on[self.count] = output;
            self.count += 1;
        }
        self.host.deliver(step, record, self.bus, wait)
    }

    /// Whether an output is on.
    fn is_on(&mut self, output: u8) -> Result<bool, NotReached<B::Error>> {
        match self.host.run_course(&mut Course::survey(output, COURSE_TRIES)?, self.bus) {
            Ok(()) => Ok(self.host.rail(output)?.power == Power::On),
            Err(NotReached::OtherSource { byte }) => Ok(byte & 0x80 != 0),
            Err(why) => Err(why),
        }
    }

    /// Turns off what it turned on, the last one first, and forgets it. Each is tried; the answer is why the first one that failed did.
    pub fn turn_off(&mut self) -> Result<(), NotReached<B::Error>> {
        let mut found = Ok(());
        while self.count > 0 {
            self.count -= 1;
            let ended = Course::power(self.turned_on[self.count], 0x00, OFF_TRIES)
                .map_err(NotReached::from)
                .and_then(|mut course| self.host.run_course(&mut course, self.bus));
            found = found.and(ended);
        }
        found
    }

    /// Leaves the outputs as they are: all went well.
    pub fn keep(mut self) {
        self.count = 0;
    }
}

impl<B: Bus> Drop for OffOnDrop<'_, B> {
    fn drop(&mut self) {
        self.host.give_up();
        let _told_by_turn_off = self.turn_off();
    }
}
