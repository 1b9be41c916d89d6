//! Jobs, each carried out over a bus.

use crate::bus::Bus;
use crate::done::{Done, NotDone};
use crate::host::{Cell, Host, Sending, Step};
use crate::loops::{Failures, Frames};
use crate::refusal::Refusal;

/// What a host is to carry out.
#[derive(Clone, Copy, Debug, PartialEq, Eq)]
pub enum Job {
    /// The word is written and read back.
    Order(Cell, u16),
    /// The same of the word nearest to microvolts.
    OrderMicrovolts(Cell, i64),
    /// The cell is read.
    Check(Cell),
    /// The format of an output's voltages is learned.
    Learn(u8),
    /// CLEAR_FAULTS goes to an output.
    Clear(u8),
    /// STORE_USER_ALL.
    Store,
    /// RESTORE_USER_ALL.
    Restore,
}

impl Host {
    /// Begins a job, as the call of its kind does.
    pub fn begin(&mut self, job: Job) -> Result<(), Refusal> {
        match job {
            Job::Order(cell, word) => self.order(cell, word),
            Job::OrderMicrovolts(cell, microvolts) => self.order_microvolts(cell, microvolts),
            Job::Check(cell) => self.check(cell),
            Job::Learn(output) => self.learn(output),
            Job::Clear(output) => self.clear(output),
            Job::Store => self.store(),
            Job::Restore => self.restore(),
        }
    }

    /// Carries the open job out over a bus. `Refused(OtherFrame)` if none is open. A transaction that failed is tried
    /// again by the host itself, and the last one's error is that of `Unknown`. A store, which wears the part's memory, is sent
    /// once: its later passes end as not acknowledged, unsent.
    pub fn run<B: Bus>(&mut self, bus: &mut B) -> Result<(), NotDone<B::Error>> {
        let mut failures = Failures::default();
        match Frames::of_job(self).carry_out(bus, &mut failures)? {
            None | Some(Step::Next) => Err(NotDone::Refused(Refusal::OtherFrame)),
            Some(Step::Done | Step::Learned) => Ok(()),
            Some(Step::Differs(word)) => Err(NotDone::Differs { word }),
            Some(Step::Unknown { .. }) if failures.is_answered => Err(NotDone::NoFormat),
            Some(Step::Unknown { fault }) => Err(NotDone::Unknown { error: failures.error, fault }),
        }
    }

    /// Begins a job and carries it out over a bus: what it is worth if it was done, and why if it wasn't.
    pub fn run_job<B: Bus>(&mut self, job: Job, bus: &mut B) -> Result<Done, NotDone<B::Error>> {
        self.begin(job)?;
        self.run(bus)?;
        let found = match job {
            Job::Order(cell, _) | Job::OrderMicrovolts(cell, _) | Job::Check(cell) => self.confirmed_word(cell)?.map(Done::Word),
            Job::Learn(output) => self.format(output)?.map(Done::Learned),
            Job::Clear(_) | Job::Store | Job::Restore => Some(Done::Acknowledged),
        };
        // A word that was read is confirmed, and a format that was learned is known.
        found.ok_or(NotDone::Unknown { error: None, fault: None })
    }

    /// Ends the open job, if one is: its frames that are left aren't sent, and end as failed, so that what is known stays
    /// true, as that a cell may hold its old word or the ordered one. `run` and the loops over it end each job by themselves. Who
    /// needs it leaves a loop of his own or a course in the midst, or has caught a panic of the bus.
    pub fn give_up(&mut self) {
        let mut is_open = true;
        while is_open {
            is_open = match self.frame() {
                Sending::Nothing => false,
                Sending::Write(_) => self.write_ended(false).is_ok(),
                Sending::Request { .. } => self.read_ended(&[]).is_ok(),
            };
        }
    }
}
