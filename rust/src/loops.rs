//! The one loop over frames, which carries a job and a course alike.

use crate::bus::{Bus, Operation};
use crate::course::Course;
use crate::host::{Host, Sending, Step};
use crate::packet::Packet;
use crate::patient::STORE_USER_ALL;
use crate::refusal::Refusal;

/// What failed in the transactions of a job or of a course.
pub(crate) struct Failures<E> {
    /// What the bus said of the last transaction that failed.
    pub(crate) error: Option<E>,
    /// Whether the last request had a good answer. A job that is unknown then was a learn, and the answer names no format.
    pub(crate) is_answered: bool,
}

impl<E> Default for Failures<E> {
    fn default() -> Failures<E> {
        Failures { error: None, is_answered: false }
    }
}

impl<E> Failures<E> {
    /// Judges what came back for a request, the read address first.
    fn answered(&mut self, request: &[u8], came: &[u8]) {
        let address = request[0] >> 1;
        self.is_answered = Packet::read_request(address, request).and_then(|it| it.read_answer(address, came)).is_ok();
    }
}

/// What hands out frames and hears what became of them: the open job of a host, or a course.
pub(crate) struct Frames<'a> {
    host: &'a mut Host,
    course: Option<&'a mut Course>,
}

impl<'a> Frames<'a> {
    /// Those of the host's open job.
    pub(crate) fn of_job(host: &'a mut Host) -> Frames<'a> {
        Frames { host, course: None }
    }

    /// Those of a course.
    pub(crate) fn of_course(host: &'a mut Host, course: &'a mut Course) -> Frames<'a> {
        Frames { host, course: Some(course) }
    }

    fn first(&mut self) -> Result<Sending, Refusal> {
        match &mut self.course {
            Some(course) => course.frame(self.host),
            None => Ok(self.host.frame()),
        }
    }

    fn after_write(&mut self, acked: bool) -> Result<(Step, Sending), Refusal> {
        match &mut self.course {
            Some(course) => course.after_write(self.host, acked, false),
            None => Ok((self.host.write_ended(acked)?, self.host.frame())),
        }
    }

    fn after_read(&mut self, bytes: &[u8]) -> Result<(Step, Sending), Refusal> {
        match &mut self.course {
            Some(course) => course.after_read(self.host, bytes, false),
            None => Ok((self.host.read_ended(bytes)?, self.host.frame())),
        }
    }

    /// Sends frame after frame over a bus until none is left: the last step, `None` if there was no frame. A store, which wears
    /// the part's memory, is sent once: its later passes end as not acknowledged, unsent.
    pub(crate) fn carry_out<B: Bus>(&mut self, bus: &mut B, failures: &mut Failures<B::Error>) -> Result<Option<Step>, Refusal> {
        let (mut last, mut has_stored, mut sending) = (None, false, self.first()?);
        loop {
            let (step, next) = match sending {
                Sending::Nothing => return Ok(last),
                Sending::Write(_) if has_stored => self.after_write(false)?,
                Sending::Write(frame) => {
                    has_stored = frame[1..frame.len() - 1] == [STORE_USER_ALL];
                    self.written(bus, &frame, failures)?
                }
                Sending::Request { frame, answer } => self.asked(bus, &frame, answer, failures)?,
            };
            (last, sending) = (Some(step), next);
        }
    }

    fn written<B: Bus>(
        &mut self,
        bus: &mut B,
        frame: &[u8],
        failures: &mut Failures<B::Error>,
    ) -> Result<(Step, Sending), Refusal> {
        let ended = bus.transaction(frame[0] >> 1, &mut [Operation::Write(&frame[1..])]);
        let acked = ended.is_ok();
        failures.error = ended.err().or(failures.error.take());
        self.after_write(acked)
    }

    fn asked<B: Bus>(
        &mut self,
        bus: &mut B,
        frame: &[u8],
        answer: usize,
        failures: &mut Failures<B::Error>,
    ) -> Result<(Step, Sending), Refusal> {
        let mut bytes = [0; 8];
        let came = &mut bytes[..answer.min(8)];
        let mut operations = [Operation::Write(&frame[1..]), Operation::Read(&mut came[1..])];
        let ended = bus.transaction(frame[0] >> 1, &mut operations);
        failures.is_answered = false;
        if let Err(why) = ended {
            failures.error = Some(why);
            return self.after_read(&[]);
        }
        came[0] = frame[0] | 1;
        failures.answered(frame, came);
        self.after_read(came)
    }
}
