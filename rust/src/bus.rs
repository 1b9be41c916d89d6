//! What a host needs of a bus, in the shape of embedded-hal's I2C.

use crate::host::Sending;
use crate::patient::is_ones;

/// One part of a transaction, as in embedded-hal.
#[derive(Debug)]
pub enum Operation<'a> {
    /// Reads to the buffer.
    Read(&'a mut [u8]),
    /// Writes these bytes.
    Write(&'a [u8]),
}

/// A bus. A board's own type over embedded-hal is a few lines, with an error that [`Patient`](crate::Patient) asks whether anybody
/// heard, and that is an error of `core`, so that `?` hands it on:
///
/// ```
/// # mod embedded_hal { pub mod i2c {
/// #     pub enum Operation<'a> { Read(&'a mut [u8]), Write(&'a [u8]) }
/// #     #[derive(Clone, Copy, Debug, PartialEq)] pub enum NoAcknowledgeSource { Address, Data }
/// #     #[derive(Clone, Copy, Debug, PartialEq)] pub enum ErrorKind { Bus, NoAcknowledge(NoAcknowledgeSource) }
/// #     impl core::fmt::Display for ErrorKind {
/// #         fn fmt(&self, to: &mut core::fmt::Formatter<'_>) -> core::fmt::Result { write!(to, "{self:?}") }
/// #     }
/// #     pub trait Error: core::fmt::Debug { fn kind(&self) -> ErrorKind; }
/// #     impl Error for ErrorKind { fn kind(&self) -> ErrorKind { *self } }
/// #     pub trait ErrorType { type Error: Error; }
/// #     pub trait I2c: ErrorType {
/// #         fn transaction(&mut self, address: u8, operations: &mut [Operation<'_>]) -> Result<(), Self::Error>;
/// #     }
/// # } }
/// use core::{error, fmt};
/// use embedded_hal::i2c::{Error, ErrorKind, I2c, NoAcknowledgeSource, Operation as Hal};
/// use pmhost::{Bus, Operation, Unheard};
///
/// struct Board<I>(I);
///
/// #[derive(Debug)]
/// struct BoardError<E>(E);
///
/// impl<I: I2c> Bus for Board<I> {
///     type Error = BoardError<I::Error>;
///
///     fn transaction(&mut self, address: u8, operations: &mut [Operation<'_>]) -> Result<(), BoardError<I::Error>> {
///         match operations {
///             [Operation::Write(bytes)] => self.0.transaction(address, &mut [Hal::Write(bytes)]),
///             [Operation::Write(bytes), Operation::Read(answer)] => {
///                 self.0.transaction(address, &mut [Hal::Write(bytes), Hal::Read(answer)])
///             }
///             _ => unreachable!("a host asks for no other transaction"),
///         }
///         .map_err(BoardError)
///     }
/// }
///
/// impl<E: Error> Unheard for BoardError<E> {
///     fn is_unheard(&self) -> bool {
///         self.0.kind() == ErrorKind::NoAcknowledge(NoAcknowledgeSource::Address)
///     }
/// }
///
/// impl<E: Error> fmt::Display for BoardError<E> {
///     fn fmt(&self, to: &mut fmt::Formatter<'_>) -> fmt::Result {
///         write!(to, "{}", self.0.kind())
///     }
/// }
///
/// impl<E: Error> error::Error for BoardError<E> {}
///
/// # struct Dead;
/// # impl embedded_hal::i2c::ErrorType for Dead { type Error = ErrorKind; }
/// # impl I2c for Dead {
/// #     fn transaction(&mut self, _: u8, _: &mut [Hal<'_>]) -> Result<(), ErrorKind> {
/// #         Err(ErrorKind::NoAcknowledge(NoAcknowledgeSource::Address))
/// #     }
/// # }
/// # #[derive(Default)]
/// # struct Ticks(u32);
/// # impl pmhost::Clock for Ticks {
/// #     fn now(&mut self) -> u32 { self.0 }
/// #     fn wait(&mut self, milliseconds: u32) { self.0 += milliseconds; }
/// # }
/// use pmhost::{Clock, Done, Host, Job, Patient};
///
/// fn learn(i2c: impl I2c<Error: 'static>, clock: impl Clock) -> Result<Done, Box<dyn error::Error>> {
///     Ok(Host::new(0x58, 1, 3)?.run_job(Job::Learn(0), &mut Patient::new(Board(i2c), clock))?)
/// }
/// # assert!(learn(Dead, Ticks::default()).unwrap_err().to_string().ends_with("a transfer failed"));
/// ```
pub trait Bus {
    /// Why a transaction failed. The last one is handed on by `NotDone::Unknown`, as its source if this type is an
    /// error of `core`.
    type Error;

    /// Carries one transaction out with the part at this 7-bit address: a write and a stop, or a write, a repeated start
    /// and a read. The packet error code is among the bytes. An error is a frame that failed: the host tries again by
    /// itself, so this call mustn't; nor may it leave an older answer in the buffer, which is zeros before.
    fn transaction(&mut self, address: u8, operations: &mut [Operation<'_>]) -> Result<(), Self::Error>;

    /// Sends a frame of a list, as [`Sequence::run`](crate::Sequence::run) asks for it: of a request, how many bytes came, which stand in
    /// `answer`. Of nothing but FFh none came: nobody drives the bus.
    fn send(&mut self, frame: &Sending, answer: &mut [u8]) -> Result<usize, Self::Error> {
        match frame {
            Sending::Nothing => Ok(0),
            Sending::Write(bytes) => self.transaction(bytes[0] >> 1, &mut [Operation::Write(&bytes[1..])]).map(|()| 0),
            Sending::Request { frame, .. } => {
                let mut operations = [Operation::Write(&frame[1..]), Operation::Read(&mut *answer)];
                self.transaction(frame[0] >> 1, &mut operations)?;
                Ok(if is_ones(answer) { 0 } else { answer.len() })
            }
        }
    }
}

impl<B: Bus + ?Sized> Bus for &mut B {
    type Error = B::Error;

    fn transaction(&mut self, address: u8, operations: &mut [Operation<'_>]) -> Result<(), B::Error> {
        (**self).transaction(address, operations)
    }
}
