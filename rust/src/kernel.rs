//! The calls of Linux that a bus makes.

extern crate std;

use core::ffi::{c_int, c_ulong};
use core::marker::PhantomData;
use core::ptr;
use std::fs::{File, OpenOptions};
use std::io;
use std::os::fd::AsRawFd;

use crate::bus::Operation;

#[cfg(not(all(target_os = "linux", any(target_arch = "x86_64", target_arch = "aarch64", target_arch = "riscv64"))))]
compile_error!("the feature `linux` is of Linux on x86-64, aarch64 and riscv64, whose numbers stand here");

// Of linux/i2c-dev.h, linux/i2c.h, asm-generic/fcntl.h and asm-generic/signal-defs.h.
const I2C_SLAVE: c_ulong = 0x0703;
const I2C_FUNCS: c_ulong = 0x0705;
const I2C_RDWR: c_ulong = 0x0707;
const I2C_M_RD: u16 = 0x0001;
const F_OFD_SETLK: c_int = 37;
const F_WRLCK: i16 = 1;
const SIG_BLOCK: c_int = 0;
const SIG_SETMASK: c_int = 2;
/// Of what an adapter can do: plain transfers.
pub(crate) const I2C_FUNC_I2C: c_ulong = 0x0001;
/// The most bytes of a message, of drivers/i2c/i2c-dev.c.
const LONGEST: usize = 8192;

/// struct i2c_msg. Its pointer is valid for its length, and of a read for writing.
#[repr(C)]
pub(crate) struct Message<'a> {
    address: u16,
    flags: u16,
    length: u16,
    bytes: *mut u8,
    kept: PhantomData<&'a mut [u8]>,
}

impl<'a> Message<'a> {
    /// `None` if it is longer than the kernel takes.
    pub(crate) fn of(address: u8, operation: &'a mut Operation<'_>) -> Option<Message<'a>> {
        let (flags, bytes, length) = match operation {
            // The kernel reads what is written, and no more.
            Operation::Write(bytes) => (0, bytes.as_ptr().cast_mut(), bytes.len()),
            Operation::Read(bytes) => (I2C_M_RD, bytes.as_mut_ptr(), bytes.len()),
        };
        let length = u16::try_from(length).ok().filter(|it| usize::from(*it) <= LONGEST)?;
        Some(Message { address: address.into(), flags, length, bytes, kept: PhantomData })
    }

    /// The address that it goes to.
    #[cfg(test)]
    pub(crate) fn address(&self) -> u16 {
        self.address
    }

    /// Answers a read with nothing but this byte, in place of the kernel.
    #[cfg(test)]
    pub(crate) fn fill(&mut self, byte: u8) {
        if self.flags == I2C_M_RD {
            // SAFETY: the pointer is valid for the length, for writing.
            unsafe { self.bytes.write_bytes(byte, self.length.into()) };
        }
    }
}

/// struct i2c_rdwr_ioctl_data.
#[repr(C)]
struct Messages<'a> {
    first: *mut Message<'a>,
    count: u32,
}

/// struct flock of 64 bits.
#[repr(C)]
struct Lock {
    kind: i16,
    whence: i16,
    start: i64,
    length: i64,
    process: c_int,
}

/// sigset_t, of glibc and of musl.
#[repr(C)]
struct Signals([c_ulong; 16]);

extern "C" {
    fn ioctl(file: c_int, request: c_ulong, ...) -> c_int;
    fn fcntl(file: c_int, request: c_int, ...) -> c_int;
    fn sigfillset(signals: *mut Signals) -> c_int;
    fn pthread_sigmask(how: c_int, signals: *const Signals, before: *mut Signals) -> c_int;
}

/// The kernel's calls, which tests replace.
#[derive(Clone, Copy, Debug)]
pub(crate) struct Kernel {
    pub(crate) open: fn(&str) -> io::Result<File>,
    /// What the adapter can do.
    pub(crate) functions: fn(&File) -> io::Result<c_ulong>,
    /// Takes an address that no driver of the kernel holds.
    pub(crate) claim: fn(&File, u8) -> io::Result<()>,
    /// Locks an address for an open file.
    pub(crate) lock: fn(&File, u8) -> io::Result<()>,
    /// How many messages went.
    pub(crate) transfer: fn(&File, &mut [Message<'_>]) -> io::Result<usize>,
}

pub(crate) const KERNEL: Kernel = Kernel { open, functions, claim, lock, transfer };

fn open(path: &str) -> io::Result<File> {
    OpenOptions::new().read(true).write(true).open(path)
}

fn functions(file: &File) -> io::Result<c_ulong> {
    let mut found: c_ulong = 0;
    // SAFETY: the file is open, and the call writes a number to where it is told.
    answered(unsafe { ioctl(file.as_raw_fd(), I2C_FUNCS, ptr::from_mut(&mut found)) })?;
    Ok(found)
}

fn claim(file: &File, address: u8) -> io::Result<()> {
    // SAFETY: the file is open, and the call takes a number.
    answered(unsafe { ioctl(file.as_raw_fd(), I2C_SLAVE, c_ulong::from(address)) }).map(|_| ())
}

/// The lock is of the byte of the file at this place.
fn lock(file: &File, address: u8) -> io::Result<()> {
    let lock = Lock { kind: F_WRLCK, whence: 0, start: address.into(), length: 1, process: 0 };
    // SAFETY: the file is open, and the lock is read.
    answered(unsafe { fcntl(file.as_raw_fd(), F_OFD_SETLK, ptr::from_ref(&lock)) }).map(|_| ())
}

fn transfer(file: &File, messages: &mut [Message<'_>]) -> io::Result<usize> {
    let whole = Messages { first: messages.as_mut_ptr(), count: messages.len() as u32 };
    // SAFETY: the file is open, and the messages are as they say.
    answered(unsafe { ioctl(file.as_raw_fd(), I2C_RDWR, ptr::from_ref(&whole)) })
}

/// What a call answered, or the error that it left.
fn answered(number: c_int) -> io::Result<usize> {
    usize::try_from(number).map_err(|_| io::Error::last_os_error())
}

/// Holds all signals of this thread back until the call is over.
pub(crate) fn undisturbed<T>(call: impl FnOnce() -> T) -> T {
    let (mut all, mut before) = (Signals([0; 16]), Signals([0; 16]));
    // SAFETY: both sets are of the C library's size, and the calls write to nothing else.
    unsafe {
        sigfillset(&mut all);
        pthread_sigmask(SIG_BLOCK, &all, &mut before);
    }
    let answer = call();
    // SAFETY: as above.
    unsafe { pthread_sigmask(SIG_SETMASK, &before, ptr::null_mut()) };
    answer
}

#[cfg(test)]
mod tests {
    use super::*;
    use std::{env, format, fs, process, vec::Vec};

    #[test]
    fn an_address_is_locked_for_one_open_file() {
        let path = env::temp_dir().join(format!("pmhost-{}", process::id()));
        let open = || OpenOptions::new().read(true).write(true).create(true).truncate(false).open(&path).unwrap();
        let (one, other) = (open(), open());
        lock(&one, 0x58).unwrap();
        assert_eq!(lock(&other, 0x58).unwrap_err().kind(), io::ErrorKind::WouldBlock);
        for free in [0x57, 0x59] {
            lock(&other, free).unwrap();
        }
        drop(open()); // Another file that is closed frees nothing.
        assert!(lock(&other, 0x58).is_err());
        drop(one);
        lock(&other, 0x58).unwrap();
        fs::remove_file(&path).unwrap();
    }

    /// The numbers and sizes of include/uapi/linux/i2c-dev.h and i2c.h, asm-generic/fcntl.h and asm-generic/signal-defs.h: no test has a
    /// bus, and a call with another number opens none.
    #[test]
    fn the_numbers_are_those_of_linux() {
        assert_eq!((I2C_SLAVE, I2C_FUNCS, I2C_RDWR), (0x0703, 0x0705, 0x0707));
        assert_eq!((I2C_M_RD, I2C_FUNC_I2C, LONGEST), (1, 1, 8192));
        assert_eq!((F_OFD_SETLK, F_WRLCK, SIG_BLOCK, SIG_SETMASK), (37, 1, 0, 2));
        assert_eq!((size_of::<Message>(), size_of::<Messages>(), size_of::<Lock>()), (16, 16, 32));
    }

    #[test]
    fn another_file_is_no_bus() {
        let null = OpenOptions::new().read(true).write(true).open("/dev/null").unwrap();
        let went = transfer(&null, &mut [Message::of(0x58, &mut Operation::Write(&[0x10])).unwrap()]);
        for error in [functions(&null).unwrap_err(), claim(&null, 0x58).unwrap_err(), went.unwrap_err()] {
            assert_eq!(error.raw_os_error(), Some(25)); // ENOTTY
        }
    }

    /// The signals up to 31 that wait in this thread now.
    fn waiting() -> Vec<u32> {
        let mut now = Signals([0; 16]);
        // SAFETY: as in `undisturbed`; a set that isn't there changes nothing.
        unsafe { pthread_sigmask(SIG_BLOCK, ptr::null(), &mut now) };
        (1..=31).filter(|signal| now.0[0] >> (signal - 1) & 1 == 1).collect()
    }

    #[test]
    fn a_transfer_holds_all_signals_back() {
        let before = waiting();
        // SIGKILL and SIGSTOP can't be held back.
        assert!(undisturbed(waiting).into_iter().eq((1..=31).filter(|signal| ![9, 19].contains(signal))));
        assert_eq!(waiting(), before);
    }
}
