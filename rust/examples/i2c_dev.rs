//! An order over a bus of Linux, within limits: `i2c_dev --limit=3135000:3465000 /dev/i2c-1 58 0 3300000` orders 3.3 V of output 0 at
//! address 58, whose load tolerates 3.135 V to 3.465 V. It learns the output's format first. The status is 0 where the ordered word was read
//! back, 1 where it wasn't or was refused, 2 where an argument is none or the bus can't be used. Its sibling in C is
//! `examples/c/i2c_dev.c`.
//!
//! ```text
//! i2c_dev --limit=LEAST:MOST|--no-limit [--share-bus] [--patience=MS] BUS ADDRESS OUTPUT MICROVOLTS
//! i2c_dev [--share-bus] [--patience=MS] BUS ADDRESS store
//! ```

use pmhost::{Bus, Cell, Done, Host, Job, Limits, LinuxBus, NotDone, Operation, Patient, Register, SystemClock};
use std::error::Error;
use std::process::ExitCode;

/// A bus, and what became of the frames of the last job.
struct Counted<B> {
    bus: B,
    tried: usize,
    failed: usize,
    why: String,
}

impl<B: Bus<Error: Error>> Bus for Counted<B> {
    type Error = B::Error;

    fn transaction(&mut self, address: u8, operations: &mut [Operation<'_>]) -> Result<(), B::Error> {
        let ended = self.bus.transaction(address, operations);
        self.tried += 1;
        if let Err(why) = &ended {
            self.failed += 1;
            self.why = why.source().map_or_else(|| why.to_string(), ToString::to_string);
        }
        ended
    }
}

impl<B: Bus<Error: Error>> Counted<B> {
    fn new(bus: B) -> Counted<B> {
        Counted { bus, tried: 0, failed: 0, why: String::new() }
    }

    fn run_job(&mut self, host: &mut Host, job: Job) -> Result<Done, NotDone<B::Error>> {
        (self.tried, self.failed) = (0, 0);
        host.run_job(job, self)
    }

    /// Why a job didn't end well: which transfers failed, what the last answer had, or what else it means.
    fn say_why(&self, job: &str, end: &NotDone<B::Error>, otherwise: &str) {
        let mut parts = Vec::new();
        if self.failed > 0 {
            parts.push(format!("{} of {} transfers failed, the last: {}", self.failed, self.tried, self.why));
        }
        match end {
            NotDone::Refused(refusal) => parts.push(format!("refused: {refusal}")),
            NotDone::Unknown { fault: Some(fault), .. } => parts.push(format!("the last answer: {fault}")),
            NotDone::NoFormat => parts.push("the output's format is neither ULINEAR16 nor DIRECT".into()),
            _ if self.failed < self.tried => parts.push(otherwise.into()),
            _ => {}
        }
        eprintln!("i2c_dev: {job}: {}", parts.join("; "));
    }
}

const GIVE: &str = "give BUS ADDRESS OUTPUT MICROVOLTS, as /dev/i2c-1 58 0 3300000, or BUS ADDRESS store";
const GIVE_LIMITS: &str = "give what the load tolerates, as --limit=3135000:3465000 in microvolts, or --no-limit";

type Board = Patient<LinuxBus, SystemClock>;

/// What the command line asks for.
struct Asked {
    bus: u32,
    address: u8,
    voltage: Option<Voltage>,
    is_shared: bool,
    patience: Option<u32>,
}

/// A voltage of an output, and what its load tolerates, where that is given.
struct Voltage {
    output: u8,
    microvolts: i64,
    limits: Option<Limits>,
}

/// The status 2 where a line is held low, since nobody is behind an acknowledgement then.
fn held_low(bus: &Counted<Board>) -> Option<ExitCode> {
    let is_low = bus.bus.bus().is_held_low();
    is_low.then(|| unusable("a line is held low: address 02, which no part may have, acknowledges"))
}

/// Orders a voltage of an output within its limits, where it has some. Its format is learned first.
fn order<B: Bus<Error: Error>>(bus: &mut Counted<B>, address: u8, voltage: &Voltage) -> Result<ExitCode, pmhost::Refusal> {
    let Voltage { output, microvolts, limits } = *voltage;
    let mut host = Host::new(address, output + 1, 3)?;
    match limits {
        Some(limits) => host.set_limits(output, limits)?,
        None => host.no_limits(output)?,
    }
    let cell = Cell::Output(output, Register::VoutCommand);
    if let Err(end) = bus.run_job(&mut host, Job::Learn(output)) {
        bus.say_why("learn", &end, "no answer was good, or its format is neither ULINEAR16 nor DIRECT");
        return Ok(ExitCode::from(1));
    }
    let end = bus.run_job(&mut host, Job::OrderMicrovolts(cell, microvolts));
    let said = match &end {
        Err(NotDone::Refused(refusal)) => {
            eprintln!("i2c_dev: refused: {refusal}");
            return Ok(ExitCode::from(1));
        }
        Ok(_) => "done",
        Err(NotDone::Differs { .. }) => "differs",
        Err(NotDone::Unknown { .. } | NotDone::NoFormat) => "unknown",
    };
    match (host.confirmed_word(cell)?, host.format(output)?) {
        (Some(word), Some(format)) => println!("ended {said}, confirmed {word:04X}, {} uV", format.microvolts(word)?),
        _ => println!("ended {said}, the output may hold the old or the ordered word"),
    }
    match end {
        Ok(_) => return Ok(ExitCode::SUCCESS),
        Err(end @ NotDone::Differs { .. }) => {
            bus.say_why("order", &end, "the write was lost, or the part refused, limited or rounded the word");
        }
        Err(end) => bus.say_why("order", &end, "no answer was good"),
    }
    Ok(ExitCode::from(1))
}

/// Sends STORE_USER_ALL, once.
fn store(bus: &mut Counted<Board>, address: u8) -> Result<ExitCode, pmhost::Refusal> {
    let end = bus.run_job(&mut Host::new(address, 1, 3)?, Job::Store);
    if let Some(status) = held_low(bus) {
        return Ok(status);
    }
    println!("store {}", if end.is_ok() { "acknowledged" } else { "unknown" });
    Ok(match end {
        Ok(_) => ExitCode::SUCCESS,
        Err(end) => {
            bus.say_why("store", &end, "it wasn't acknowledged");
            ExitCode::from(1)
        }
    })
}

/// A whole number without a `+`, where it is in this range.
fn whole(what: &str, word: &str, base: u32, range: std::ops::RangeInclusive<i64>, give: &str) -> Result<i64, String> {
    let found = i64::from_str_radix(word, base).ok().filter(|it| !word.starts_with('+') && range.contains(it));
    found.ok_or_else(|| format!("{what} '{word}': give {give}"))
}

/// Limits in microvolts, as LEAST:MOST, within 1000 V.
fn limits_of(word: &str) -> Result<Limits, String> {
    let wrong = || format!("limit '{word}': give LEAST:MOST in microvolts, as 3135000:3465000");
    let (least, most) = word.split_once(':').ok_or_else(wrong)?;
    let number = |word| whole("limit", word, 10, -1_000_000_000..=1_000_000_000, "").map_err(|_| wrong());
    let limits = Limits { least: number(least)?, most: number(most)? };
    if limits.least > limits.most {
        Err(wrong())
    } else {
        Ok(limits)
    }
}

fn asked(words: impl Iterator<Item = String>) -> Result<Asked, String> {
    let (mut is_shared, mut is_unlimited, mut limits, mut patience, mut rest) = (false, false, None, None, Vec::new());
    for word in words {
        if word == "--share-bus" {
            is_shared = true;
        } else if word == "--no-limit" {
            is_unlimited = true;
        } else if let Some(given) = word.strip_prefix("--limit=") {
            limits = Some(limits_of(given)?);
        } else if let Some(given) = word.strip_prefix("--patience=") {
            patience = Some(whole("patience", given, 10, 0..=60_000, "milliseconds, 0 to 60000")? as u32);
        } else {
            rest.push(word);
        }
    }
    let rest: Vec<&str> = rest.iter().map(String::as_str).collect();
    let (path, address, voltage) = match rest[..] {
        [path, address, "store"] => (path, address, None),
        [path, address, output, volts] => (path, address, Some((output, volts))),
        _ => return Err(GIVE.into()),
    };
    let bus = path.strip_prefix("/dev/i2c-").and_then(|it| it.parse().ok());
    let bus = bus.ok_or_else(|| format!("bus '{path}': give /dev/i2c-N"))?;
    let digits = address.strip_prefix("0x").unwrap_or(address);
    let address = whole("address", digits, 16, 0x08..=0x77, "08 to 77, in hexadecimal")? as u8;
    let voltage = voltage.map(|(output, volts)| voltage_of(output, volts, limits)).transpose()?;
    if voltage.is_some() && limits.is_none() && !is_unlimited {
        return Err(GIVE_LIMITS.into());
    }
    Ok(Asked { bus, address, voltage, is_shared, patience })
}

fn voltage_of(output: &str, volts: &str, limits: Option<Limits>) -> Result<Voltage, String> {
    let output = whole("output", output, 10, 0..=7, "0 to 7")? as u8;
    let microvolts = whole("microvolts", volts, 10, i64::MIN..=i64::MAX, "a whole number, as 3300000 for 3.3 V")?;
    Ok(Voltage { output, microvolts, limits })
}

/// A line that says why nothing was sent.
fn unusable(why: impl std::fmt::Display) -> ExitCode {
    eprintln!("i2c_dev: {why}");
    ExitCode::from(2)
}

fn main() -> ExitCode {
    let asked = match asked(std::env::args().skip(1)) {
        Ok(asked) => asked,
        Err(why) => return unusable(why),
    };
    let open = if asked.is_shared { LinuxBus::shared } else { LinuxBus::open };
    let bus = match open(asked.bus, asked.address) {
        Ok(bus) => Patient::new(bus, SystemClock::default()),
        Err(why) => return unusable(why),
    };
    let bus = if let Some(milliseconds) = asked.patience { bus.with_patience(milliseconds) } else { bus };
    let mut bus = Counted::new(bus);
    if let Some(status) = held_low(&bus) {
        return status;
    }
    let ended = match &asked.voltage {
        Some(voltage) => order(&mut bus, asked.address, voltage),
        None => store(&mut bus, asked.address),
    };
    ended.unwrap_or_else(|refusal| {
        eprintln!("i2c_dev: refused: {refusal}");
        ExitCode::from(1)
    })
}

#[cfg(test)]
mod tests {
    use super::*;
    use pmhost::{Output, Part};

    fn words(line: &str) -> Result<Asked, String> {
        asked(line.split(' ').map(String::from))
    }

    #[test]
    fn an_order_without_limits_says_what_to_give() {
        assert_eq!(words("/dev/i2c-1 58 0 3300000").err().as_deref(), Some(GIVE_LIMITS));
        assert_eq!(words("--no-limit /dev/i2c-1 58 0 3300000 3135000").err().as_deref(), Some(GIVE));
        for wrong in ["3300000", "3.1:3.5", "3465000:3135000", "3135000:", "-1000000001:0"] {
            let said = format!("limit '{wrong}': give LEAST:MOST in microvolts, as 3135000:3465000");
            assert_eq!(words(&format!("--limit={wrong} /dev/i2c-1 58 0 3300000")).err(), Some(said));
        }
        assert!(words("--no-limit /dev/i2c-1 58 0 3300000").is_ok_and(|it| it.voltage.is_some_and(|it| it.limits.is_none())));
        assert!(words("/dev/i2c-1 58 store").is_ok_and(|it| it.voltage.is_none()));
    }

    #[test]
    fn an_order_beyond_its_limits_is_not_sent() {
        for (given, commanded) in [("12000000", 1_000_000), ("3300000", 3_300_048)] {
            let asked = words(&format!("/dev/i2c-1 0x58 0 {given} --limit=3135000:3465000 --share-bus --patience=5")).unwrap();
            assert_eq!((asked.bus, asked.address, asked.is_shared, asked.patience), (1, 0x58, true, Some(5)));
            let mut bus = Counted::new(Part::new(0x58, &[Output::default()], (1, 0, 3)).unwrap());
            order(&mut bus, 0x58, &asked.voltage.unwrap()).unwrap();
            assert_eq!(bus.bus.commanded_microvolts(0), Ok(commanded));
        }
    }
}
