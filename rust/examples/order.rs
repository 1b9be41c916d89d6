//! An order over a scripted bus: it prints what `examples/c/order.c` does.

use pmhost::{Cell, Host, Refusal, Register, Sending, Step};

fn hex(bytes: &[u8]) -> String {
    bytes.iter().map(|byte| format!(" {byte:02X}")).collect()
}

fn main() -> Result<(), Refusal> {
    let command = Cell::Output(0, Register::VoutCommand);
    let mut host = Host::new(0x58, 2, 2)?;
    host.no_limits(0)?;
    host.order(command, 0x34CD)?;
    let end = loop {
        let step = match host.frame() {
            Sending::Nothing => return Ok(()),
            Sending::Write(frame) => {
                println!("write{}", hex(&frame));
                host.write_ended(false)?
            }
            Sending::Request { frame, answer } => {
                println!("request{}\nwants {answer} bytes", hex(&frame));
                host.read_ended(&[0xB1, 0x02, 0xCD, 0x34, 0xB9])?
            }
        };
        if step != Step::Next {
            break step;
        }
    };
    let kind = match end {
        Step::Next => 0,
        Step::Done => 1,
        Step::Differs(_) => 2,
        Step::Unknown { .. } => 3,
        Step::Learned => 4,
    };
    match host.confirmed_word(command)? {
        Some(word) => println!("ended {kind}, confirmed {word:04X}"),
        None => println!("ended {kind}, unknown 0000"),
    }
    Ok(())
}
