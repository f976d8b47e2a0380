//! dmasim in plain Rust, without proofs, beside which bench/measure times the proved program. It has `asm`, `dis`,
//! `plan` and `run`, without fills and checkpoints, and memories of up to 16 MiB. `workers N long|short COUNT` times
//! workers on its engine.

#![deny(unsafe_code)]

mod assembly;
mod chan;
mod compile;
mod engine;
mod history;
mod insn;
mod mem;
mod plan;
mod run;
mod statements;
mod text;
mod transfer;
mod words;
mod workers;

use std::fs::File;
use std::io::{self, Read, Write};
use std::os::fd::AsFd;
use std::process::ExitCode;

use assembly::{AsmCause, AsmFault, DisFault};
use insn::DecodeFault;
use text::{hex_pairs, push_program};
use words::Printed;

const MAX_INPUT: usize = 4_194_304;

/// A standard stream without the buffers of std's own, and whose faults are all reported.
fn stream(stream: impl AsFd) -> io::Result<File> {
    Ok(File::from(stream.as_fd().try_clone_to_owned()?))
}

/// The whole input, at most one byte more than is allowed. Any fault ends it.
fn read_input() -> io::Result<Vec<u8>> {
    let mut input = stream(io::stdin())?;
    let mut data = vec![0; MAX_INPUT + 1];
    let mut len = 0;
    while len < data.len() {
        match input.read(&mut data[len..])? {
            0 => break,
            count => len += count,
        }
    }
    data.truncate(len);
    Ok(data)
}

fn write_output(mut out: &[u8]) -> io::Result<()> {
    let mut output = stream(io::stdout())?;
    while !out.is_empty() {
        match output.write(out)? {
            0 => return Err(io::ErrorKind::WriteZero.into()),
            count => out = &out[count..],
        }
    }
    Ok(())
}

fn failed(text: String) -> Printed {
    Printed { out: text.into_bytes(), status: 1 }
}

fn no_memory() -> Printed {
    Printed { out: Vec::new(), status: 3 }
}

fn asm(data: &[u8]) -> Printed {
    let (line, cause) = match assembly::assemble(data) {
        Ok(program) => {
            let mut out = Vec::new();
            return match push_program(&mut out, &program) {
                Ok(()) => Printed { out, status: 0 },
                Err(_) => no_memory(),
            };
        }
        Err(AsmFault::NoMemory) => return no_memory(),
        Err(AsmFault::Line { line, cause }) => (line, cause),
    };
    let name = match cause {
        AsmCause::Mnemonic => "mnemonic",
        AsmCause::Operand => "operand",
        AsmCause::Range => "range",
        AsmCause::ProgramTooLong => "ProgramTooLong",
    };
    failed(format!("line {line}: {name}\n"))
}

/// The bytes that pairs of digits spell, or what is printed instead.
fn pairs(data: &[u8]) -> Result<Vec<u8>, Printed> {
    let mut bytes = Vec::new();
    bytes.try_reserve_exact(data.len() / 2).map_err(|_| no_memory())?;
    match hex_pairs(data, &mut bytes, |b| matches!(b, b' ' | b'\t' | b'\r' | b'\n')) {
        Ok(()) => Ok(bytes),
        Err(place) => {
            let line = 1 + data[..place].iter().filter(|&&b| b == b'\n').count();
            Err(failed(format!("line {line}: Hex\n")))
        }
    }
}

fn dis(data: &[u8]) -> Printed {
    let program = match pairs(data) {
        Ok(program) => program,
        Err(fault) => return fault,
    };
    match assembly::disassemble(&program) {
        Ok(out) => Printed { out, status: 0 },
        Err(DisFault::NoMemory) => no_memory(),
        Err(DisFault::At { offset, fault }) => failed(match fault {
            DecodeFault::Cut => format!("offset {offset}: Cut\n"),
            DecodeFault::Unknown(byte) => format!("offset {offset}: Unknown {byte:02X}\n"),
            DecodeFault::BadField => format!("offset {offset}: BadField\n"),
        }),
    }
}

fn printed(subcommand: fn(&[u8]) -> Printed) -> Printed {
    match read_input() {
        Err(_) => failed("input failed\n".into()),
        Ok(data) if data.len() > MAX_INPUT => failed("line 0: InputTooLong\n".into()),
        Ok(data) => subcommand(&data),
    }
}

fn main() -> ExitCode {
    let words: Vec<String> = std::env::args_os().skip(1).filter_map(|it| it.into_string().ok()).collect();
    if let [word, rest @ ..] = words.as_slice()
        && word == "workers"
    {
        return workers::workers(rest);
    }
    let mut arguments = std::env::args_os().skip(1);
    let name = arguments.next().filter(|_| arguments.next().is_none());
    let Printed { out, status } = match name.as_deref().and_then(|name| name.to_str()) {
        Some("asm") => printed(asm),
        Some("dis") => printed(dis),
        Some("plan") => printed(plan::plan),
        Some("run") => printed(run::run_script),
        _ => Printed { out: b"usage: dmasim asm|dis|plan|run|race\n".to_vec(), status: 2 },
    };
    match write_output(&out) {
        Ok(()) => ExitCode::from(status),
        Err(_) => ExitCode::FAILURE,
    }
}
