//! Carries out scripts of `run`.

use crate::engine::Engine;
use crate::history::{EngineFault, Outcome, Status, TransResult, Turn};
use crate::mem::{NoMemory, Segment};
use crate::statements::{Command, Script};
use crate::text::{push_bytes, push_decimal, push_hex32};
use crate::transfer::{Transfer, TransferFault};
use crate::words::{Printed, faulty};

/// What ends a line early: a refusal to print, or out of memory.
enum Refusal {
    Named(&'static str),
    Engine(EngineFault),
}

impl From<EngineFault> for Refusal {
    fn from(fault: EngineFault) -> Self {
        Refusal::Engine(fault)
    }
}

impl From<NoMemory> for Refusal {
    fn from(fault: NoMemory) -> Self {
        Refusal::Engine(fault.into())
    }
}

impl From<TransferFault> for Refusal {
    fn from(fault: TransferFault) -> Self {
        match fault {
            TransferFault::NoMemory => Refusal::Engine(EngineFault::NoMemory),
            fault => Refusal::Named(fault.name()),
        }
    }
}

pub fn run_script(data: &[u8]) -> Printed {
    let script = match Script::parse(data) {
        Ok(script) => script,
        Err((line, fault)) => return faulty(line, fault),
    };
    let (size, channels) = script.memory.expect("a parsed script has a memory line");
    let Ok(engine) = Engine::new(size, channels) else {
        return Printed { out: Vec::new(), status: 3 };
    };
    let mut runner = Runner { engine, out: Vec::new() };
    let mut status = 0;
    for &command in &script.commands {
        let start = runner.out.len();
        if runner.carry_out(&script, command).is_err() {
            runner.out.truncate(start);
            status = 3;
            break;
        }
    }
    let Runner { engine, out } = runner;
    // The process ends soon, so the history isn't freed.
    std::mem::forget((engine, script));
    Printed { out, status }
}

struct Runner {
    engine: Engine,
    out: Vec<u8>,
}

impl Runner {
    fn carry_out(&mut self, script: &Script, command: Command) -> Result<(), NoMemory> {
        // The longest line but that of read, which makes its own room.
        self.out.try_reserve(128)?;
        let refusal = match self.call(script, command) {
            Ok(()) => return Ok(()),
            Err(refusal) => refusal,
        };
        self.text("refused ");
        match refusal {
            Refusal::Named(name) => self.text(name),
            Refusal::Engine(EngineFault::NoMemory) => return Err(NoMemory),
            Refusal::Engine(fault) => self.fault(fault),
        }
        self.out.push(b'\n');
        Ok(())
    }

    fn call(&mut self, script: &Script, command: Command) -> Result<(), Refusal> {
        match command {
            Command::Write { addr, bytes } => self.engine.write(addr, &script.bytes[bytes.range()])?,
            Command::Pause(ch) => self.engine.pause(ch)?,
            Command::Resume(ch) => self.engine.resume(ch)?,
            Command::Mark { kind, segment } => self.engine.mark(kind, segment)?,
            Command::Unmark => self.engine.unmark()?,
            Command::Raise(event) => self.engine.raise(event)?,
            Command::Read(segment) => return self.read(segment),
            Command::Copy { lists } => return self.copy(script.transfer(lists)?),
            Command::Submit { ch, lists } => {
                let cookie = self.engine.submit(ch, script.transfer(lists)?)?;
                return self.counted("cookie ", cookie);
            }
            Command::Issue(ch) => {
                let count = self.engine.issue(ch)?;
                return self.counted("issued ", count);
            }
            Command::Terminate(ch) => {
                let count = self.engine.terminate(ch)?;
                return self.counted("aborted ", count);
            }
            Command::Step { ch, count } => return self.step(ch, count),
            Command::Status { ch, cookie } => return self.status(ch, cookie),
            Command::Result { ch, cookie } => return self.result(ch, cookie),
            Command::Totals => return self.totals(),
        }
        self.text("ok\n");
        Ok(())
    }

    fn status(&mut self, ch: u8, cookie: u32) -> Result<(), Refusal> {
        self.text(match self.engine.status(ch, cookie) {
            Status::Unknown => "status Unknown\n",
            Status::InProgress => "status InProgress\n",
            Status::Complete => "status Complete\n",
        });
        Ok(())
    }

    fn result(&mut self, ch: u8, cookie: u32) -> Result<(), Refusal> {
        match self.engine.result(ch, cookie) {
            None => self.text("result none"),
            Some(outcome) => {
                self.text("result ");
                self.outcome(outcome);
            }
        }
        self.out.push(b'\n');
        Ok(())
    }

    fn totals(&mut self) -> Result<(), Refusal> {
        self.text("totals entries ");
        self.number(self.engine.history().len() as u64);
        self.text(" steps ");
        self.number(self.engine.steps());
        self.text(" running ");
        self.number(self.engine.running() as u64);
        self.out.push(b'\n');
        Ok(())
    }

    fn read(&mut self, segment: Segment) -> Result<(), Refusal> {
        let bytes = self.engine.read(segment)?;
        self.out.extend_from_slice(b"read 0x");
        push_hex32(&mut self.out, segment.addr);
        push_bytes(&mut self.out, bytes)?;
        self.out.try_reserve(1).map_err(NoMemory::from)?;
        self.out.push(b'\n');
        Ok(())
    }

    fn copy(&mut self, transfer: Transfer) -> Result<(), Refusal> {
        if self.engine.in_use(0) {
            return Err(Refusal::Named("ChannelInUse"));
        }
        self.engine.submit(0, transfer)?;
        self.engine.issue(0)?;
        let answer = loop {
            match self.engine.step(0) {
                Ok(Turn::Started(_) | Turn::Moved) => {}
                answer => break answer,
            }
        };
        self.text("copy ");
        self.answer(answer)?;
        self.out.push(b'\n');
        Ok(())
    }

    fn step(&mut self, ch: u8, count: u32) -> Result<(), Refusal> {
        let mut last = self.engine.step(ch);
        let mut times = 1;
        for _ in 1..count {
            let answer = self.engine.step(ch);
            if answer == last {
                times += 1;
            } else {
                self.answers(ch, last, times)?;
                last = answer;
                times = 1;
            }
        }
        self.answers(ch, last, times)
    }

    /// A line for a run of equal answers.
    fn answers(&mut self, ch: u8, answer: Result<Turn, EngineFault>, times: u32) -> Result<(), Refusal> {
        self.out.try_reserve(128).map_err(NoMemory::from)?;
        self.text("step ");
        self.number(ch);
        self.out.push(b' ');
        self.answer(answer)?;
        self.text(" x");
        self.number(times);
        self.out.push(b'\n');
        Ok(())
    }

    fn answer(&mut self, answer: Result<Turn, EngineFault>) -> Result<(), Refusal> {
        match answer {
            Ok(Turn::Nothing) => self.text("nothing"),
            Ok(Turn::Held { ch, cookie }) => {
                self.text("held ");
                self.number(ch);
                self.out.push(b' ');
                self.number(cookie);
            }
            Ok(Turn::Started(cookie)) => {
                self.text("started ");
                self.number(cookie);
            }
            Ok(Turn::Moved) => self.text("moved"),
            Ok(Turn::Waiting(event)) => {
                self.text("waiting ");
                self.number(event);
            }
            Ok(Turn::Paused) => self.text("paused"),
            Ok(Turn::Halted) => self.text("halted"),
            Ok(Turn::Finished { cookie, outcome }) => {
                self.text("finished ");
                self.number(cookie);
                self.out.push(b' ');
                self.outcome(outcome);
            }
            Err(EngineFault::NoMemory) => return Err(NoMemory.into()),
            Err(fault) => {
                self.text("refused ");
                self.fault(fault);
            }
        }
        Ok(())
    }

    fn outcome(&mut self, outcome: Outcome) {
        self.text(match outcome.result {
            TransResult::NoError => "NoError residue ",
            TransResult::ReadFailed => "ReadFailed residue ",
            TransResult::WriteFailed => "WriteFailed residue ",
            TransResult::Aborted => "Aborted residue ",
        });
        self.number(outcome.residue);
    }

    fn fault(&mut self, fault: EngineFault) {
        self.text(match fault {
            EngineFault::OutOfMemoryRange => "OutOfMemoryRange",
            EngineFault::NoChannel => "NoChannel",
            EngineFault::CookiesSpent => "CookiesSpent",
            EngineFault::StepsSpent => "StepsSpent",
            EngineFault::BadEvent => "BadEvent",
            EngineFault::BadRange => "BadRange",
            EngineFault::NoMemory => "NoMemory",
            EngineFault::Busy { ch, cookie } => {
                self.text("Busy ");
                self.number(ch);
                self.out.push(b' ');
                return self.number(cookie);
            }
        });
    }

    fn counted(&mut self, name: &str, count: u32) -> Result<(), Refusal> {
        self.text(name);
        self.number(count);
        self.out.push(b'\n');
        Ok(())
    }

    fn text(&mut self, text: &str) {
        self.out.extend_from_slice(text.as_bytes());
    }

    fn number(&mut self, number: impl Into<u64>) {
        push_decimal(&mut self.out, number.into());
    }
}
