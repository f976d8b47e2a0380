//! Carries out the calls of dmasim in the .test files and the rows of rows.txt by this crate, as the tests in C do by the
//! library.

mod words;

use dma330::{AssemblyFault, Bus, Controller, DisassemblyFault, Error, Explanation, Outcome, RunEnd, Start, Step, Steps};
use std::process::Command;
use words::{answer, groups, hex, lower, name, nothing, small, Transfer, Words};

const ROWS: &str = include_str!("../../../tests/c/rows.txt");
const RAM: usize = 1 << 16;
// The most steps to take that change nothing.
const IDLE: u32 = 100;

fn outcome_text(outcome: Outcome) -> String {
    format!("{:?} residue {}", outcome.result, outcome.residue)
}

fn step_text(step: Option<Step>) -> String {
    let Some(step) = step else {
        return "no_step".into();
    };
    let word = lower(step);
    match step {
        Step::Started { cookie } => format!("{word} {cookie}"),
        Step::Held { channel, cookie } => format!("{word} {channel} {cookie}"),
        Step::Waiting { event } => format!("{word} {event}"),
        Step::Finished { cookie, outcome } => format!("{word} {cookie} {}", outcome_text(outcome)),
        Step::Moved | Step::Nothing | Step::Paused | Step::Halted => word,
    }
}

fn end_text(end: RunEnd) -> String {
    let word = lower(end);
    match end {
        RunEnd::Ended { steps } => format!("{word} {steps}"),
        RunEnd::OutOfSteps => word,
        RunEnd::Waiting { event } => format!("{word} {event}"),
        RunEnd::Fault { fault, pc } => format!("{word} {fault:?} {pc}"),
    }
}

fn explanation_text(found: Explanation) -> String {
    let mut text = format!("{} {}", found.copied, found.steps);
    for it in found.src {
        text += &format!(" 0x{:X}+{}x{}", it.addr, it.len, it.times);
    }
    text += " to";
    for it in found.dst {
        text += &format!(" 0x{:X}+{}", it.addr, it.len);
    }
    if !found.zeros.is_empty() {
        text += " zeros";
    }
    for it in found.zeros {
        text += &format!(" 0x{:X}+{}", it.addr, it.len);
    }
    for it in found.events {
        text += &format!(" {} {} at {}", lower(it.kind), it.event, it.copied + it.cleared);
    }
    text
}

fn plan(transfer: &Transfer, bus: Bus) -> Result<Vec<u8>, Error> {
    match &transfer.src {
        Ok(src) => dma330::plan(src, &transfer.dst, transfer.events, bus),
        Err(byte) => dma330::plan_fill(*byte, &transfer.dst, transfer.events, bus),
    }
}

// Makes a call about a program.
fn program_call(call: &str, mut words: Words) -> Result<String, Error> {
    let bus = words.bus();
    match call {
        "explain" => {
            let (most, _room, program) = (words.number(), words.number(), words.bytes());
            dma330::explain(&program, bus, Start::default(), most).map(explanation_text)
        }
        "plan" => {
            let _room = words.number();
            plan(&words.transfer(), bus).map(|bytes| hex(&bytes))
        }
        _ => {
            let (_room, byte) = (words.number(), words.number());
            let (dst, events) = words.to_list();
            plan(&Transfer { src: Err(byte), dst, events }, bus).map(|bytes| hex(&bytes))
        }
    }
}

/// Carries out lines.
struct Runner {
    controller: Option<Controller>,
    ram: Vec<u8>,
}

impl Runner {
    fn new() -> Runner {
        Runner { controller: None, ram: vec![0; RAM] }
    }

    fn controller(&mut self) -> &mut Controller {
        self.controller.as_mut().expect("the group opened a controller")
    }

    fn open(&mut self, mut words: Words) -> Result<(), Error> {
        self.controller = Some(Controller::open(words.number(), small(words.number()))?);
        Ok(())
    }

    fn read(&mut self, mut words: Words) -> Result<String, Error> {
        let range = words.segment();
        let mut out = vec![0; range.len as usize];
        self.controller().read(range.addr, &mut out)?;
        let bytes: String = out.iter().map(|byte| format!(" {byte:02X}")).collect();
        Ok(format!("read 0x{:08X}{bytes}", range.addr))
    }

    fn submit(&mut self, channel: u8, transfer: &Transfer) -> Result<u32, Error> {
        match &transfer.src {
            Ok(src) => self.controller().submit(channel, src, &transfer.dst, transfer.events),
            Err(byte) => self.controller().submit_fill(channel, *byte, &transfer.dst, transfer.events),
        }
    }

    // Takes steps, each with a call of its own, but no more than IDLE that change nothing. Returns a line for each run
    // of equal answers.
    fn steps(&mut self, channel: u8, count: u32) -> String {
        let mut runs: Vec<(String, u32)> = Vec::new();
        let mut left = count;
        while left > 0 {
            let steps = self.controller().step(channel, 1);
            let now = answer(steps.map(|steps| step_text(steps.last)));
            let is_same = runs.last().map_or(false, |(last, _)| *last == now);
            if !is_same {
                runs.push((now, 0));
            }
            let (text, times) = runs.last_mut().expect("it has one");
            let is_idle = *times + 1 == IDLE && text != "moved";
            let taken = if is_idle { left } else { 1 };
            *times += taken;
            left -= taken;
        }
        runs.iter().map(|(text, times)| format!("step {channel} {text} x{times}\n")).collect()
    }

    // Copies or fills by channel 0, at once, with as few calls as possible.
    fn copy(&mut self, word: &str, transfer: &Transfer) -> Result<String, Error> {
        // (this tests the rules of the transfer)
        plan(transfer, Bus::Channel)?;
        let controller = self.controller();
        if controller.unfinished(0) > 0 || controller.step(0, 1)?.last != Some(Step::Nothing) {
            return Ok("refused ChannelInUse".into());
        }
        self.submit(0, transfer)?;
        self.controller().issue(0)?;
        self.controller().step(0, u32::MAX).map(|steps| format!("{word} {}", step_text(steps.last)))
    }

    fn totals(&mut self) -> String {
        let it = self.controller();
        format!("totals entries {} steps {} running {}", it.history_entries(), it.steps(), it.running_count())
    }

    // Makes a call, and returns its answer or its error.
    fn call(&mut self, call: &str, mut words: Words) -> Result<String, Error> {
        match call {
            "open" => self.open(words).map(nothing),
            "read" => self.read(words),
            "copy" => self.copy(call, &words.transfer()),
            "fill" => {
                let src = Err(words.number());
                let (dst, events) = words.to_list();
                self.copy(call, &Transfer { src, dst, events })
            }
            "raise" => self.controller().raise(small(words.number())).map(nothing),
            "unmark" | "uninject_errors" => self.controller().uninject_errors().map(nothing),
            "checkpoint" => self.controller().checkpoint().map(nothing),
            "totals" => Ok(self.totals()),
            "history_bytes" => Ok(self.controller().history_bytes().to_string()),
            "mark" | "inject_error" => {
                let (access, range) = (words.access(), words.segment());
                self.controller().inject_error(access, range).map(nothing)
            }
            "write" => {
                let (addr, bytes) = (words.number(), words.bytes());
                self.controller().write(addr, &bytes).map(nothing)
            }
            "close" => {
                self.controller = None;
                Ok(String::new())
            }
            "poke" => {
                let (at, bytes) = (words.number() as usize, words.bytes());
                self.ram[at..at + bytes.len()].copy_from_slice(&bytes);
                Ok(String::new())
            }
            "peek" => {
                let range = words.segment();
                Ok(hex(&self.ram[range.addr as usize..][..range.len as usize]))
            }
            "run_program" => {
                let (size, limit, program) = (words.number() as usize, words.number(), words.bytes());
                dma330::run_program(&program, &mut self.ram[..size], limit).map(end_text)
            }
            "assemble" => {
                let _room = words.number();
                dma330::assemble(&words.text()).map(|bytes| hex(&bytes))
            }
            "disassemble" => {
                let _room = words.number();
                let text = dma330::disassemble(&words.bytes())?;
                Ok(text.replace('\n', " / ").trim_end().to_string())
            }
            "explain" | "plan" | "plan_fill" => program_call(call, words),
            _ => self.channel_call(call, words),
        }
    }

    // Does the same for a call whose first argument is a channel.
    fn channel_call(&mut self, call: &str, mut words: Words) -> Result<String, Error> {
        let channel = words.channel();
        if call == "submit" {
            return self.submit(channel, &words.transfer()).map(|cookie| format!("cookie {cookie}"));
        }
        let controller = self.controller();
        match call {
            "issue" => controller.issue(channel).map(|count| format!("issued {count}")),
            "pause" => controller.pause(channel).map(nothing),
            "resume" => controller.resume(channel).map(nothing),
            "terminate" => controller.terminate(channel).map(|count| format!("aborted {count}")),
            "steps" => {
                let Steps { taken, last } = controller.step(channel, words.number())?;
                Ok(format!("steps {channel} taken {taken} {}", step_text(last)))
            }
            "status" => Ok(format!("status {}", name(controller.status(channel, words.number())))),
            "result" => {
                let outcome = controller.result(channel, words.number());
                Ok(format!("result {}", outcome.map_or("none".into(), outcome_text)))
            }
            "running" => Ok(match controller.running(channel) {
                Some(running) => format!("running {} stored {}", running.cookie, running.stored),
                None => "refused NotRunning".into(),
            }),
            "unfinished" => Ok(format!("unfinished {}", controller.unfinished(channel))),
            "forgotten" => Ok(format!("forgotten {}", controller.forgotten(channel))),
            _ => panic!("no call: {call}"),
        }
    }

    // Carries out a line, and returns the lines that it prints.
    fn carry_out(&mut self, line: &str) -> String {
        let mut words = Words(line);
        match words.next() {
            "memory" => {
                self.open(words).expect("a script's memory");
                String::new()
            }
            "step" => {
                let (channel, count) = (words.channel(), words.next());
                self.steps(channel, if count.is_empty() { 1 } else { words::number(count) })
            }
            word if word.is_empty() || word.starts_with('#') => String::new(),
            call => format!("{}\n", answer(self.call(call, words))),
        }
    }
}

#[test]
fn every_row_has_its_answer() {
    let groups = groups(ROWS);
    assert!(groups.len() > 12);
    let mut wrong = Vec::new();
    for (title, rows) in groups {
        let mut runner = Runner::new();
        for (line, wanted) in rows {
            let answer = runner.carry_out(line);
            if answer.trim_end() != wanted {
                wrong.push(format!("{title}: {line}: it prints {answer}, not {wanted}"));
            }
        }
    }
    assert!(wrong.is_empty(), "{}", wrong.join("\n"));
}

/// A call of dmasim in a .test file: its command and its title, its input and its output.
struct Call {
    words: String,
    input: String,
    output: String,
}

impl Call {
    // Reads the lines of a call, as tests/test_rows --plain prints them, without the `$ ` at the beginning.
    fn new(lines: &str) -> Call {
        let (words, lines) = lines.split_once('\n').unwrap_or((lines, ""));
        let mut call = Call { words: words.to_string(), input: String::new(), output: String::new() };
        for line in lines.split_terminator('\n') {
            match line.split_at(1) {
                ("<", line) => call.input += &format!("{line}\n"),
                ("|", line) => call.input += line,
                (_, line) => call.output += &format!("{line}\n"),
            }
        }
        call
    }

    // Returns what the call prints by calls of the library.
    fn printed(&self) -> String {
        match self.words.split(' ').next() {
            Some("asm") => asm(&self.input),
            Some("dis") => dis(&self.input),
            Some("plan") => plan_lines(&self.input),
            _ => {
                let mut runner = Runner::new();
                self.input.lines().map(|line| runner.carry_out(line)).collect()
            }
        }
    }
}

// Returns bytes as asm and plan print them, 16 to a line.
fn byte_lines(bytes: &[u8]) -> String {
    let pairs = |line: &[u8]| line.iter().map(|byte| format!("{byte:02X}")).collect::<Vec<_>>().join(" ");
    bytes.chunks(16).map(|line| pairs(line) + "\n").collect()
}

fn asm(text: &str) -> String {
    match dma330::assemble(text) {
        Ok(bytes) => byte_lines(&bytes),
        Err(Error::Assembly { line, fault }) => {
            let name = match fault {
                AssemblyFault::BadMnemonic => "mnemonic",
                AssemblyFault::BadOperand => "operand",
                AssemblyFault::NumberOutOfRange => "range",
                AssemblyFault::ProgramTooLong => "ProgramTooLong",
            };
            format!("line {line}: {name}\n")
        }
        Err(error) => panic!("{error}"),
    }
}

fn dis(text: &str) -> String {
    let program = Words(&text.replace(['\n', '\r'], " ")).bytes();
    match dma330::disassemble(&program) {
        Ok(text) => text,
        Err(Error::Disassembly { offset, fault }) => match fault {
            DisassemblyFault::CutInstruction => format!("offset {offset}: Cut\n"),
            DisassemblyFault::UnknownInstruction => format!("offset {offset}: Unknown {:02X}\n", program[offset]),
            DisassemblyFault::BadField => format!("offset {offset}: BadField\n"),
        },
        Err(error) => panic!("{error}"),
    }
}

fn plan_lines(text: &str) -> String {
    let is_skipped = |line: &str| matches!(Words(line).next().chars().next(), None | Some('#'));
    let (number, line) = (1..).zip(text.lines()).find(|(_, line)| !is_skipped(line)).expect("a transfer");
    match plan(&Words(line).transfer(), Bus::Channel) {
        Ok(bytes) => {
            let cost = dma330::explain(&bytes, Bus::Channel, Start::default(), 1_000_000).expect("a copy").steps;
            format!("{}bytes {}\ncost {cost}\n", byte_lines(&bytes), bytes.len())
        }
        Err(error) => format!("line {number}: {error:?}\n"),
    }
}

#[test]
fn every_call_of_dmasim_prints_what_it_should() {
    let command = concat!(env!("CARGO_MANIFEST_DIR"), "/../../tests/test_rows");
    let printed = Command::new(command).arg("--plain").output().expect("it runs").stdout;
    let text = String::from_utf8_lossy(&printed);
    let calls: Vec<Call> = text.strip_prefix("$ ").expect("a call").split("\n$ ").map(Call::new).collect();
    assert!(calls.len() > 300, "{} calls", calls.len());
    let wrong = calls.iter().map(|call| (call, call.printed())).filter(|(call, printed)| *printed != call.output);
    let texts: Vec<_> = wrong.map(|(it, printed)| format!("{}\n{}prints\n{printed}", it.words, it.input)).collect();
    assert!(texts.is_empty(), "{}", texts.join("\n"));
}
