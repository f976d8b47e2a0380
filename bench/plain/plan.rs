//! The line of `plan`.

use crate::compile::compile;
use crate::statements::{ListsForm, Script, WideLists};
use crate::text::push_program;
use crate::transfer::TransferFault;
use crate::words::{LineFault, Printed, Words, are_printable, faulty, lines};

pub fn plan(data: &[u8]) -> Printed {
    match plan_line(data) {
        Ok(printed) => printed,
        Err((line, fault)) => faulty(line, fault),
    }
}

fn plan_line(data: &[u8]) -> Result<Printed, (usize, LineFault)> {
    let mut script = Script::default();
    let mut found = None;
    for (number, line) in lines(data) {
        let words = Words { rest: line };
        if matches!({ words }.next(), None | Some([b'#', ..])) {
            continue;
        }
        let at = |fault| (number, fault);
        if !are_printable(line) {
            return Err(at(LineFault::Byte));
        }
        if found.is_some() {
            return Err(at(LineFault::Words));
        }
        let form = ListsForm::parse(words).map_err(at)?;
        let lists = script.lists(form).and_then(WideLists::narrow).map_err(at)?;
        found = Some((number, script.keep(lists).map_err(|_| at(LineFault::NoMemory))?));
    }
    let (number, lists) = found.ok_or((0, LineFault::First))?;
    let transfer = match script.transfer(lists) {
        Ok(transfer) => transfer,
        Err(TransferFault::NoMemory) => return Err((number, LineFault::NoMemory)),
        Err(fault) => {
            let out = format!("line {number}: {}\n", fault.name()).into_bytes();
            return Ok(Printed { out, status: 1 });
        }
    };
    let mut program = Vec::new();
    let cost = compile(&transfer, &mut program);
    let mut out = Vec::new();
    push_program(&mut out, &program).map_err(|_| (number, LineFault::NoMemory))?;
    out.extend_from_slice(format!("bytes {}\ncost {cost}\n", program.len()).as_bytes());
    Ok(Printed { out, status: 0 })
}
