//! A whole script: its trace, the cells, and the fault that ended it.

use crate::line::{Answer, Line};
use crate::step::{self, Flaw};
use crate::text;

/// The longest script, in bytes.
pub const SCRIPT: usize = 65_536;
/// The room that a record of the trace may need, in bytes.
const ROOM: usize = 48;

/// What ended a script early: its number, the record from 1 and the byte from 0.
#[derive(Clone, Copy, Debug, PartialEq, Eq)]
pub struct Fault {
    pub number: u8,
    pub record: usize,
    pub offset: usize,
}

impl Fault {
    /// The fault as the record that is printed behind the trace.
    pub fn line(self) -> String {
        format!("F,{},{},{}\r\n", self.number, self.record, self.offset)
    }
}

/// Runs a script on a new line, with a trace of at most `size` bytes.
pub fn run(script: &[u8], size: usize) -> (String, Option<Fault>) {
    let mut trace = String::new();
    let fault = fill(script, size, &mut trace).err();
    (trace, fault)
}

fn fill(script: &[u8], size: usize, trace: &mut String) -> Result<(), Fault> {
    if script.len() > SCRIPT {
        return Err(Fault { number: 20, record: 0, offset: 0 });
    }
    let mut line = Line::default();
    let (mut start, mut record) = (0, 0);
    while start < script.len() {
        record += 1;
        let fault = |number, offset| Fault { number, record, offset };
        if size - trace.len() < ROOM {
            return Err(fault(26, start));
        }
        let cut = text::cut(script, start).map_err(|offset| fault(21, offset))?;
        let call = step::read(&cut).map_err(|flaw| match flaw {
            Flaw::NotSevenFields => fault(22, start),
            Flaw::UnknownLetter(offset) => fault(23, offset),
            Flaw::NoNumber(offset) => fault(24, offset),
            Flaw::NotEmpty(offset) => fault(25, offset),
        })?;
        let text = match line.ask(call) {
            Ok(Answer { number, timestamp }) => {
                format!("{record},0,{},{}\r\n", show(number), show(timestamp))
            }
            Err(refusal) => format!("{record},{},,\r\n", refusal as u8),
        };
        trace.push_str(&text);
        start = cut.end;
    }
    for (member, cells) in line.cells().enumerate() {
        for (index, cell) in cells.iter().enumerate() {
            if size - trace.len() < ROOM {
                return Err(Fault { number: 26, record: 0, offset: script.len() });
            }
            trace.push_str(&format!("C,{member},{index},{cell}\r\n"));
        }
    }
    Ok(())
}

fn show(number: Option<u64>) -> String {
    number.map_or(String::new(), |number| number.to_string())
}
