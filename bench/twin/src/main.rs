//! `twin [SIZE] < script`: prints what `line-run` has to print, with a trace of SIZE bytes
//! (65,536 where it is not given). Written from the rules in docs/ in the plainest way, apart
//! from the proved program, so that the two can be compared.

mod line;
mod machine;
mod step;
#[cfg(test)]
mod tests;
mod text;
mod trace;

use std::io::{self, Read, Write};

fn main() -> io::Result<()> {
    let size = match std::env::args().nth(1).map(|size| size.parse()) {
        None => 65_536,
        Some(Ok(size)) => size,
        Some(Err(_)) => return Err(io::Error::other("usage: twin [SIZE] < script")),
    };
    let mut script = Vec::new();
    io::stdin().take(trace::SCRIPT as u64 + 1).read_to_end(&mut script)?;
    let (trace, fault) = trace::run(&script, size);
    let mut out = io::stdout().lock();
    out.write_all(trace.as_bytes())?;
    if let Some(fault) = fault {
        out.write_all(fault.line().as_bytes())?;
    }
    out.flush()
}
