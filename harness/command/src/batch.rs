//! Many sheets on standard input, or sheets and lists by turns: a length in two bytes, the most significant first, then so many
//! bytes; a line each, in order. Other engines drive the judge so: whoever writes one sheet and waits gets its line at once,
//! since what was told goes out before each wait for more input.

use crate::{complain, DONE, FAILED};
use std::io::{self, BufRead, BufWriter, Read, Write};

const CHUNK: usize = 1 << 16;

/// What ended a batch before its end.
enum Ended {
    Inside(u64, &'static str),
    Reading(io::Error),
    Writing(io::Error),
}

/// `parts` are called so; `tell` gets the number of the case, counted from 0, and its parts, and writes what is told of it.
pub fn run<const N: usize>(
    parts: [&'static str; N],
    tell: impl FnMut(u64, &[Vec<u8>; N], &mut dyn Write) -> io::Result<()>,
) -> u8 {
    let input = io::BufReader::with_capacity(CHUNK, io::stdin().lock());
    let output = BufWriter::with_capacity(CHUNK, io::stdout().lock());
    let all = parts.join("s and ");
    match each(parts, tell, input, output) {
        Ok(()) => return DONE,
        Err(Ended::Inside(n, part)) => complain(format!(
            "standard input ends inside {part} {n} (counted from 0): give each {} whole, behind its length in two bytes",
            parts.join(" and each ")
        )),
        Err(Ended::Reading(e)) => {
            complain(format!("standard input: reading it failed ({e}): give the {all}s by a pipe or a file"))
        }
        Err(Ended::Writing(e)) => {
            complain(format!("a line could not be written ({e}): see that standard output is open and has room"))
        }
    }
    FAILED
}

fn each<const N: usize>(
    called: [&'static str; N],
    mut tell: impl FnMut(u64, &[Vec<u8>; N], &mut dyn Write) -> io::Result<()>,
    mut input: io::BufReader<impl Read>,
    mut output: impl Write,
) -> Result<(), Ended> {
    let mut parts = [(); N].map(|()| Vec::with_capacity(CHUNK));
    for n in 0.. {
        if !more(&mut input, &mut output)? {
            break;
        }
        for (part, called) in parts.iter_mut().zip(called) {
            let mut length = [0; 2];
            exact(&mut input, &mut output, &mut length, (n, called))?;
            part.resize(usize::from(u16::from_be_bytes(length)), 0);
            exact(&mut input, &mut output, part, (n, called))?;
        }
        tell(n, &parts, &mut output).map_err(Ended::Writing)?;
    }
    output.flush().map_err(Ended::Writing)
}

/// Whether there is another byte; where that takes a wait, what was told goes out first.
fn more(input: &mut io::BufReader<impl Read>, output: &mut impl Write) -> Result<bool, Ended> {
    if !input.buffer().is_empty() {
        return Ok(true);
    }
    output.flush().map_err(Ended::Writing)?;
    loop {
        match input.fill_buf() {
            Ok(there) => return Ok(!there.is_empty()),
            Err(e) if e.kind() == io::ErrorKind::Interrupted => {}
            Err(e) => return Err(Ended::Reading(e)),
        }
    }
}

fn exact(
    input: &mut io::BufReader<impl Read>,
    output: &mut impl Write,
    to: &mut [u8],
    (n, called): (u64, &'static str),
) -> Result<(), Ended> {
    if input.buffer().len() < to.len() {
        output.flush().map_err(Ended::Writing)?;
    }
    input.read_exact(to).map_err(|e| match e.kind() {
        io::ErrorKind::UnexpectedEof => Ended::Inside(n, called),
        _ => Ended::Reading(e),
    })
}
