//! Replays of an input, as a caller of the library asks for them.
//!
//! A block begins with `program` and an input, with ` ; ` in place of each line feed. `run OPTIONS` replays it into a writer that keeps each octet;
//! of `failing COUNT OPTIONS` that writer fails once, after this many octets, and would then go on. Answers are `ok` or `refused` and the name of the
//! fault, of which two have one text, then how many octets were kept, and these.

use crate::Layer;
use crate::words::Words;
use command_line::{Printer, Reader, run};
use std::alloc::Global;
use std::io;
use std::io::{Cursor, Write};

/// An input.
#[derive(Drop)]
pub struct Program {
    input: String,
}

/// The input that a block's first row has.
pub fn opened(alloc: Global, words: Words<'_>) -> Option<Program> {
    let mut input = String::new(alloc);
    for line in words.rest.split(" ; ") {
        writeln!(input, "{line}").ok()?;
    }
    Some(Program { input })
}

/// Keeps one octet a write, and fails at one write.
#[derive(Drop)]
struct Failing {
    kept: Vec<u8>,
    /// After how many octets.
    fails_after: Option<usize>,
}

impl Write for Failing {
    fn write(&mut self, buf: &[u8]) -> io::Result<usize> {
        if self.fails_after == Some(self.kept.len()) {
            self.fails_after = None;
            return Err(io::Error::from(io::ErrorKind::Other));
        }
        match buf.first() {
            Some(octet) => {
                self.kept.push(*octet)?;
                Ok(1)
            }
            None => Ok(0),
        }
    }

    fn flush(&mut self) -> io::Result<()> {
        Ok(())
    }
}

impl Layer for Program {
    fn call(&mut self, alloc: Global, mut words: Words<'_>, answer: &mut String) -> Option<()> {
        let fails_after = match words.word()? {
            "run" => None,
            "failing" => Some(words.place()?),
            _ => return None,
        };
        let mut options = Vec::new(alloc);
        while let Some(word) = words.word() {
            options.push(word.to_string(alloc).ok()?).ok()?;
        }
        let mut reader = Reader::new(Cursor::new(self.input.as_bytes()));
        let mut writer = Printer::new(Failing { kept: Vec::new(alloc), fails_after });
        match run(alloc, &options, &mut reader, &mut writer) {
            Ok(()) => answer.push_str("ok").ok()?,
            Err(fault) => write!(answer, "refused {fault:?}").ok()?,
        }
        let kept = writer.into_inner().kept;
        write!(answer, ", {} octets\n{}", kept.len(), str::from_utf8(&kept).ok()?).ok()
    }
}
