//! What is printed, line by line.

use crate::bits::Bits;
use crate::names::{Answer, Crossing, Flow, Host, Refusal};
use std::io::{self, BufWriter, StdoutLock, Write};

/// Where lines go: to standard output through a buffer, or into a list of octets.
enum Lines {
    Written(BufWriter<StdoutLock<'static>>),
    Kept(Vec<u8>),
}

/// Prints lines. After the first write that fails nothing more is written.
pub struct Printer {
    out: Lines,
    line: Vec<u8>,
    with_texts: bool,
    failed: Option<io::Error>,
}

impl Printer {
    /// A printer to standard output, which prints the texts of messages if that is wished.
    pub fn new(with_texts: bool) -> Printer {
        let out = Lines::Written(BufWriter::with_capacity(1 << 16, io::stdout().lock()));
        Printer { out, line: Vec::new(), with_texts, failed: None }
    }

    /// A printer whose lines are kept.
    pub fn kept() -> Printer {
        Printer { out: Lines::Kept(Vec::new()), line: Vec::new(), with_texts: false, failed: None }
    }

    /// The lines that are kept, each with its end.
    pub fn lines(&self) -> &[u8] {
        match &self.out {
            Lines::Written(_) => &[],
            Lines::Kept(lines) => lines,
        }
    }

    /// Forgets the lines that are kept.
    pub fn clear(&mut self) {
        if let Lines::Kept(lines) = &mut self.out {
            lines.clear();
        }
    }

    /// Appends a word, with a space before it if it is not the first one.
    pub fn word(&mut self, word: &[u8]) -> &mut Printer {
        if !self.line.is_empty() {
            self.line.push(b' ');
        }
        self.line.extend_from_slice(word);
        self
    }

    /// Appends a number.
    pub fn number(&mut self, mut number: u64) -> &mut Printer {
        let (mut digits, mut at) = ([0; 20], 20);
        loop {
            at -= 1;
            digits[at] = b'0' + (number % 10) as u8;
            number /= 10;
            if number == 0 {
                return self.word(&digits[at..]);
            }
        }
    }

    /// Appends a host.
    pub fn host(&mut self, host: Host) -> &mut Printer {
        let (tens, ones) = (host.imp / 10, host.imp % 10);
        let digits = [b'0' + host.number, b'/', b'0' + tens, b'0' + ones];
        if tens == 0 {
            self.word(&[digits[0], digits[1], digits[3]])
        } else {
            self.word(&digits)
        }
    }

    /// Appends a flow.
    pub fn flow(&mut self, flow: Flow) -> &mut Printer {
        self.host(flow.source).host(flow.destination).number(flow.link.into())
    }

    /// Appends octets as a script spells them.
    pub fn octets(&mut self, octets: &[u8]) -> &mut Printer {
        if octets.is_empty() {
            return self.word(b"-");
        }
        self.word(b"");
        for octet in octets {
            let digit = |it: u8| b"0123456789ABCDEF"[it as usize];
            self.line.extend([digit(octet >> 4), digit(octet & 15)]);
        }
        self
    }

    /// Ends the line.
    pub fn end(&mut self) {
        self.line.push(b'\n');
        match &mut self.out {
            Lines::Kept(lines) => lines.extend_from_slice(&self.line),
            Lines::Written(out) if self.failed.is_none() => self.failed = out.write_all(&self.line).err(),
            Lines::Written(_) => (),
        }
        self.line.clear();
    }

    /// Prints what crossed.
    pub fn crossings(&mut self, crossings: &[Crossing]) {
        for crossing in crossings {
            match crossing {
                Crossing::Out(flow, text) => self.message(b"out", *flow, text),
                Crossing::In(flow, text) => self.message(b"in", *flow, text),
                Crossing::Answer(answer, flow) => self.word(b"answer").word(answer_name(*answer)).flow(*flow).end(),
                Crossing::Down(host) => self.word(b"down").host(*host).end(),
                Crossing::Up(host) => self.word(b"up").host(*host).end(),
            }
        }
    }

    /// Prints a message that went out or came in.
    fn message(&mut self, name: &[u8], flow: Flow, text: &Bits) {
        self.word(name).flow(flow).number(text.len() as u64);
        if self.with_texts {
            self.octets(text.octets());
        }
        self.end();
    }

    /// Prints why an event was refused.
    pub fn refused(&mut self, refusal: Refusal) {
        self.word(b"refused").word(format!("{refusal:?}").as_bytes()).end();
    }

    /// Whether a write has failed.
    pub fn has_failed(&self) -> bool {
        self.failed.is_some()
    }

    /// Writes what is left. Answers whether all was written.
    pub fn finish(&mut self) -> bool {
        let is_written = match &mut self.out {
            Lines::Written(out) => out.flush().is_ok(),
            Lines::Kept(_) => true,
        };
        is_written && !self.has_failed()
    }
}

/// The word of an answer. A host is told the same of a message that is given up and of one that was not taken.
fn answer_name(answer: Answer) -> &'static [u8] {
    match answer {
        Answer::Rfnm => b"rfnm",
        Answer::Dead => b"dead",
        Answer::Incomplete | Answer::NotTaken => b"incomplete",
    }
}
