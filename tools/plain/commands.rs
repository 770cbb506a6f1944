//! The commands by which two hosts manage their connections, and the header of every message between them.

use crate::bits::Bits;

/// The octets of a header.
pub const HEADER: usize = 5;
/// The most octets of commands in a message.
pub const CONTROL_TEXT: usize = 120;
/// The octets that an error quotes.
const QUOTED: usize = 10;
/// The links on which connections may be.
pub const LINKS: std::ops::RangeInclusive<u8> = 2..=31;

/// A command. Sockets are named as in the octets: a request names the sender's socket first, and so does a closing.
#[derive(Clone, Copy, Debug)]
pub enum Command {
    Nop,
    Rts { own: u32, foreign: u32, link: u8 },
    Str { own: u32, foreign: u32, size: u8 },
    Cls { own: u32, foreign: u32 },
    All { link: u8, messages: u16, bits: u32 },
    Gvb { link: u8, messages: u8, bits: u8 },
    Ret { link: u8, messages: u16, bits: u32 },
    Inr { link: u8 },
    Ins { link: u8 },
    Eco(u8),
    Erp(u8),
    Err { code: Fault, quoted: [u8; QUOTED] },
    Rst,
    Rrp,
}

/// The code of an error. A host here sends 1 to 5, and reads any.
pub type Fault = u8;

/// There is no command with this code.
pub const ILLEGAL_CODE: Fault = 1;
/// Octets of a command are missing.
pub const SHORT: Fault = 2;
/// A number is outside its range, or something contradicts what was agreed before.
pub const ERRONEOUS: Fault = 3;
/// There is no end with these sockets.
pub const NO_SOCKET: Fault = 4;
/// There is no connection on this link.
pub const NOT_CONNECTED: Fault = 5;

impl Command {
    /// How many octets a command with this code has, if there is one.
    fn length_of(code: u8) -> Option<usize> {
        [1, 10, 10, 9, 8, 4, 8, 2, 2, 2, 2, 12, 1, 1].get(code as usize).copied()
    }

    /// The error that quotes these octets.
    pub fn error(code: Fault, octets: &[u8]) -> Command {
        let mut quoted = [0; QUOTED];
        let count = octets.len().min(QUOTED);
        quoted[..count].copy_from_slice(&octets[..count]);
        Command::Err { code, quoted }
    }

    /// How many octets this command has.
    pub fn length(&self) -> usize {
        match self {
            Command::Nop | Command::Rst | Command::Rrp => 1,
            Command::Inr { .. } | Command::Ins { .. } | Command::Eco(_) | Command::Erp(_) => 2,
            Command::Gvb { .. } => 4,
            Command::All { .. } | Command::Ret { .. } => 8,
            Command::Cls { .. } => 9,
            Command::Rts { .. } | Command::Str { .. } => 10,
            Command::Err { .. } => 12,
        }
    }

    /// Appends the octets of this command.
    pub fn write(&self, out: &mut Vec<u8>) {
        let mut sockets = |code, own: u32, foreign: u32| {
            out.push(code);
            out.extend(own.to_be_bytes());
            out.extend(foreign.to_be_bytes());
        };
        match *self {
            Command::Nop => out.push(0),
            Command::Rts { own, foreign, link } => {
                sockets(1, own, foreign);
                out.push(link);
            }
            Command::Str { own, foreign, size } => {
                sockets(2, own, foreign);
                out.push(size);
            }
            Command::Cls { own, foreign } => sockets(3, own, foreign),
            Command::All { link, messages, bits } => write_counts(out, 4, link, messages, bits),
            Command::Gvb { link, messages, bits } => out.extend([5, link, messages, bits]),
            Command::Ret { link, messages, bits } => write_counts(out, 6, link, messages, bits),
            Command::Inr { link } => out.extend([7, link]),
            Command::Ins { link } => out.extend([8, link]),
            Command::Eco(octet) => out.extend([9, octet]),
            Command::Erp(octet) => out.extend([10, octet]),
            Command::Err { code, quoted } => {
                out.extend([11, code]);
                out.extend(quoted);
            }
            Command::Rst => out.push(12),
            Command::Rrp => out.push(13),
        }
    }

    /// Reads the command that these octets begin with, and gives its octets too. A fault means that nothing more can be read.
    /// Whether the numbers are in their ranges is looked at where the command is taken.
    pub fn read(octets: &[u8]) -> Result<(Command, &[u8]), Fault> {
        let code = octets[0];
        let length = Command::length_of(code).ok_or(ILLEGAL_CODE)?;
        let own = octets.get(..length).ok_or(SHORT)?;
        let four = |at: usize| u32::from_be_bytes([own[at], own[at + 1], own[at + 2], own[at + 3]]);
        let command = match code {
            0 => Command::Nop,
            1 => Command::Rts { own: four(1), foreign: four(5), link: own[9] },
            2 => Command::Str { own: four(1), foreign: four(5), size: own[9] },
            3 => Command::Cls { own: four(1), foreign: four(5) },
            4 => Command::All { link: own[1], messages: u16::from_be_bytes([own[2], own[3]]), bits: four(4) },
            5 => Command::Gvb { link: own[1], messages: own[2], bits: own[3] },
            6 => Command::Ret { link: own[1], messages: u16::from_be_bytes([own[2], own[3]]), bits: four(4) },
            7 => Command::Inr { link: own[1] },
            8 => Command::Ins { link: own[1] },
            9 => Command::Eco(own[1]),
            10 => Command::Erp(own[1]),
            11 => Command::Err { code: own[1], quoted: own[2..].try_into().expect("ten octets") },
            12 => Command::Rst,
            _ => Command::Rrp,
        };
        Ok((command, own))
    }
}

/// Appends a command that names a link, messages and bits.
fn write_counts(out: &mut Vec<u8>, code: u8, link: u8, messages: u16, bits: u32) {
    out.extend([code, link]);
    out.extend(messages.to_be_bytes());
    out.extend(bits.to_be_bytes());
}

/// The header of a message of this many bytes of this size.
pub fn header(size: u8, count: u16) -> [u8; HEADER] {
    let [high, low] = count.to_be_bytes();
    [0, size, high, low, 0]
}

/// A message of these commands.
pub fn control_message<'a>(commands: impl Iterator<Item = &'a Command>) -> Bits {
    let mut octets = vec![0; HEADER];
    commands.for_each(|it| it.write(&mut octets));
    let count = (octets.len() - HEADER) as u16;
    octets[..HEADER].copy_from_slice(&header(8, count));
    Bits::whole(octets)
}

/// The byte size and the byte count in the header of a message, if it has a whole header and all that it announces.
pub fn read_header(text: &Bits) -> Option<(u8, u16)> {
    let [_, size, high, low, _] = *text.octets().first_chunk()?;
    let count = u16::from_be_bytes([high, low]);
    let whole = 8 * HEADER + size as usize * count as usize;
    (text.len() >= whole).then_some((size, count))
}
