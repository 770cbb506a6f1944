//! The texts of faults.
//!
//! A block begins with `faults`. A row names a type of faults by what gives them, and printed is the text of each, in the order in which the type has them.
//! Rows elsewhere show most of them where a call is refused; these show those that need a lack of memory too.

use crate::Layer;
use crate::words::Words;
use bit_messages::BitFault;
use imp_channel::ChannelFault;
use icp::{Failure, StartFault};
use interface::CarrierFault;
use leader1822::LeaderFault;
use link_table::FlowFault;
use ncp_control::ControlFault;
use packetiser::PacketFault;
use sockets::NcpFault;
use std::alloc::Global;
use std::fmt::Display;
use terminal::TerminalFault;

/// All types of faults.
#[derive(Drop)]
pub struct Faults;

impl Layer for Faults {
    fn call(&mut self, _: Global, mut words: Words<'_>, answer: &mut String) -> Option<()> {
        match words.word()? {
            "bits" => tell(answer, &[BitFault::NoMark, BitFault::TooLong, BitFault::Range, BitFault::OutOfMemory]),
            "leaders" => tell(answer, &[LeaderFault::ShortLeader, LeaderFault::UnknownType(10), LeaderFault::BadImp]),
            "packets" => {
                tell(answer, &[PacketFault::Short, PacketFault::NotCanonical, PacketFault::BadLength, PacketFault::OutOfMemory])
            }
            "frames" => tell(
                answer,
                &[
                    ChannelFault::Short,
                    ChannelFault::BadVersion,
                    ChannelFault::NotCanonical,
                    ChannelFault::BadLength,
                    ChannelFault::OutOfMemory,
                ],
            ),
            "commands" => tell(
                answer,
                &[
                    ControlFault::IllegalCode { quoted: 1 },
                    ControlFault::Short { quoted: 1 },
                    ControlFault::Erroneous { quoted: 10 },
                    ControlFault::OutOfMemory,
                ],
            ),
            "flows" => tell(answer, &[FlowFault::Blocked, FlowFault::OutOfMemory]),
            "carriers" => tell(
                answer,
                &[
                    CarrierFault::NoSuch,
                    CarrierFault::StillAlive,
                    CarrierFault::IsDown,
                    CarrierFault::IsUp,
                    CarrierFault::Unsettled,
                    CarrierFault::NotOutstanding,
                    CarrierFault::Blocked,
                    CarrierFault::NoRoom,
                    CarrierFault::Stopped,
                    CarrierFault::OutOfMemory,
                ],
            ),
            "programs" => tell(
                answer,
                &[
                    NcpFault::NotContacted,
                    NcpFault::WrongEnd,
                    NcpFault::InUse,
                    NcpFault::NoSuchSocket,
                    NcpFault::NotOpen,
                    NcpFault::BadSize,
                    NcpFault::Closing,
                    NcpFault::NoLink,
                    NcpFault::OverGrant,
                    NcpFault::OutOfMemory,
                ],
            ),
            "starts" => tell(answer, &[StartFault::BadSocket, StartFault::OutOfMemory]),
            "failures" => tell(
                answer,
                &[Failure::Refused, Failure::Reset, Failure::Stranger, Failure::BadSocket, Failure::Local(NcpFault::InUse)],
            ),
            "terminals" => tell(answer, &[TerminalFault::NotPrintable, TerminalFault::OutOfMemory]),
            _ => None,
        }
    }
}

/// The text of each fault.
fn tell<T: Display>(answer: &mut String, faults: &[T]) -> Option<()> {
    for fault in faults {
        writeln!(answer, "{fault}").ok()?;
    }
    Some(())
}
