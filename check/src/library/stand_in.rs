//! The model in the library's place, with a fault if one is planted.

use super::{Functions, Reply};
use crate::log;
use crate::model::text::{place_into, why, Fault};
use crate::trial::{Room, Trial};

#[derive(Clone, Copy, PartialEq, Eq, Debug)]
pub enum Planted {
    Nothing,
    ByteAfterTheLast,
    TouchedWhenShort,
    TouchedWhenRefused,
    WrongLine,
    LineWhenShort,
    LineWhenAccepted,
    SizeWhenRefused,
    SizePastTheEnd,
    OneByteLeftOver,
    LastByteLost,
    WorkNotLookedAt,
    ShortBeforeRefused,
    KeptIsForgotten,
}

impl Planted {
    pub const FAULTS: [Planted; 13] = [
        Planted::ByteAfterTheLast,
        Planted::TouchedWhenShort,
        Planted::TouchedWhenRefused,
        Planted::WrongLine,
        Planted::LineWhenShort,
        Planted::LineWhenAccepted,
        Planted::SizeWhenRefused,
        Planted::SizePastTheEnd,
        Planted::OneByteLeftOver,
        Planted::LastByteLost,
        Planted::WorkNotLookedAt,
        Planted::ShortBeforeRefused,
        Planted::KeptIsForgotten,
    ];
}

pub struct StandIn(pub Planted);

impl Functions for StandIn {
    fn check(&self, text: &[u8]) -> Reply {
        self.reply(Trial::Check.model(text), &mut [])
    }

    fn report(&self, text: &[u8], out: &mut [u8]) -> Reply {
        self.reply(Trial::Report { out: Room::Ample }.model(text), out)
    }

    fn rewrite(&self, text: &[u8], out: &mut [u8]) -> Reply {
        self.reply(Trial::Rewrite { out: Room::Ample }.model(text), out)
    }

    fn why(&self, text: &[u8], edit: u32, out: &mut [u8]) -> Reply {
        self.reply(why(text, edit), out)
    }

    fn replay(&self, log: &[u8], work: &mut [u8], out: &mut [u8]) -> Reply {
        self.go_on(b"", log, work, out)
    }

    fn go_on(&self, kept: &[u8], log: &[u8], work: &mut [u8], out: &mut [u8]) -> Reply {
        let forgotten = !kept.is_empty() && self.0 == Planted::KeptIsForgotten;
        let answers = log::run_after(if forgotten { b"" } else { kept }, log);
        let is_short = place_into(work, 0, &answers).is_err();
        match is_short && self.0 != Planted::WorkNotLookedAt {
            true => self.too_short(out),
            false => self.reply(Ok(answers), out),
        }
    }
}

impl StandIn {
    fn reply(&self, written: Result<Vec<u8>, Fault>, out: &mut [u8]) -> Reply {
        match written {
            Err(_) if self.0 == Planted::ShortBeforeRefused && out.is_empty() => {
                self.too_short(out)
            }
            Err(fault) => self.refused(fault, out),
            Ok(written) => self.accepted(written, out),
        }
    }

    fn refused(&self, fault: Fault, out: &mut [u8]) -> Reply {
        if self.0 == Planted::TouchedWhenRefused {
            out.iter_mut().take(1).for_each(|byte| *byte = 0);
        }
        let line = fault.line + usize::from(self.0 == Planted::WrongLine);
        let size = usize::from(self.0 == Planted::SizeWhenRefused);
        Reply { number: fault.ground.number().into(), line, size }
    }

    fn accepted(&self, mut written: Vec<u8>, out: &mut [u8]) -> Reply {
        if self.0 == Planted::LastByteLost {
            written.pop();
        }
        let left_over = usize::from(self.0 == Planted::OneByteLeftOver);
        let room = out.len().saturating_sub(left_over);
        let Ok(mut size) = place_into(&mut out[..room], 0, &written) else {
            return self.too_short(out);
        };
        if self.0 == Planted::ByteAfterTheLast {
            out[size..].iter_mut().take(1).for_each(|byte| *byte = 0);
        }
        if self.0 == Planted::SizePastTheEnd {
            size = out.len() + 1;
        }
        Reply { number: 0, line: usize::from(self.0 == Planted::LineWhenAccepted), size }
    }

    fn too_short(&self, out: &mut [u8]) -> Reply {
        if self.0 == Planted::TouchedWhenShort {
            out.iter_mut().take(1).for_each(|byte| *byte = 0);
        }
        Reply { number: 12, line: usize::from(self.0 == Planted::LineWhenShort), size: 0 }
    }
}
