//! The proved library, called in this process. What it replies is checked for its
//! form here: it writes where it may and nowhere else.

#[cfg(test)]
pub mod stand_in;

use crate::compare::Other;

/// What the library's functions give back.
#[repr(C)]
#[derive(Clone, Copy, PartialEq, Eq, Debug)]
pub struct Reply {
    /// 0 if accepted, otherwise document 01's number.
    pub number: u32,
    /// The line of the fault of a refused text, otherwise 0.
    pub line: usize,
    /// How many bytes were written.
    pub size: usize,
}

/// The library's functions, or others in their place.
pub trait Functions {
    fn check(&self, text: &[u8]) -> Reply;
    fn report(&self, text: &[u8], out: &mut [u8]) -> Reply;
    fn rewrite(&self, text: &[u8], out: &mut [u8]) -> Reply;
    fn why(&self, text: &[u8], edit: u32, out: &mut [u8]) -> Reply;
    fn replay(&self, log: &[u8], work: &mut [u8], out: &mut [u8]) -> Reply;
    fn go_on(&self, kept: &[u8], log: &[u8], work: &mut [u8], out: &mut [u8]) -> Reply;
}

/// The functions of the archive, if this was built with it.
pub fn archive() -> Option<Box<dyn Functions>> {
    #[cfg(feature = "library")]
    return Some(Box::new(archive::Archive));
    #[cfg(not(feature = "library"))]
    None
}

#[cfg(feature = "library")]
mod archive {
    use super::{Functions, Reply};

    crate::functions_of_slices! {
        fn catalogue_check(text: &[u8]) -> Reply;
        fn catalogue_report(text: &[u8]; out: &mut [u8]) -> Reply;
        fn catalogue_rewrite(text: &[u8]; out: &mut [u8]) -> Reply;
        fn catalogue_why(text: &[u8], [edit: u32]; out: &mut [u8]) -> Reply;
        fn catalogue_replay(log: &[u8]; work: &mut [u8], out: &mut [u8]) -> Reply;
        fn catalogue_continue(
            kept: &[u8], log: &[u8]; work: &mut [u8], out: &mut [u8]
        ) -> Reply;
    }

    pub struct Archive;

    impl Functions for Archive {
        fn check(&self, text: &[u8]) -> Reply {
            catalogue_check(text)
        }

        fn report(&self, text: &[u8], out: &mut [u8]) -> Reply {
            catalogue_report(text, out)
        }

        fn rewrite(&self, text: &[u8], out: &mut [u8]) -> Reply {
            catalogue_rewrite(text, out)
        }

        fn why(&self, text: &[u8], edit: u32, out: &mut [u8]) -> Reply {
            catalogue_why(text, edit, out)
        }

        fn replay(&self, log: &[u8], work: &mut [u8], out: &mut [u8]) -> Reply {
            catalogue_replay(log, work, out)
        }

        fn go_on(&self, kept: &[u8], log: &[u8], work: &mut [u8], out: &mut [u8]) -> Reply {
            catalogue_continue(kept, log, work, out)
        }
    }
}

/// A refusal as `shelf` prints it.
pub fn refusal(number: u32, line: usize) -> Vec<u8> {
    format!("refused={number} line={line}\n").into_bytes()
}

/// The answer to a call that was lent too little room. No text and no log is
/// answered so otherwise: lines are counted from 1.
pub fn too_short() -> Vec<u8> {
    refusal(12, 0)
}

/// Calls of the functions. An answer is what was written, a refusal as `shelf`
/// prints it, or, if the reply has a fault in its form, a line in brackets that no
/// answer looks like.
pub struct Library {
    functions: Box<dyn Functions>,
    work: Lending,
    out: Lending,
}

impl Library {
    pub fn new(functions: Box<dyn Functions>) -> Library {
        Library { functions, work: Lending::default(), out: Lending::default() }
    }

    pub fn check(&mut self, text: &[u8]) -> Vec<u8> {
        answer(&mut self.out, 0, |_| self.functions.check(text))
    }

    pub fn report(&mut self, text: &[u8], out: usize) -> Vec<u8> {
        answer(&mut self.out, out, |out| self.functions.report(text, out))
    }

    pub fn rewrite(&mut self, text: &[u8], out: usize) -> Vec<u8> {
        answer(&mut self.out, out, |out| self.functions.rewrite(text, out))
    }

    pub fn why(&mut self, text: &[u8], edit: u32, out: usize) -> Vec<u8> {
        answer(&mut self.out, out, |out| self.functions.why(text, edit, out))
    }

    pub fn replay_within(&mut self, log: &[u8], work: usize, out: usize) -> Vec<u8> {
        self.worked(work, out, |functions, work, out| functions.replay(log, work, out))
    }

    pub fn go_on_within(&mut self, kept: &[u8], log: &[u8], work: usize, out: usize) -> Vec<u8> {
        self.worked(work, out, |functions, work, out| functions.go_on(kept, log, work, out))
    }

    /// Lends work too. What stands in it is not said, but it ends where it ends.
    fn worked(
        &mut self,
        work: usize,
        out: usize,
        function: impl FnOnce(&dyn Functions, &mut [u8], &mut [u8]) -> Reply,
    ) -> Vec<u8> {
        let lent = self.work.lend(work);
        let answer = answer(&mut self.out, out, |out| function(&*self.functions, lent, out));
        match self.work.is_untouched_but(work) {
            true => answer,
            false => b"(bytes around work are touched)\n".to_vec(),
        }
    }
}

impl Other for Library {
    fn replay(&mut self, log: &[u8]) -> Vec<u8> {
        with_enough_room(log, |room| self.replay_within(log, room, room))
    }

    fn shelf(&mut self, text: &[u8]) -> Vec<u8> {
        with_enough_room(text, |room| self.report(text, room))
    }
}

/// Calls with room that is enough as a rule, and again with more as long as it
/// isn't. So rooms are no larger than the input asks for, and all of them can be
/// looked at after each call.
fn with_enough_room(input: &[u8], mut call: impl FnMut(usize) -> Vec<u8>) -> Vec<u8> {
    /// No input of the comparison needs more.
    const LIMIT: usize = 1 << 28;
    let mut room = 4 * input.len() + 4096;
    loop {
        let answer = call(room);
        if room >= LIMIT || answer != too_short() {
            return answer;
        }
        room *= 4;
    }
}

/// Lends out to a function and gives its answer.
fn answer(out: &mut Lending, size: usize, function: impl FnOnce(&mut [u8]) -> Reply) -> Vec<u8> {
    let reply = function(out.lend(size));
    match fault(reply, out) {
        Some(fault) => format!("({fault}: {reply:?})\n").into_bytes(),
        None if reply.number != 0 => refusal(reply.number, reply.line),
        None => out.lent()[..reply.size].to_vec(),
    }
}

/// What is wrong with the form of a reply.
fn fault(reply: Reply, out: &Lending) -> Option<&'static str> {
    let Reply { number, line, size } = reply;
    if number != 0 && size != 0 {
        Some("refused, with a size")
    } else if number == 0 && line != 0 {
        Some("accepted, with a line")
    } else if size > out.size {
        Some("more bytes than out has")
    } else if !out.is_untouched_but(size) {
        Some("other bytes are touched than those that were written")
    } else {
        None
    }
}

/// Room that is lent to calls, between guards. The memory is kept.
#[derive(Default)]
struct Lending {
    memory: Vec<u8>,
    size: usize,
}

impl Lending {
    /// So many bytes on either side of what is lent are nobody's.
    const GUARD: usize = 64;
    /// Everything holds this before a call; no text has such a byte.
    const PATTERN: u8 = 0xA5;

    fn lend(&mut self, size: usize) -> &mut [u8] {
        self.size = size;
        let whole = size + 2 * Lending::GUARD;
        self.memory.resize(self.memory.len().max(whole), 0);
        self.memory[..whole].fill(Lending::PATTERN);
        &mut self.memory[Lending::GUARD..][..size]
    }

    fn lent(&self) -> &[u8] {
        &self.memory[Lending::GUARD..][..self.size]
    }

    /// Whether all else, the guards too, is as it was before the call.
    fn is_untouched_but(&self, written: usize) -> bool {
        let whole = &self.memory[..self.size + 2 * Lending::GUARD];
        let (before, lent) = whole.split_at(Lending::GUARD);
        is_pattern(before) && is_pattern(&lent[written..])
    }
}

/// Compared in large parts, which is many times faster than byte by byte.
fn is_pattern(bytes: &[u8]) -> bool {
    const PART: [u8; 4096] = [Lending::PATTERN; 4096];
    bytes.chunks(PART.len()).all(|chunk| *chunk == PART[..chunk.len()])
}

#[cfg(test)]
mod tests {
    use super::stand_in::{Planted, StandIn};
    use super::*;
    use crate::model::text;
    use crate::{log, random};

    fn stand_in(planted: Planted) -> Library {
        Library::new(Box::new(StandIn(planted)))
    }

    #[test]
    fn answers_are_those_of_the_programs() {
        let mut library = stand_in(Planted::Nothing);
        for seed in 0..50 {
            let (log, text) = (random::log(seed, 100), random::text(seed));
            assert_eq!(library.replay(&log), log::run(&log));
            assert_eq!(library.shelf(&text), text::shelf(&text).0);
        }
    }

    #[test]
    fn room_grows_as_far_as_it_is_needed() {
        let (long, log) = ("ask=page\n".repeat(2000), "edit=257 do=insert chip=1\n");
        let log = format!("{log}{}", long.replace("page", "report"));
        let needed = log::run(log.as_bytes()).len();
        assert!(needed > 4 * log.len() + 4096, "the first room is too short");
        assert_eq!(stand_in(Planted::Nothing).replay(log.as_bytes()).len(), needed);
    }

    #[test]
    fn a_room_that_never_is_enough_ends_the_growth() {
        let mut sizes = Vec::new();
        let answer = with_enough_room(b"", |room| {
            sizes.push(room);
            too_short()
        });
        assert_eq!(answer, too_short());
        assert_eq!(sizes.first(), Some(&4096));
        assert!(sizes.len() < 20);
    }

    #[test]
    fn a_fault_in_the_form_is_no_answer() {
        let text = b"edit=257 do=insert chip=1\n";
        let cases = [
            (Planted::ByteAfterTheLast, &b"(other bytes are touched than"[..]),
            (Planted::LineWhenAccepted, b"(accepted, with a line"),
            (Planted::SizePastTheEnd, b"(more bytes than out has"),
        ];
        for (planted, begin) in cases {
            assert!(stand_in(planted).rewrite(text, 100).starts_with(begin), "{planted:?}");
        }
        let short = stand_in(Planted::TouchedWhenShort).rewrite(text, 5);
        assert!(short.starts_with(b"(other bytes are touched than"));
        let refused = stand_in(Planted::SizeWhenRefused).check(b"edit=257\n");
        assert!(refused.starts_with(b"(refused, with a size"));
    }

    #[test]
    fn guards_stand_on_either_side() {
        let mut lending = Lending::default();
        for size in [0, 1, 5000, 3] {
            lending.lend(size).fill(b'7');
            assert!(lending.is_untouched_but(size));
            assert_eq!(lending.lent(), vec![b'7'; size]);
            assert_eq!(lending.is_untouched_but(0), size == 0);
            for place in
                [0, Lending::GUARD - 1, Lending::GUARD + size, 2 * Lending::GUARD + size - 1]
            {
                lending.lend(size);
                lending.memory[place] = b'7';
                assert!(!lending.is_untouched_but(size), "{size} {place}");
            }
        }
    }
}
