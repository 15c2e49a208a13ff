//! The programs through a pipe: random logs and texts that come in pieces of random
//! sizes, some without their last end of a line, some logs after a kept one.

mod counts;

pub use counts::Counts;

use crate::compare::{printed_of_pieces, Programs};
use crate::log;
use crate::model::text;
use crate::random::{self, Random};
use crate::trial::halves;
use std::path::PathBuf;
use std::process::Command;

/// A program reads at most so many bytes at once.
const READ_LIMIT: usize = 1 << 16;

/// Another implementation that is handed its input in pieces.
pub trait Piped {
    /// The answers to a log, after a kept one if there is one.
    fn replay(&mut self, kept: Option<&[u8]>, pieces: &[&[u8]]) -> Vec<u8>;
    /// What `shelf` prints for a text.
    fn shelf(&mut self, pieces: &[&[u8]]) -> Vec<u8>;
}

/// A kept log is handed to `replay` as a file.
impl Piped for Programs {
    fn replay(&mut self, kept: Option<&[u8]>, pieces: &[&[u8]]) -> Vec<u8> {
        let mut program = Command::new(&self.replay);
        let file = kept.map(KeptFile::new);
        if let Some(file) = &file {
            program.arg(&file.0);
        }
        printed_of_pieces(program, pieces)
    }

    fn shelf(&mut self, pieces: &[&[u8]]) -> Vec<u8> {
        printed_of_pieces(Command::new(&self.shelf), pieces)
    }
}

/// A file that is there as long as this is.
struct KeptFile(PathBuf);

impl KeptFile {
    fn new(bytes: &[u8]) -> KeptFile {
        let path = std::env::temp_dir().join(format!("check-{}.kept", std::process::id()));
        std::fs::write(&path, bytes).expect("a file can be written");
        KeptFile(path)
    }
}

impl Drop for KeptFile {
    fn drop(&mut self) {
        let _ = std::fs::remove_file(&self.0);
    }
}

/// A log or a text, and where it is cut.
pub struct Input {
    pub kept: Option<Vec<u8>>,
    pub bytes: Vec<u8>,
    /// Ascending, within the bytes.
    pub cuts: Vec<usize>,
}

impl Input {
    /// The log of a seed: in half of the seeds its first half is the kept log.
    pub fn log(seed: u64, calls: usize) -> Input {
        let mut random = Random::new(seed ^ 0x7069_7065);
        let log = with_another_size(random::log(seed, calls), &mut random);
        match random.one_in(2) {
            true => {
                let (kept, log) = halves(&log);
                Input::cut(Some(kept.to_vec()), log.to_vec(), &mut random)
            }
            false => Input::cut(None, log, &mut random),
        }
    }

    /// The text of a seed.
    pub fn text(seed: u64) -> Input {
        let mut random = Random::new(seed ^ 0x7465_7874);
        let text = with_another_size(random::text(seed), &mut random);
        Input::cut(None, text, &mut random)
    }

    /// Cut nowhere or in up to forty places: anywhere, before the end of a line or
    /// after it.
    fn cut(kept: Option<Vec<u8>>, bytes: Vec<u8>, random: &mut Random) -> Input {
        let count = random.pick(&[0, 1, 3, 10, 40]);
        let mut cuts: Vec<usize> = (0..count).map(|_| place(&bytes, random)).collect();
        cuts.sort_unstable();
        Input { kept, bytes, cuts }
    }

    pub fn pieces(&self) -> Vec<&[u8]> {
        let starts = std::iter::once(0).chain(self.cuts.iter().copied());
        let ends = self.cuts.iter().copied().chain([self.bytes.len()]);
        starts.zip(ends).map(|(start, end)| &self.bytes[start..end]).collect()
    }

    /// The model's answers, which know nothing of pieces.
    pub fn answers(&self) -> Vec<u8> {
        log::run_after(self.kept.as_deref().unwrap_or_default(), &self.bytes)
    }

    pub fn report(&self) -> Vec<u8> {
        text::shelf(&self.bytes).0
    }
}

/// One in four lacks its last byte, one in ten is longer than what is read at once.
fn with_another_size(mut bytes: Vec<u8>, random: &mut Random) -> Vec<u8> {
    if random.one_in(10) {
        bytes = bytes.repeat(1 + READ_LIMIT / bytes.len().max(1));
    }
    if random.one_in(4) {
        bytes.pop();
    }
    bytes
}

fn place(bytes: &[u8], random: &mut Random) -> usize {
    let place = random.below(bytes.len() + 1);
    let end = bytes[place..].iter().position(|&byte| byte == b'\n').map(|end| place + end);
    match (random.below(3), end) {
        (1, Some(end)) => end,
        (2, Some(end)) => end + 1,
        _ => place,
    }
}

#[cfg(test)]
mod tests {
    use super::*;

    /// The model with a fault.
    #[derive(Clone, Copy, Debug)]
    enum Planted {
        Nothing,
        /// What waits for the end of its line at a cut is lost.
        LineLostAtACut,
        /// A kept log without its last end goes on with the first line.
        KeptGoesOn,
        /// The answers to the kept log are printed too.
        KeptIsPrinted,
        /// Lines are counted from the log's own first.
        CountedAnew,
    }

    impl Piped for Planted {
        fn replay(&mut self, kept: Option<&[u8]>, pieces: &[&[u8]]) -> Vec<u8> {
            let log = self.joined(pieces);
            let kept = kept.unwrap_or_default();
            let both = [kept, &log].concat();
            match self {
                Planted::KeptGoesOn => {
                    let whole = form_whole(kept);
                    log::run_after(&both[..whole], &both[whole..])
                }
                Planted::KeptIsPrinted => [log::run(kept), log::run_after(kept, &log)].concat(),
                Planted::CountedAnew if !kept.is_empty() => log::run(&log),
                _ => log::run_after(kept, &log),
            }
        }

        fn shelf(&mut self, pieces: &[&[u8]]) -> Vec<u8> {
            text::shelf(&self.joined(pieces)).0
        }
    }

    impl Planted {
        fn joined(self, pieces: &[&[u8]]) -> Vec<u8> {
            let Some((last, others)) = pieces.split_last() else { return Vec::new() };
            let mut bytes: Vec<u8> = Vec::new();
            for piece in others {
                bytes.extend_from_slice(piece);
                if let Planted::LineLostAtACut = self {
                    bytes.truncate(form_whole(&bytes));
                }
            }
            [&bytes, *last].concat()
        }
    }

    /// How many bytes there are up to the last end of a line.
    fn form_whole(bytes: &[u8]) -> usize {
        bytes.iter().rposition(|&byte| byte == b'\n').map_or(0, |end| end + 1)
    }

    fn differs(seed: u64, mut other: Planted) -> bool {
        let (log, text) = (Input::log(seed, 30), Input::text(seed));
        other.replay(log.kept.as_deref(), &log.pieces()) != log.answers()
            || other.shelf(&text.pieces()) != text.report()
    }

    #[test]
    fn pieces_make_up_the_input() {
        for seed in 0..100 {
            let input = Input::log(seed, 30);
            assert_eq!(input.pieces().concat(), input.bytes);
            assert!(!differs(seed, Planted::Nothing));
        }
    }

    #[test]
    fn each_planted_fault_is_found() {
        let faults = [
            Planted::LineLostAtACut,
            Planted::KeptGoesOn,
            Planted::KeptIsPrinted,
            Planted::CountedAnew,
        ];
        for planted in faults {
            assert!((0..50).any(|seed| differs(seed, planted)), "{planted:?}");
        }
    }

    #[test]
    fn a_program_that_does_not_start_differs() {
        let nowhere = PathBuf::from("/nowhere/replay");
        let mut programs = Programs { replay: nowhere.clone(), shelf: nowhere };
        let answers = Piped::replay(&mut programs, Some(b""), &[b""]);
        assert!(answers.starts_with(b"(/nowhere/replay: "));
    }
}
