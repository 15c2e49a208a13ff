//! The comparison of the model with another implementation.

use crate::coverage::Coverage;
use crate::form;
use crate::log::{self, Session};
use crate::model::text;
use std::io::{Read, Write};
use std::path::PathBuf;
use std::process::{Command, Stdio};
use std::time::Duration;

/// Another implementation of the same document.
pub trait Other {
    /// The answers to a call log.
    fn replay(&mut self, log: &[u8]) -> Vec<u8>;
    /// What `shelf` prints for a text.
    fn shelf(&mut self, text: &[u8]) -> Vec<u8>;
}

/// The model in place of another implementation.
pub struct Model;

impl Other for Model {
    fn replay(&mut self, log: &[u8]) -> Vec<u8> {
        log::run(log)
    }

    fn shelf(&mut self, text: &[u8]) -> Vec<u8> {
        text::shelf(text).0
    }
}

/// Programs that read standard input and print.
pub struct Programs {
    pub replay: PathBuf,
    pub shelf: PathBuf,
}

impl Other for Programs {
    fn replay(&mut self, log: &[u8]) -> Vec<u8> {
        printed(&self.replay, log)
    }

    fn shelf(&mut self, text: &[u8]) -> Vec<u8> {
        printed(&self.shelf, text)
    }
}

/// What a program prints.
pub(crate) fn printed(path: &PathBuf, input: &[u8]) -> Vec<u8> {
    printed_of_pieces(Command::new(path), &[input])
}

/// What a program prints of an input that comes in pieces. A program that doesn't
/// start or is ended by a signal says so in a line that no answer looks like.
pub(crate) fn printed_of_pieces(mut program: Command, pieces: &[&[u8]]) -> Vec<u8> {
    run(&mut program, pieces).unwrap_or_else(|error| {
        format!("({}: {error})\n", program.get_program().display()).into_bytes()
    })
}

fn run(program: &mut Command, pieces: &[&[u8]]) -> std::io::Result<Vec<u8>> {
    let mut child = program.stdin(Stdio::piped()).stdout(Stdio::piped()).spawn()?;
    let mut standard_input = child.stdin.take().expect("standard input is piped");
    let mut standard_output = child.stdout.take().expect("standard output is piped");
    let mut output = Vec::new();
    // A program may answer while it reads: both ends have to move at once.
    std::thread::scope(|scope| {
        scope.spawn(move || {
            for (place, piece) in pieces.iter().enumerate() {
                // So that the program reads what came so far by itself.
                match place {
                    0 => (),
                    1 => std::thread::sleep(START),
                    _ => std::thread::sleep(PAUSE),
                }
                // A program that stops reading early breaks the pipe, as it may.
                let _ = standard_input.write_all(piece);
            }
        });
        standard_output.read_to_end(&mut output)
    })?;
    let status = child.wait()?;
    if status.code().is_none() {
        output.extend_from_slice(format!("({status})\n").as_bytes());
    }
    Ok(output)
}

/// After the first piece, in which a program starts, and after any other.
const START: Duration = Duration::from_millis(2);
const PAUSE: Duration = Duration::from_micros(100);

/// Where two implementations part.
#[derive(Debug, PartialEq, Eq)]
pub struct Difference {
    /// The line of the log, from 1; otherwise the line of what is printed.
    pub line: usize,
    pub model: Vec<u8>,
    pub other: Vec<u8>,
}

/// Runs a log on the model, counts its lines, and finds the first one to which
/// the other's answers are different.
pub fn compare_log(log: &[u8], other: &[u8], coverage: &mut Coverage) -> Option<Difference> {
    let mut session = Session::default();
    let mut answer = Vec::new();
    let mut rest = other;
    let mut count = 0;
    let mut difference = None;
    for line in form::lines(log) {
        count += 1;
        answer.clear();
        let outcome = session.line(line, &mut answer);
        coverage.count_line(outcome, &answer);
        if difference.is_none() {
            match rest.strip_prefix(&answer[..]) {
                Some(after) => rest = after,
                None => difference = Some(parted(count, &answer, rest)),
            }
        }
    }
    let more = || (!rest.is_empty()).then(|| parted(count + 1, b"", rest));
    difference.or_else(more)
}

/// The other's answer is cut to as many lines as the model's has, and one more.
fn parted(line: usize, model: &[u8], rest: &[u8]) -> Difference {
    let count = whole_lines(model).count() + 1;
    Difference { line, model: model.to_vec(), other: some_lines(rest, 0, count) }
}

/// Reads a text with the model, counts it, and compares what is printed.
pub fn compare_text(text: &[u8], other: &[u8], coverage: &mut Coverage) -> Option<Difference> {
    let (model, fault) = text::shelf(text);
    coverage.count_text(fault.map(|fault| fault.ground), &model);
    difference(&model, other)
}

/// The line in which two answers part, and a few more.
pub fn difference(model: &[u8], other: &[u8]) -> Option<Difference> {
    const SHOWN: usize = 3;
    let same = whole_lines(model).zip(whole_lines(other)).take_while(|(one, other)| one == other);
    let same = same.count();
    (model != other).then(|| Difference {
        line: same + 1,
        model: some_lines(model, same, SHOWN),
        other: some_lines(other, same, SHOWN),
    })
}

/// The lines with their ends.
fn whole_lines(bytes: &[u8]) -> impl Iterator<Item = &[u8]> {
    bytes.split_inclusive(|&byte| byte == b'\n')
}

fn some_lines(bytes: &[u8], skipped: usize, count: usize) -> Vec<u8> {
    whole_lines(bytes).skip(skipped).take(count).collect::<Vec<_>>().concat()
}

/// Cuts a log or text down: lines are dropped, many at a time first, as long as
/// the difference stays.
pub fn cut_down(input: &[u8], mut differs: impl FnMut(&[u8]) -> bool) -> Vec<u8> {
    let mut lines: Vec<&[u8]> = whole_lines(input).collect();
    let mut size = lines.len().next_power_of_two();
    loop {
        let before = lines.len();
        let mut place = 0;
        while place < lines.len() {
            let end = (place + size).min(lines.len());
            let fewer = [&lines[..place], &lines[end..]].concat();
            if differs(&fewer.concat()) {
                lines = fewer;
            } else {
                place = end;
            }
        }
        if size > 1 {
            size /= 2;
        } else if lines.len() == before {
            return lines.concat();
        }
    }
}

/// The log cut down to what still shows a difference.
pub fn cut_log(log: &[u8], other: &mut dyn Other) -> Vec<u8> {
    cut_down(log, |fewer| log::run(fewer) != other.replay(fewer))
}

/// The text cut down to what still shows a difference.
pub fn cut_text(text: &[u8], other: &mut dyn Other) -> Vec<u8> {
    cut_down(text, |fewer| text::shelf(fewer).0 != other.shelf(fewer))
}

#[cfg(test)]
mod tests {
    use super::*;
    use crate::random;

    /// The model with a fault: the page 2 is never named.
    struct Faulty;

    impl Other for Faulty {
        fn replay(&mut self, log: &[u8]) -> Vec<u8> {
            let answers = String::from_utf8(log::run(log)).unwrap();
            answers.replace("page=2 edit=", "page=3 edit=").into_bytes()
        }

        fn shelf(&mut self, text: &[u8]) -> Vec<u8> {
            let report = String::from_utf8(text::shelf(text).0).unwrap();
            report.replace("place=2\n", "place=3\n").into_bytes()
        }
    }

    #[test]
    fn the_model_does_not_differ_from_itself() {
        let mut coverage = Coverage::default();
        for seed in 0..50 {
            let (log, text) = (random::log(seed, 100), random::text(seed));
            assert_eq!(compare_log(&log, &log::run(&log), &mut coverage), None);
            assert_eq!(compare_text(&text, &text::shelf(&text).0, &mut coverage), None);
        }
    }

    #[test]
    fn a_difference_is_found_at_its_line_and_cut_down() {
        let log = b"ask=page\nedit=257 do=insert chip=1\nrow=1\nask=schedule\n\
            edit=258 do=remove chip=1\nask=text\nask=schedule\nask=hidden\n";
        let difference = compare_log(log, &Faulty.replay(log), &mut Coverage::default());
        let difference = difference.expect("the fault shows");
        assert_eq!(difference.line, 7);
        assert_eq!(difference.model, b"last=2\npage=1 edit=257\npage=2 edit=258\n");
        assert!(difference.other.starts_with(b"last=2\npage=1 edit=257\npage=3 edit=258\n"));
        let cut = b"edit=257 do=insert chip=1\nedit=258 do=remove chip=1\nask=schedule\n";
        assert_eq!(cut_log(log, &mut Faulty), cut);
    }

    #[test]
    fn answers_after_the_last_line_are_a_difference() {
        let log = b"row=none\n";
        let difference = compare_log(log, b"more\n", &mut Coverage::default());
        assert_eq!(difference.map(|difference| difference.line), Some(2));
    }

    #[test]
    fn a_text_is_cut_down() {
        let text = b"edit=257 do=insert chip=1\nedit=258 do=insert chip=1\n\
            edit=259 do=insert chip=1\nleft=257 rule=notafter right=258\n";
        let difference = compare_text(text, &Faulty.shelf(text), &mut Coverage::default());
        assert_eq!(difference.map(|difference| difference.line), Some(3));
        assert_eq!(form::lines(&cut_text(text, &mut Faulty)).count(), 2);
    }

    #[test]
    fn a_program_that_does_not_start_differs() {
        let nowhere = PathBuf::from("/nowhere/replay");
        let mut programs = Programs { replay: nowhere.clone(), shelf: nowhere };
        assert!(programs.replay(b"").starts_with(b"(/nowhere/replay: "));
    }
}
