//! What the rows of a roll do, seen in the answers to a tally.

use crate::mergeability::answers::{Answers, Count};
use crate::model::BENCHES;

/// What can be seen, and a test of the answers before the first row and after each.
type Case = (&'static str, fn(&[Count]) -> bool);

/// All of them must occur; one answer may show several.
pub const CASES: [Case; 9] = [
    ("no rows", |answers| answers.len() == 1),
    ("eight rows", |answers| answers.len() == BENCHES + 1),
    ("weight 0", |answers| any_row(answers, |before, after| after.total == before.total)),
    ("silent votes", |answers| any_row(answers, |before, after| after.silent > before.silent)),
    ("equal bundles", |answers| any_row(answers, joins_the_greatest)),
    ("rival bundles", |answers| {
        answers.last().is_some_and(|last| last.greatest + last.silent < last.total)
    }),
    ("open, then won", |answers| {
        any_row(answers, |before, after| before.total > 0 && !before.won && after.won)
    }),
    ("won, then open", |answers| any_row(answers, |before, after| before.won && !after.won)),
    ("won again", |answers| rows(answers, |before, after| !before.won && after.won) > 1),
];

/// The names of the cases that an answer shows; none of a refusal.
pub fn names(answer: &[u8]) -> Vec<&'static str> {
    let mut lines = Answers::new(answer);
    let answers: Vec<Count> = std::iter::from_fn(|| lines.count().ok()).collect();
    CASES.iter().filter(|(_, shows)| shows(&answers)).map(|&(name, _)| name).collect()
}

/// How many rows there are of which this holds, by the answers before it and after it.
fn rows(answers: &[Count], holds: impl Fn(&Count, &Count) -> bool) -> usize {
    answers.windows(2).filter(|pair| holds(&pair[0], &pair[1])).count()
}

fn any_row(answers: &[Count], holds: impl Fn(&Count, &Count) -> bool) -> bool {
    rows(answers, holds) > 0
}

/// Neither the greatest group before nor the row alone has the weight of the one after.
fn joins_the_greatest(before: &Count, after: &Count) -> bool {
    after.greatest > before.greatest.max(after.total - before.total)
}

#[cfg(test)]
mod tests {
    use super::*;

    /// The cases of these answers, each of them won, greatest, silent and total.
    fn names_of(answers: &[[u32; 4]]) -> Vec<&'static str> {
        let line = |[won, greatest, silent, total]: &[u32; 4]| {
            let won = ["no", "yes"][*won as usize];
            format!("won={won} greatest={greatest} silent={silent} total={total}\n")
        };
        names(answers.iter().map(line).collect::<String>().as_bytes())
    }

    #[test]
    fn the_cases_of_answers() {
        assert_eq!(names_of(&[[0, 0, 0, 0]]), ["no rows"]);
        assert_eq!(names_of(&[[0, 0, 0, 0], [0, 0, 0, 0]]), ["weight 0"]);
        assert_eq!(names_of(&[[0, 0, 0, 0], [1, 1, 0, 1], [1, 2, 0, 2]]), ["equal bundles"]);
        // The second bundle is the heavier one, and no other's.
        let heavier = [[0, 0, 0, 0], [1, 1, 0, 1], [1, 2, 0, 3]];
        assert_eq!(names_of(&heavier), ["rival bundles"]);
        let answers = [[0, 0, 0, 0], [0, 0, 1, 1], [1, 3, 1, 4], [0, 3, 1, 6], [1, 5, 1, 8]];
        let expected = [
            "silent votes",
            "equal bundles",
            "rival bundles",
            "open, then won",
            "won, then open",
            "won again",
        ];
        assert_eq!(names_of(&answers), expected);
        assert_eq!(names_of(&[[0, 0, 0, 0]; BENCHES + 1]), ["eight rows", "weight 0"]);
    }

    #[test]
    fn a_refusal_shows_none() {
        assert_eq!(names(b"refused=14 line=2\n"), [""; 0]);
    }
}
