//! The request's examples, and wrong versions that the random tables have to show.

use super::stand_in::Planted;
use super::*;
use crate::compare::cut_down;
use std::sync::LazyLock;

fn printed(text: &[u8]) -> String {
    String::from_utf8(answer(text)).unwrap()
}

mod examples {
    use super::*;
    use crate::unity::sum::Answer;

    const PRIMES: [Answer; 3] = [[1, 0, 524_269], [1, 0, 524_261], [1, 0, 524_257]];

    /// What a table is answered, without the end of the line.
    fn said(table: &[Answer]) -> String {
        printed(&written(table)).trim_end().to_string()
    }

    fn followed(parts: &[&[Answer]]) -> String {
        said(&parts.concat())
    }

    #[test]
    fn no_rows() {
        assert_eq!(said(&[]), "mean=0/1 least=0/1 greatest=0/1 won=0 empty=0");
        assert_eq!(said(&[[0, 0, 0]; 2]), "mean=0/1 least=0/1 greatest=0/1 won=0 empty=2");
    }

    #[test]
    fn few_rows() {
        let table = [[3, 1, 6], [2, 0, 3], [0, 0, 0]];
        assert_eq!(said(&table), "mean=7/12 least=1/2 greatest=2/3 won=1 empty=1");
        let table = [[2, 2, 4], [1, 2, 3], [0, 3, 3]];
        assert_eq!(said(&table), "mean=5/18 least=0/1 greatest=1/2 won=0 empty=0");
    }

    #[test]
    fn rows_out_of_range() {
        assert_eq!(said(&[[1, 0, 524_281]]), "refused=2 line=1");
        assert_eq!(said(&[[0, 1, 0]]), "refused=2 line=1");
        assert_eq!(said(&[[1, 0, 2], [1 << 31, 1 << 31, 3]]), "refused=2 line=2");
        assert_eq!(
            said(&[[1, 0, 524_280]]),
            "mean=1/524280 least=1/524280 greatest=1/524280 won=0 empty=0"
        );
    }

    #[test]
    fn two_hundred_rows_and_no_more() {
        let full = [[1, 1, 2]; 200];
        assert_eq!(said(&full), "mean=1/2 least=1/2 greatest=1/2 won=0 empty=0");
        assert_eq!(followed(&[&full, &[[1, 1, 2]]]), "refused=3 line=201");
        assert_eq!(followed(&[&full, &[[3, 0, 2]]]), "refused=2 line=201");
        assert_eq!(followed(&[&full, &[[1, 1, 2], [3, 0, 2]]]), "refused=3 line=201");
    }

    #[test]
    fn three_large_primes_fit_and_a_fourth_does_not() {
        assert_eq!(
            said(&PRIMES),
            "mean=824552982419/432282070480799139 least=1/524269 greatest=1/524257 won=0 empty=0"
        );
        assert_eq!(followed(&[&PRIMES, &[[1, 0, 524_243]]]), "refused=17 line=4");
        assert_eq!(followed(&[&PRIMES, &[[1, 0, 524_243], [3, 0, 2]]]), "refused=17 line=4");
        assert_eq!(followed(&[&PRIMES, &[[3, 0, 2], [1, 0, 524_243]]]), "refused=2 line=4");
    }

    #[test]
    fn the_mean_alone_does_not_fit() {
        let zero = [0, 0, 1];
        assert!(followed(&[&PRIMES, &[zero; 125]]).starts_with("mean="));
        assert_eq!(followed(&[&PRIMES, &[zero; 126]]), "refused=17 line=129");
        assert_eq!(followed(&[&PRIMES, &[zero; 126], &[[0, 0, 0]]]), "refused=17 line=130");
        assert_eq!(followed(&[&PRIMES, &[zero; 126], &[[0, 1, 0]]]), "refused=2 line=130");
        assert_eq!(followed(&[&PRIMES, &[zero; 198]]), "refused=3 line=201");
    }

    #[test]
    fn the_numerator_alone_does_not_fit() {
        let rows = [&PRIMES[..], &[[1, 0, 32]], &[[1, 0, 1]; 8]].concat();
        let (_, sum) = sum::summed(&rows.iter().copied().map(Ok).collect::<Vec<_>>());
        assert_eq!(sum.denominator(), 4_611_008_751_795_190_816);
        assert_eq!(said(&rows), "refused=17 line=8");
    }
}

#[test]
fn the_first_faulty_line_decides_with_the_lowest_number() {
    let fine = "greatest=1 silent=0 total=2\n";
    let cases = [
        ("\n", "refused=1 line=1\n"),
        ("greatest=1 silent=0 total=2", "refused=1 line=1\n"),
        ("greatest=01 silent=0 total=2\n", "refused=1 line=1\n"),
        ("greatest=1  silent=0 total=2\n", "refused=1 line=1\n"),
        ("greatest=1 silent=0 total=2\r\n", "refused=1 line=1\n"),
        ("greatest=4294967296 silent=0 total=2\n", "refused=2 line=1\n"),
        ("greatest=0 silent=0 total=99999999999999999999\n", "refused=2 line=1\n"),
        ("greatest=3 silent=0 total=2\nunity\n", "refused=2 line=1\n"),
    ];
    for (text, expected) in cases {
        assert_eq!(printed(text.as_bytes()), expected, "{text}");
    }
    for (last, expected) in [(fine, 3), ("greatest=3 silent=0 total=2\n", 2), ("unity\n", 1)] {
        let text = fine.repeat(200) + last + "unity\n";
        assert_eq!(printed(text.as_bytes()), format!("refused={expected} line=201\n"));
    }
}

#[test]
fn a_line_of_a_text_may_have_100_bytes() {
    let line = |digits: usize| format!("greatest=0 silent=0 total={}\n", "7".repeat(digits));
    let begin = line(0).len() - 1;
    assert_eq!(printed(line(100 - begin).as_bytes()), "refused=2 line=1\n");
    assert_eq!(printed(line(101 - begin).as_bytes()), "refused=1 line=1\n");
}

/// The mean of the rows before does not fit, but none of these is the last.
#[test]
fn a_line_that_is_not_in_form_is_a_line() {
    let primes = written(&[[1, 0, 524_269], [1, 0, 524_261], [1, 0, 524_257]]);
    let text = [primes, written(&[[0, 0, 1]; 126])].concat();
    assert_eq!(printed(&text), "refused=17 line=129\n");
    for last in ["unity\n", "\n", "greatest=0 silent=0 total=1"] {
        assert_eq!(printed(&[&text, last.as_bytes()].concat()), "refused=1 line=130\n");
    }
}

/// The tables and texts of the default run, each with the model's answer.
struct Run {
    tables: Vec<Case>,
    texts: Vec<Case>,
}

struct Case {
    text: Vec<u8>,
    answer: Vec<u8>,
}

static RUN: LazyLock<Run> = LazyLock::new(|| {
    let case = |text: Vec<u8>| Case { answer: answer(&text), text };
    Run {
        tables: (1..=2000).map(|seed| case(written(&table(seed)))).collect(),
        texts: (1..=2000).map(|seed| case(text(seed))).collect(),
    }
});

/// Whether another implementation differs in one of them.
fn differs(cases: &[Case], other: impl Fn(&[u8]) -> Vec<u8>) -> bool {
    cases.iter().any(|case| case.answer != other(&case.text))
}

fn planted(planted: Planted) -> Other {
    by_function(move |table| stand_in::unity(table, planted))
}

#[test]
fn everything_occurs() {
    let mut counts = Counts::default();
    assert_eq!(counts.missing().len(), 57);
    RUN.tables.iter().for_each(|case| counts.count_table(&case.text));
    RUN.texts.iter().for_each(|case| counts.count_text(&case.text));
    assert_eq!(counts.missing(), [""; 0]);
}

#[test]
fn the_same_seed_gives_the_same_table_and_text() {
    for (seed, case) in (1..=20).zip(&RUN.texts) {
        assert_eq!(text(seed), case.text);
        assert_eq!(table(seed), table(seed));
    }
    assert_ne!(table(1), table(2));
}

#[test]
fn half_of_the_texts_are_those_of_tables() {
    let cases = RUN.tables.iter().zip(&RUN.texts);
    let same = cases.filter(|(table, text)| table.text == text.text).count();
    assert!((900..1200).contains(&same), "{same}");
}

#[test]
fn by_euclid_it_is_the_same() {
    assert!(!differs(&RUN.tables, planted(Planted::Nothing)));
}

#[test]
fn each_planted_fault_is_found() {
    for fault in Planted::FAULTS {
        assert!(differs(&RUN.tables, planted(fault)), "{fault:?}");
    }
}

#[test]
fn a_table_is_cut_down() {
    let table = written(&[[1, 0, 3], [0, 0, 0], [2, 1, 4], [3, 0, 6], [1, 0, 5]]);
    let half_is_won = planted(Planted::HalfIsWon);
    let cut = cut_down(&table, |fewer| answer(fewer) != half_is_won(fewer));
    assert_eq!(cut, written(&[[3, 0, 6]]));
}

#[test]
fn a_program_that_does_not_start_differs() {
    let program = by_program("/nowhere/unity".into());
    assert!(program(b"").starts_with(b"(/nowhere/unity: "));
}

/// Programs that read texts in another way, as changes before they are read.
mod readings {
    use super::*;

    type Change = fn(&str) -> String;

    fn differs_with(change: Change) -> bool {
        let changed = |text: &[u8]| change(&String::from_utf8_lossy(text)).into_bytes();
        differs(&RUN.texts, |text: &[u8]| answer(&changed(text)))
    }

    fn change_lines(text: &str, change: impl Fn(&str) -> String) -> String {
        text.split_inclusive('\n').map(change).collect()
    }

    /// What stands behind `=` is changed as far as it is digits.
    fn change_numbers(text: &str, change: Change) -> String {
        let change = |part: &str| {
            let end = part.find(|it: char| !it.is_ascii_digit()).unwrap_or(part.len());
            match part.split_at(end) {
                ("", rest) => rest.to_string(),
                (number, rest) => change(number) + rest,
            }
        };
        text.split('=').map(change).collect::<Vec<_>>().join("=")
    }

    fn is_large(number: &str) -> bool {
        number.parse::<u32>().is_err()
    }

    fn wrapped(number: &str) -> String {
        let append =
            |value: u32, digit: u8| value.wrapping_mul(10).wrapping_add((digit - b'0').into());
        number.bytes().fold(0, append).to_string()
    }

    #[test]
    fn nothing_changed_is_nothing_found() {
        assert!(!differs_with(str::to_string));
        assert!(!differs_with(|text| change_numbers(text, str::to_string)));
        assert!(!differs_with(|text| change_lines(text, str::to_string)));
    }

    #[test]
    fn each_is_found() {
        let changes: [(&str, Change); 12] = [
            ("the last line may lack its end", |text| {
                change_lines(text, |line| line.trim_end_matches('\n').to_string() + "\n")
            }),
            ("a line without its end is no line", |text| {
                text[..text.rfind('\n').map_or(0, |end| end + 1)].to_string()
            }),
            ("an empty line is no line", |text| {
                change_lines(text, |line| line.trim_start_matches('\n').to_string())
            }),
            ("13 may stand before 10", |text| text.replace("\r\n", "\n")),
            ("a space may stand before 10", |text| text.replace(" \n", "\n")),
            ("two spaces are one", |text| text.replace("  ", " ")),
            ("a number may have leading zeros", |text| {
                change_numbers(text, |number| match number.trim_start_matches('0') {
                    "" => "0".to_string(),
                    rest => rest.to_string(),
                })
            }),
            ("32 bits are kept of a number", |text| change_numbers(text, wrapped)),
            ("a number over 32 bits is not in form", |text| {
                change_numbers(text, |it| if is_large(it) { "x".into() } else { it.into() })
            }),
            ("a line may be longer", |text| {
                change_lines(text, |line| match line.len() {
                    0..=101 => line.to_string(),
                    _ => line.replace(&"7".repeat(20), "77777"),
                })
            }),
            ("a line of 100 bytes is too long", |text| {
                change_lines(text, |line| match line.len() {
                    101 => "\n".to_string(),
                    _ => line.to_string(),
                })
            }),
            ("lines after the 200th are not read", |text| {
                text.split_inclusive('\n').take(200).collect()
            }),
        ];
        for (name, change) in changes {
            assert!(differs_with(change), "{name}");
        }
    }

    /// The row before a line that is not in form is taken for the last.
    #[test]
    fn a_line_that_counts_for_nothing_is_found() {
        let other = |text: &[u8]| {
            let whole = answer(text);
            let faulty = text::rows(text).iter().position(Result::is_err);
            let lines = text.split_inclusive(|&byte| byte == b'\n');
            let before = faulty.map(|faulty| lines.take(faulty).collect::<Vec<_>>().concat());
            match before.map(|before| answer(&before)) {
                Some(before) if before.starts_with(b"refused=17") => before,
                _ => whole,
            }
        };
        assert!(differs(&RUN.texts, other));
    }

    /// The 201st row is refused before it is looked at.
    #[test]
    fn a_place_that_is_asked_for_first_is_found() {
        let other = |text: &[u8]| {
            let whole = String::from_utf8(answer(text)).unwrap();
            whole.replace("refused=1 line=201", "refused=3 line=201").into_bytes()
        };
        assert!(differs(&RUN.texts, other));
    }
}
