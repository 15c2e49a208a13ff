//! The library's function on tables. What it replies is checked for its form here.

use super::share::Share;
use super::sum::{Answer, Unity};
use super::text::{accepted, rows};
use super::Other;
use crate::library::refusal;

/// What the function gives back.
#[repr(C)]
#[derive(Clone, Copy, PartialEq, Eq, Debug)]
pub struct Reply {
    /// 0 if accepted, otherwise the number of the ground.
    pub number: u32,
    /// The row of the fault, from 1; 0 if accepted.
    pub row: usize,
    pub mean: Share,
    pub least: Share,
    pub greatest: Share,
    pub won: usize,
    pub empty: usize,
}

/// The library's function, or another in its place.
pub type Function = fn(&[Answer]) -> Reply;

/// The function of the archive, if this was built with it.
pub fn archive() -> Option<Function> {
    #[cfg(feature = "library")]
    return Some(archive::catalogue_unity);
    #[cfg(not(feature = "library"))]
    None
}

#[cfg(feature = "library")]
mod archive {
    use super::{Answer, Reply};

    crate::functions_of_slices! {
        pub fn catalogue_unity(answers: &[Answer]) -> Reply;
    }
}

/// What a function would print for a text that has a row in each of its lines.
pub fn by_function(function: impl Fn(&[Answer]) -> Reply + 'static) -> Other {
    Box::new(move |text| {
        let table: Result<Vec<Answer>, _> = rows(text).into_iter().collect();
        function(&table.expect("each line is a row")).printed()
    })
}

impl Reply {
    /// A refusal says nothing else: its shares are 0 and 0.
    pub fn refused(number: u32, row: usize) -> Reply {
        const NO_SHARE: Share = Share { numerator: 0, denominator: 0 };
        let (mean, least, greatest) = (NO_SHARE, NO_SHARE, NO_SHARE);
        Reply { number, row, mean, least, greatest, won: 0, empty: 0 }
    }

    pub fn accepted(unity: Unity) -> Reply {
        let Unity { mean, least, greatest, won, empty } = unity;
        Reply { number: 0, row: 0, mean, least, greatest, won, empty }
    }

    /// As `unity` prints it, or, if the reply has a fault in its form, a line in
    /// brackets that no answer looks like.
    fn printed(&self) -> Vec<u8> {
        let Reply { number, row, mean, least, greatest, won, empty } = *self;
        let unity = Unity { mean, least, greatest, won, empty };
        if *self == Reply::accepted(unity) {
            accepted(&unity)
        } else if number == 0 {
            format!("(accepted, with a row: {self:?})\n").into_bytes()
        } else if *self == Reply::refused(number, row) {
            refusal(number, row)
        } else {
            format!("(refused, with more than number and row: {self:?})\n").into_bytes()
        }
    }
}

#[cfg(test)]
mod tests {
    use super::*;

    #[test]
    fn a_fault_in_the_form_is_no_answer() {
        let half = Share { numerator: 1, denominator: 2 };
        let unity = Unity { mean: half, least: half, greatest: half, won: 0, empty: 3 };
        let accepted = Reply::accepted(unity);
        assert_eq!(accepted.printed(), b"mean=1/2 least=1/2 greatest=1/2 won=0 empty=3\n");
        let with_row = Reply { row: 1, ..accepted };
        assert!(with_row.printed().starts_with(b"(accepted, with a row: "));
        let refused = Reply::refused(17, 4);
        assert_eq!(refused.printed(), b"refused=17 line=4\n");
        let with_more = [
            Reply { mean: half, ..refused },
            Reply { least: Share::NONE, ..refused },
            Reply { greatest: Share::NONE, ..refused },
            Reply { won: 1, ..refused },
            Reply { empty: 1, ..refused },
        ];
        for reply in with_more {
            assert!(reply.printed().starts_with(b"(refused, with more than "), "{reply:?}");
        }
    }
}
