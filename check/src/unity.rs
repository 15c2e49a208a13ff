//! Document 02's request A9: how united the benches are, from a table of election
//! answers. The model of it, random tables, and the comparison with the library's
//! function and the program `unity`.

mod counts;
mod factors;
mod function;
mod near;
mod outcomes;
mod parts;
mod share;
#[cfg(test)]
mod stand_in;
mod sum;
mod tables;
#[cfg(test)]
mod tests;
mod text;
mod texts;

pub use counts::Counts;
pub use function::{archive, by_function, Function, Reply};
pub use tables::table;
pub use text::{answer, written};
pub use texts::text;

use crate::compare::printed;
use std::path::PathBuf;

/// Another implementation: what it prints for the text of a table.
pub type Other = Box<dyn Fn(&[u8]) -> Vec<u8>>;

pub fn by_program(path: PathBuf) -> Other {
    Box::new(move |text| printed(&path, text))
}
