//! Tables as text, which the program `unity` reads, and what it prints.

use super::sum::{summed, Answer, Fault, Ground, Row, Unity};
use crate::form::{self, Line};
use crate::library::refusal;
use crate::model::text::put;

const FORM: &str = "greatest=# silent=# total=#";

/// The line of a row, without its end.
pub fn line([greatest, silent, total]: Answer) -> String {
    format!("greatest={greatest} silent={silent} total={total}")
}

/// The text of a table.
pub fn written(table: &[Answer]) -> Vec<u8> {
    table.iter().flat_map(|&answer| (line(answer) + "\n").into_bytes()).collect()
}

/// What its lines give.
pub fn rows(text: &[u8]) -> Vec<Row> {
    form::lines(text).map(row).collect()
}

fn row(line: Line) -> Row {
    let found = form::find(&[((), FORM)], line.bytes).filter(|_| line.ended);
    let ((), numbers) = found.ok_or(Ground::Form)?;
    let [greatest, silent, total, ..] = numbers.map_err(|_| Ground::Range)?;
    Ok([greatest, silent, total])
}

/// What the model prints for a text.
pub fn answer(text: &[u8]) -> Vec<u8> {
    match summed(&rows(text)).0 {
        Ok(unity) => accepted(&unity),
        Err(Fault { ground, row }) => refusal(ground.number(), row),
    }
}

/// The line that is printed for an accepted table.
pub fn accepted(unity: &Unity) -> Vec<u8> {
    let Unity { mean, least, greatest, won, empty } = unity;
    let mut printed = Vec::new();
    put(
        &mut printed,
        format_args!("mean={mean} least={least} greatest={greatest} won={won} empty={empty}"),
    );
    printed
}
