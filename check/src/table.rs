//! Tables of what was counted.

use std::fmt;

/// Something that was counted, and how often.
pub struct Row {
    title: String,
    name: String,
    pub count: u64,
}

impl Row {
    pub fn new(title: &str, name: &str, count: u64) -> Row {
        Row { title: title.to_string(), name: name.to_string(), count }
    }
}

/// What it is, without how often.
impl fmt::Display for Row {
    fn fmt(&self, out: &mut fmt::Formatter) -> fmt::Result {
        write!(out, "{}: {}", self.title, self.name)
    }
}

/// Writes rows below their titles.
pub fn write_table(rows: &[Row], out: &mut fmt::Formatter) -> fmt::Result {
    let mut last = "";
    for Row { title, name, count } in rows {
        if last != title {
            writeln!(out, "{title}")?;
            last = title;
        }
        writeln!(out, "    {name:<20}{count:>10}")?;
    }
    Ok(())
}
