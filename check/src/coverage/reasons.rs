//! Which kinds of reason were given, seen in the answers to why.

/// The names of a chain, and of a ring, which the reason of an edit that must stand
/// lacks.
pub struct Rows<'answer> {
    chain: Vec<&'answer str>,
    ring: Vec<&'answer str>,
}

/// What can be seen, and a test of the reason.
type Case = (&'static str, fn(&Rows) -> bool);

/// So many names are a long row.
const LONG: usize = 20;

/// All of them must occur; one answer may show several.
pub const CASES: [Case; 11] = [
    ("must, required", |rows| rows.ring.is_empty() && rows.chain.len() == 2),
    ("must, a chain", |rows| rows.ring.is_empty() && rows.chain.len() > 2),
    ("must, a long chain", |rows| rows.ring.is_empty() && rows.chain.len() > LONG),
    ("never, from INIT", |rows| rows.chain[0] == "0"),
    ("never, from the edit", |rows| !rows.ring.is_empty() && rows.chain[0] != "0"),
    ("never, a long chain", |rows| !rows.ring.is_empty() && rows.chain.len() > LONG),
    ("in its own ring", |rows| rows.ring.len() > 1 && rows.chain.len() == 1),
    ("aborted", |rows| rows.ring.len() == 1 && rows.chain.len() == 1),
    ("to an aborted edit", |rows| rows.ring.len() == 1 && rows.chain.len() > 1),
    ("to a ring", |rows| rows.ring.len() > 1 && rows.chain.len() > 1),
    ("to a long ring", |rows| rows.ring.len() > LONG && rows.chain.len() > 1),
];

/// The names of the cases that an answer shows; none of a refusal.
pub fn names(answer: &[u8]) -> Vec<&'static str> {
    let Some(rows) = rows(answer) else { return Vec::new() };
    CASES.iter().filter(|(_, shows)| shows(&rows)).map(|&(name, _)| name).collect()
}

fn rows(answer: &[u8]) -> Option<Rows<'_>> {
    let answer = std::str::from_utf8(answer).ok()?;
    let row = |key| answer.split_whitespace().find_map(|word| word.strip_prefix(key));
    let chain = row("chain=")?.split(',').collect();
    Some(Rows { chain, ring: row("ring=").map_or(Vec::new(), |ring| ring.split(',').collect()) })
}

#[cfg(test)]
mod tests {
    use super::*;

    #[test]
    fn the_cases_of_answers() {
        let cases: [(&str, &[&str]); 6] = [
            ("edit=257 why=must chain=257,0", &["must, required"]),
            ("edit=257 why=must chain=257,513,0", &["must, a chain"]),
            ("edit=257 why=never chain=257 ring=257", &["never, from the edit", "aborted"]),
            ("edit=258 why=never chain=0,257 ring=257,259", &["never, from INIT", "to a ring"]),
            (
                "edit=258 why=never chain=258,257 ring=257",
                &["never, from the edit", "to an aborted edit"],
            ),
            ("refused=15 line=1", &[]),
        ];
        for (answer, expected) in cases {
            assert_eq!(names(format!("{answer}\n").as_bytes()), expected, "{answer}");
        }
    }
}
