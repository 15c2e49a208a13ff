//! The answers to a log, read one after another by their forms.

use crate::form::{self, Numbers};

/// Why an answer is not that of an accepted call.
#[derive(Clone, PartialEq, Eq, Debug)]
pub enum Failure {
    /// The call was refused with this number.
    Refused(u32),
    /// No answer to the call looks like this.
    Unexpected(Vec<u8>),
}

/// What an election says.
#[derive(Clone, Copy, PartialEq, Eq, Debug)]
pub struct Count {
    pub won: bool,
    pub greatest: u32,
    pub silent: u32,
    pub total: u32,
}

/// What an accepted adoption says.
#[derive(Clone, Copy, PartialEq, Eq, Debug)]
pub struct Adoption {
    pub count: Count,
    pub undone: u32,
    pub redone: u32,
}

/// What the report on a text says of one edit.
#[derive(Clone, Copy, PartialEq, Eq, Debug)]
pub struct Mark {
    pub edit: u32,
    pub must: bool,
    pub never: bool,
}

/// Answers that are still to be read.
pub struct Answers<'bytes> {
    rest: &'bytes [u8],
}

impl<'bytes> Answers<'bytes> {
    pub fn new(bytes: &'bytes [u8]) -> Answers<'bytes> {
        Answers { rest: bytes }
    }

    /// The text of a record after its counts.
    pub fn record(&mut self) -> Result<Vec<u8>, Failure> {
        let [edits, rules, ..] = self.numbers("edits=# rules=#")?;
        self.text(edits, rules)
    }

    /// A bundle's text; none if it is not eligible.
    pub fn bundle(&mut self) -> Result<Option<Vec<u8>>, Failure> {
        let [eligible, edits, rules, ..] = self.numbers("eligible=? edits=# rules=#")?;
        let text = self.text(edits, rules)?;
        Ok((eligible == 1).then_some(text))
    }

    pub fn count(&mut self) -> Result<Count, Failure> {
        self.numbers("won=? greatest=# silent=# total=#").map(count)
    }

    pub fn adoption(&mut self) -> Result<Adoption, Failure> {
        let form = "won=? greatest=# silent=# total=# undone=# redone=# open=# last=#";
        let numbers = self.numbers(form)?;
        let [_, _, _, _, undone, redone, ..] = numbers;
        Ok(Adoption { count: count(numbers), undone, redone })
    }

    /// The report on a text.
    pub fn report(&mut self) -> Result<Vec<Mark>, Failure> {
        let [edits, ..] = self.numbers("edits=# rules=#")?;
        (0..edits).map(|_| self.mark()).collect()
    }

    fn mark(&mut self) -> Result<Mark, Failure> {
        let form = "edit=# must=? never=? settled=? place=#";
        let [edit, must, never, ..] = self.numbers(form)?;
        Ok(Mark { edit, must: must == 1, never: never == 1 })
    }

    /// Nothing is left.
    pub fn end(&mut self) -> Result<(), Failure> {
        match self.rest.is_empty() {
            true => Ok(()),
            false => Err(Failure::Unexpected(self.line().to_vec())),
        }
    }

    /// What stands at the marks of the next line, which has this form if the call
    /// was accepted.
    fn numbers(&mut self, form: &str) -> Result<Numbers, Failure> {
        let line = self.line();
        let bytes = line.strip_suffix(b"\n").unwrap_or_default();
        let found = form::find(&[(true, form), (false, "refused=# line=#")], bytes);
        match found {
            Some((true, Ok(numbers))) => Ok(numbers),
            Some((false, Ok([number, ..]))) => Err(Failure::Refused(number)),
            _ => Err(Failure::Unexpected(line.to_vec())),
        }
    }

    /// The lines of so many edits and constraints.
    fn text(&mut self, edits: u32, rules: u32) -> Result<Vec<u8>, Failure> {
        let mut text = Vec::new();
        for _ in 0..u64::from(edits) + u64::from(rules) {
            let line = self.line();
            text.extend_from_slice(line);
            if !line.ends_with(b"\n") {
                return Err(Failure::Unexpected(text));
            }
        }
        Ok(text)
    }

    /// The next line with its end, if it has one; nothing after the last.
    fn line(&mut self) -> &'bytes [u8] {
        let end = self.rest.iter().position(|&byte| byte == b'\n');
        let (line, rest) = self.rest.split_at(end.map_or(self.rest.len(), |end| end + 1));
        self.rest = rest;
        line
    }
}

fn count([won, greatest, silent, total, ..]: Numbers) -> Count {
    Count { won: won == 1, greatest, silent, total }
}

#[cfg(test)]
mod tests {
    use super::*;

    #[test]
    fn answers_are_read_one_after_another() {
        let line = "left=257 rule=enables right=0\n";
        let lines = format!(
            "edits=0 rules=1\n{line}eligible=no edits=0 rules=0\n\
             eligible=yes edits=0 rules=1\n{line}refused=5 line=7\n\
             won=yes greatest=5 silent=1 total=6\n\
             won=yes greatest=5 silent=1 total=6 undone=2 redone=3 open=6 last=6\n\
             edits=1 rules=0\nedit=257 must=yes never=no settled=yes place=1\n"
        );
        let mut answers = Answers::new(lines.as_bytes());
        let count = Count { won: true, greatest: 5, silent: 1, total: 6 };
        assert_eq!(answers.record(), Ok(line.into()));
        assert_eq!(answers.bundle(), Ok(None));
        assert_eq!(answers.bundle(), Ok(Some(line.into())));
        assert_eq!(answers.bundle(), Err(Failure::Refused(5)));
        assert_eq!(answers.count(), Ok(count));
        assert_eq!(answers.adoption(), Ok(Adoption { count, undone: 2, redone: 3 }));
        assert_eq!(answers.report(), Ok(vec![Mark { edit: 257, must: true, never: false }]));
        assert_eq!(answers.end(), Ok(()));
    }

    #[test]
    fn anything_else_is_unexpected() {
        let cases = ["", "edits=1 rules=0", "edits=4294967295 rules=4294967295\n", "(signal)\n"];
        for lines in cases {
            let record = Answers::new(lines.as_bytes()).record();
            assert!(matches!(record, Err(Failure::Unexpected(_))), "{lines}");
        }
        assert!(Answers::new(b"more").end().is_err());
    }
}
