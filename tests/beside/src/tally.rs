//! What was given and how it was answered, counted, and every difference.

use std::collections::BTreeMap;
use std::process::ExitCode;

/// So many differences are printed in full, the others cut.
const FULL: u64 = 20;
const CUT: usize = 100;

/// What a reader says of an input.
#[derive(Clone, Copy, PartialEq, Eq)]
pub enum Said {
    /// An answer, whose row stands elsewhere.
    Row,
    /// A refusal's number.
    Refused(u8),
    /// Memory changed that the reader may not write, so that no answer counts.
    Strayed,
    /// Two of our calls that must say the same do not.
    Torn,
    /// The judge said nothing that ours could agree with.
    Unjudged,
}

impl Said {
    /// The same, if the memory around what the answer owns is as it was found.
    pub fn if_kept(self, kept: bool) -> Self {
        if kept { self } else { Said::Strayed }
    }

    /// In the words of a row.
    pub fn told(self, row: &str) -> String {
        match self {
            Said::Row => row.into(),
            Said::Refused(number) => format!("refused {number}"),
            Said::Strayed => "strayed".into(),
            Said::Torn => "torn".into(),
            Said::Unjudged => "unjudged".into(),
        }
    }

    /// The refusal's number, 0 for none.
    fn number(self) -> u8 {
        match self {
            Said::Refused(number) => number,
            _ => 0,
        }
    }
}

#[derive(Default)]
pub struct Tally {
    counts: BTreeMap<(&'static str, u8), u64>,
    given: u64,
    differences: u64,
}

impl Tally {
    /// How many were given before this one.
    pub fn given(&self) -> u64 {
        self.given
    }

    /// One more of a class that is counted beside the answers.
    pub fn also(&mut self, class: &'static str) {
        self.beside(class, Said::Row);
    }

    /// One more answer to an input that is counted by another.
    pub fn beside(&mut self, class: &'static str, said: Said) {
        *self.counts.entry((class, said.number())).or_default() += 1;
    }

    /// One more input, answered as it must be.
    pub fn same(&mut self, class: &'static str, said: Said) {
        self.given += 1;
        self.beside(class, said);
    }

    /// One more input, and what was wrong with the answer of the reading named.
    pub fn differ(
        &mut self,
        reading: &str,
        input: &[u8],
        expected: String,
        ours: String,
        rust: &str,
    ) {
        self.given += 1;
        self.differences += 1;
        let whole = self.differences <= FULL;
        let cut = |text: &str| match text.get(..CUT) {
            Some(start) if !whole => format!("{start}.."),
            _ => text.into(),
        };
        println!(
            "difference in {reading} \"{}\"",
            cut(&input.escape_ascii().to_string())
        );
        println!("  expected {}", cut(&expected));
        println!("  ours     {}", cut(&ours));
        if expected != rust {
            println!("  the Rust {}", cut(rust));
        }
    }

    /// Name, tabulator and count, one row each, and 1 for the caller if there is a difference.
    pub fn show(&self) -> ExitCode {
        for ((class, number), count) in &self.counts {
            match number {
                0 => println!("{class}\t{count}"),
                _ => println!("{class} {number}\t{count}"),
            }
        }
        println!("given\t{}\ndifferences\t{}", self.given, self.differences);
        ExitCode::from(u8::from(self.differences > 0))
    }
}
