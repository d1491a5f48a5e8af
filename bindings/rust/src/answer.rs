//! What the calls answer.

use std::error::Error;
use std::fmt;

/// Each answer with its sentence, in the order of the numbers that C gets: the enum, and the table of both.
macro_rules! answers {
    ($($name:ident => $sentence:literal,)*) => {
        /// What a call, or an edit of a run, answers: done, or why it was refused.
        #[derive(Clone, Copy, Debug, PartialEq, Eq, Hash)]
        pub enum Answer {
            $(#[doc = concat!($sentence, ".")] $name,)*
        }

        const ANSWERS: [(Answer, &str); 17] = [$((Answer::$name, $sentence),)*];
    };
}

answers! {
    Done => "done",
    PartsDisagree => "the lent parts disagree in length, or the room is above the maximum",
    IndexTooLarge => "a face names a vertex that is not there",
    RepeatedVertex => "a face names a vertex twice",
    NotFinite => "a point is not finite",
    NoVertexRoom => "there is no room for a vertex more",
    NoCornerRoom => "there is no room for the corners of a face more",
    NotWellFormed => "the table is not well-formed",
    BadScript => "the script is not five words to a command, or there are fewer answer words than commands",
    NoSuchTarget => "there is no such target",
    TargetDeleted => "the target is deleted",
    Border => "the edge lies on the border, or ends there",
    SameVertex => "the edge has the same vertex on both sides",
    UnsafeCollapse => "the collapse is not safe",
    UnknownKind => "the command is of an unknown kind",
    Tangled => "the walk is tangled",
    ListTooSmall => "the list has too little room",
}

impl Answer {
    /// The number that C gets.
    pub fn number(self) -> u32 {
        self as u32
    }

    /// The answer of a number below 17. The library hands back no other.
    pub(crate) fn of(number: u32) -> Answer {
        ANSWERS[number as usize].0
    }

    /// `value` where the call is done; else why it was refused.
    pub(crate) fn or<T>(self, value: T) -> Result<T, Answer> {
        match self {
            Answer::Done => Ok(value),
            refused => Err(refused),
        }
    }
}

impl fmt::Display for Answer {
    fn fmt(&self, f: &mut fmt::Formatter) -> fmt::Result {
        f.write_str(ANSWERS[*self as usize].1)
    }
}

impl Error for Answer {}

/// Why a table is none: its parts disagree, or it breaks a rule, the lowest, at a slot, the lowest.
#[derive(Clone, Copy, Debug, PartialEq, Eq)]
pub struct Broken {
    /// `PartsDisagree` or `NotWellFormed`.
    pub answer: Answer,
    /// 1 to 6, or 0 where the parts disagree.
    pub rule: u32,
    /// The slot of a corner or a vertex, by the rule; 0 for rule 1.
    pub slot: u32,
}

impl fmt::Display for Broken {
    fn fmt(&self, f: &mut fmt::Formatter) -> fmt::Result {
        match self.answer {
            Answer::NotWellFormed => write!(f, "{}: rule {}, slot {}", self.answer, self.rule, self.slot),
            answer => answer.fmt(f),
        }
    }
}

impl Error for Broken {}

#[cfg(test)]
mod tests {
    use super::*;

    #[test]
    fn every_answer_stands_at_its_number() {
        for (i, (answer, sentence)) in ANSWERS.iter().enumerate() {
            assert_eq!(answer.number() as usize, i);
            assert_eq!(Answer::of(i as u32), *answer);
            assert_eq!(answer.to_string(), *sentence);
        }
    }
}
