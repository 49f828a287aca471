//! Refusals: why a call turned its input down.

/// Why a call turned its input down. Which refusals a call gives, and in which order, is said at the call. Later versions
/// may have more.
#[derive(Clone, Copy, PartialEq, Eq, Hash, Debug)]
#[non_exhaustive]
pub enum Refusal {
    /// 1: fewer bytes are left than the next line of the sheet takes.
    LineCutShort,
    /// 2: a column or a line end of the sheet is not as described. A blank column is 0.
    ColumnBroken,
    /// 3: a count of the sheet is outside its range.
    CountOutOfRange,
    /// 4: a state number of the sheet is out of turn, or its mark is above 15 or has both 4 and 8.
    StateBroken,
    /// 5: a transition of the sheet names a state or a letter that is not there.
    TransitionBroken,
    /// 6: the transitions of the sheet do not rise strictly.
    NotRising,
    /// 7: bytes follow the last line of the sheet.
    BytesLeft,
    /// 8: a word has letter 0 or a letter above the machine's count, or a written byte has no letter.
    WordLetter,
    /// 9: a word is too long, or a run is too long for a page.
    WordTooLong,
    /// 10: the second machine is not plain.
    NotPlain,
    /// 11: the two machines' letter counts differ.
    LettersDiffer,
    /// 12: the state counts multiplied exceed 64.
    TooManyStates,
    /// 13: the product's transitions exceed 4,000.
    TooManyTransitions,
    /// 14: copies or a page are wanted of a run that does not accept.
    NotAccepting,
    /// 15: the list for transitions is too short.
    ListTooShort { needed: usize },
    /// 16: a machine and its list break the rules for machines.
    MachineBroken,
    /// 17: the slice for a run is too short.
    RunTooShort { needed: usize },
    /// 18: the slice for a word is too short.
    WordTooShort { needed: usize },
    /// 19: the slice for a sheet or a page is too short.
    SheetTooShort { needed: usize },
    /// 20: the slice for copies is too short.
    CopiesTooShort { needed: usize },
    /// 34: the ends of the words of a list fall, or lie past the letters.
    EndsBroken,
    /// 35: the slice for answers is too short.
    AnswersTooShort { needed: usize },
    /// 36: the slice for sets of states is too short.
    SetsTooShort { needed: usize },
}

impl Refusal {
    /// The number of the refusal: up to 20 that of document 01, 34 to 36 are this library's own.
    pub fn number(self) -> u8 {
        match self {
            Refusal::LineCutShort => 1,
            Refusal::ColumnBroken => 2,
            Refusal::CountOutOfRange => 3,
            Refusal::StateBroken => 4,
            Refusal::TransitionBroken => 5,
            Refusal::NotRising => 6,
            Refusal::BytesLeft => 7,
            Refusal::WordLetter => 8,
            Refusal::WordTooLong => 9,
            Refusal::NotPlain => 10,
            Refusal::LettersDiffer => 11,
            Refusal::TooManyStates => 12,
            Refusal::TooManyTransitions => 13,
            Refusal::NotAccepting => 14,
            Refusal::ListTooShort { .. } => 15,
            Refusal::MachineBroken => 16,
            Refusal::RunTooShort { .. } => 17,
            Refusal::WordTooShort { .. } => 18,
            Refusal::SheetTooShort { .. } => 19,
            Refusal::CopiesTooShort { .. } => 20,
            Refusal::EndsBroken => 34,
            Refusal::AnswersTooShort { .. } => 35,
            Refusal::SetsTooShort { .. } => 36,
        }
    }

    /// The length that the slice needs, in its own elements; 0 if the refusal is not about a slice's length.
    pub fn needed(self) -> usize {
        match self {
            Refusal::ListTooShort { needed }
            | Refusal::RunTooShort { needed }
            | Refusal::WordTooShort { needed }
            | Refusal::SheetTooShort { needed }
            | Refusal::CopiesTooShort { needed }
            | Refusal::AnswersTooShort { needed }
            | Refusal::SetsTooShort { needed } => needed,
            _ => 0,
        }
    }

    /// The refusal of a record as an error: none for 0.
    pub(crate) fn check(number: u8, needed: usize) -> Result<(), Refusal> {
        Err(match number {
            0 => return Ok(()),
            1 => Refusal::LineCutShort,
            2 => Refusal::ColumnBroken,
            3 => Refusal::CountOutOfRange,
            4 => Refusal::StateBroken,
            5 => Refusal::TransitionBroken,
            6 => Refusal::NotRising,
            7 => Refusal::BytesLeft,
            8 => Refusal::WordLetter,
            9 => Refusal::WordTooLong,
            10 => Refusal::NotPlain,
            11 => Refusal::LettersDiffer,
            12 => Refusal::TooManyStates,
            13 => Refusal::TooManyTransitions,
            14 => Refusal::NotAccepting,
            15 => Refusal::ListTooShort { needed },
            16 => Refusal::MachineBroken,
            17 => Refusal::RunTooShort { needed },
            18 => Refusal::WordTooShort { needed },
            19 => Refusal::SheetTooShort { needed },
            20 => Refusal::CopiesTooShort { needed },
            34 => Refusal::EndsBroken,
            35 => Refusal::AnswersTooShort { needed },
            36 => Refusal::SetsTooShort { needed },
            _ => unreachable!("refusals are numbered 1 to 20 and 34 to 36"),
        })
    }
}

impl std::fmt::Display for Refusal {
    fn fmt(&self, f: &mut std::fmt::Formatter<'_>) -> std::fmt::Result {
        let text = match self {
            Refusal::LineCutShort => "fewer bytes are left than the next line takes",
            Refusal::ColumnBroken => "a column or a line end is not as described",
            Refusal::CountOutOfRange => "a count is outside its range",
            Refusal::StateBroken => "a state number is out of turn or a mark is not allowed",
            Refusal::TransitionBroken => "a transition names a state or a letter that is not there",
            Refusal::NotRising => "the transitions do not rise strictly",
            Refusal::BytesLeft => "bytes follow the last line",
            Refusal::WordLetter => {
                "a word has letter 0, a letter above the count, or a byte with no letter"
            }
            Refusal::WordTooLong => "a word or a run is too long",
            Refusal::NotPlain => "the second machine is not plain",
            Refusal::LettersDiffer => "the letter counts differ",
            Refusal::TooManyStates => "the state counts multiplied exceed 64",
            Refusal::TooManyTransitions => "the product's transitions exceed 4,000",
            Refusal::NotAccepting => "the run does not accept",
            Refusal::ListTooShort { .. } => "the list for transitions is too short",
            Refusal::MachineBroken => "a machine and its list break the rules for machines",
            Refusal::RunTooShort { .. } => "the slice for a run is too short",
            Refusal::WordTooShort { .. } => "the slice for a word is too short",
            Refusal::SheetTooShort { .. } => "the slice for a sheet or a page is too short",
            Refusal::CopiesTooShort { .. } => "the slice for copies is too short",
            Refusal::EndsBroken => "the ends of the words fall, or lie past the letters",
            Refusal::AnswersTooShort { .. } => "the slice for answers is too short",
            Refusal::SetsTooShort { .. } => "the slice for sets of states is too short",
        };
        write!(f, "refusal {}: {text}", self.number())?;
        match self.needed() {
            0 => Ok(()),
            needed => write!(f, ", it needs {needed} elements"),
        }
    }
}

impl std::error::Error for Refusal {}
