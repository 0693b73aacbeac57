//! Why a call is refused.
use std::error::Error;
use std::fmt;

/// Why a call is refused, with the number of document 01 or 02. More may come.
#[derive(Clone, Copy, Debug, PartialEq, Eq, Hash)]
#[non_exhaustive]
pub enum Refusal {
    /// 1: a size of the table is over its limit or does not fit its length.
    TableSizes,
    /// 2: a rule number or an atom of the table is wrong.
    TableContents,
    /// 3: the state's count or next id is not valid, or its length does not fit.
    StateSizes,
    /// 4: an entry of the state is wrong, or a transaction lacks its own member mark.
    StateContents,
    /// 5: the move's length is not 5, its kind, rule or id is not valid, or a spare pick is not 0.
    MoveForm,
    /// 6: the target is too short: a state wants 2,050 words, a serial log of k moves or a budget of k 1 + 5k, a page
    /// of k moves 5k.
    TargetTooShort,
    /// 7: a picked entry is missing, picked twice, no message, or on the wrong port.
    WrongPick,
    /// 8: the rule may not consume from the owners of the picked messages.
    WrongOwner,
    /// 9: no transaction is open under this id.
    NoTransaction,
    /// 10: a commit wants no abort mark and no message off the global ports, an abort wants an abort mark.
    EndNotAllowed,
    /// 11: a transaction cannot begin, all ids are used up: the next is 65,536.
    NoMoreIds,
    /// 12: the state would have more than 1,024 entries.
    TooManyEntries,
    /// 13: the log's count is over 1,024 or does not fit its length.
    LogSizes,
    /// 14: a rule of the table begins a transaction and emits, so that no serial log is made.
    BeginEmits,
    /// 15: a transaction is open before or after the log, so that no serial log is made.
    TransactionOpen,
    /// 16: one of the log's moves is refused.
    MoveRefused {
        /// The move's place in the log, from 0.
        place: u32,
        /// The number with which the move itself is refused: 5, 7 to 12, or 18.
        own: u32,
    },
    /// 17: a state along the serial log would have more than 1,024 entries.
    SerialTooManyEntries,
    /// 18: the transaction of a picked message has an abort mark, so that it may only be aborted.
    TransactionAborting,
    /// 19: the budget of an unattended run is over 1,024.
    BudgetTooLarge,
    /// A number that this crate does not know: the archive is newer.
    Unknown(u32),
}

/// The refusals that are a number alone, each with what it means.
#[rustfmt::skip]
const MEANINGS: [(u32, Refusal, &str); 18] = [
    (1, Refusal::TableSizes, "a size of the table is over its limit or does not fit its length"),
    (2, Refusal::TableContents, "a rule number or an atom of the table is wrong"),
    (3, Refusal::StateSizes, "the state's count or next id is not valid, or its length does not fit"),
    (4, Refusal::StateContents, "an entry of the state is wrong, or a transaction lacks its own member mark"),
    (5, Refusal::MoveForm,
        "the move's length is not 5, its kind, rule or id is not valid, or a spare pick is not 0"),
    (6, Refusal::TargetTooShort,
        "the target is too short: a state wants 2,050 words, a serial log of k moves or a budget of k 1 + 5k, \
         a page of k moves 5k"),
    (7, Refusal::WrongPick, "a picked entry is missing, picked twice, no message, or on the wrong port"),
    (8, Refusal::WrongOwner, "the rule may not consume from the owners of the picked messages"),
    (9, Refusal::NoTransaction, "no transaction is open under this id"),
    (10, Refusal::EndNotAllowed,
        "a commit wants no abort mark and no message off the global ports, an abort wants an abort mark"),
    (11, Refusal::NoMoreIds, "a transaction cannot begin, all ids are used up: the next is 65,536"),
    (12, Refusal::TooManyEntries, "the state would have more than 1,024 entries"),
    (13, Refusal::LogSizes, "the log's count is over 1,024 or does not fit its length"),
    (14, Refusal::BeginEmits, "a rule of the table begins a transaction and emits, so that no serial log is made"),
    (15, Refusal::TransactionOpen, "a transaction is open before or after the log, so that no serial log is made"),
    (17, Refusal::SerialTooManyEntries, "a state along the serial log would have more than 1,024 entries"),
    (18, Refusal::TransactionAborting,
        "the transaction of a picked message has an abort mark, so that it may only be aborted"),
    (19, Refusal::BudgetTooLarge, "the budget of an unattended run is over 1,024"),
];

impl Refusal {
    /// The number of document 01 or 02.
    pub fn number(self) -> u32 {
        match self {
            Refusal::MoveRefused { .. } => 16,
            Refusal::Unknown(number) => number,
            _ => MEANINGS.iter().find(|meaning| meaning.1 == self).map_or(0, |meaning| meaning.0),
        }
    }

    /// The refusal of this number; 16 is unknown without the move's place.
    pub fn from_number(number: u32) -> Refusal {
        let known = MEANINGS.iter().find(|meaning| meaning.0 == number);
        known.map_or(Refusal::Unknown(number), |meaning| meaning.1)
    }

    /// Why the log's move is refused, with [`Refusal::MoveRefused`].
    pub fn own(self) -> Option<Refusal> {
        match self {
            Refusal::MoveRefused { own, .. } => Some(Refusal::from_number(own)),
            _ => None,
        }
    }

    fn meaning(self) -> &'static str {
        MEANINGS.iter().find(|meaning| meaning.1 == self).map_or("this number is not known", |meaning| meaning.2)
    }
}

impl fmt::Display for Refusal {
    fn fmt(&self, f: &mut fmt::Formatter<'_>) -> fmt::Result {
        match self {
            Refusal::MoveRefused { place, own } => {
                let why = Refusal::from_number(*own).meaning();
                write!(f, "refused with 16: move {place} of the log is refused with {own}: {why}")
            }
            _ => write!(f, "refused with {}: {}", self.number(), self.meaning()),
        }
    }
}

impl Error for Refusal {}
