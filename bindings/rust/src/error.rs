//! What is wrong with a text, and why a call did nothing.

use alloc::string::String;
use core::fmt;
use core::ops::Range;

/// What is wrong with a text.
#[derive(Clone, Debug, PartialEq, Eq)]
pub struct SyntaxError {
    /// The bytes of the text that it is about. An error of a parser stands at one byte.
    pub range: Range<usize>,
    pub message: String,
    /// What is wanted instead, where that is said.
    pub hint: Option<String>,
    /// Whether a raw token is wrong by itself, as a string without its last quote.
    pub lexical: bool,
}

impl fmt::Display for SyntaxError {
    fn fmt(&self, f: &mut fmt::Formatter<'_>) -> fmt::Result {
        write!(f, "{} at {}", self.message, self.range.start)?;
        match &self.hint {
            Some(hint) => write!(f, ": {hint}"),
            None => Ok(()),
        }
    }
}

/// Why a call did nothing.
#[derive(Clone, Copy, Debug, PartialEq, Eq)]
#[non_exhaustive]
pub enum Refused {
    /// Memory was refused.
    OutOfMemory,
    /// The bytes before this one are UTF-8, and those after it aren't.
    NotUtf8(usize),
    /// The text has more than 4294967295 bytes.
    TextTooLong,
    /// The raw token of this index is empty, doesn't end at a character boundary inside the text, or isn't
    /// what its kind says.
    BadToken(usize),
    /// The raw tokens end at this byte, before the text does.
    TextLeft(usize),
    /// There are more events than a log has.
    TooManyEvents,
    /// There are more errors than a log has.
    TooManyErrors,
    /// The link of the event of this index leads to no later start.
    BadLink(usize),
    /// Errors aside, the events don't make one node with all that it holds.
    NoRoot,
    /// The tokens of the events aren't those of the text.
    DoesNotFit,
    /// The library answered what this version of the crate doesn't know: its status and place.
    Other(u32, u64),
}

impl fmt::Display for Refused {
    fn fmt(&self, f: &mut fmt::Formatter<'_>) -> fmt::Result {
        match self {
            Refused::OutOfMemory => write!(f, "out of memory"),
            Refused::NotUtf8(at) => write!(f, "the text isn't UTF-8 at byte {at}"),
            Refused::TextTooLong => write!(f, "the text has more than 4294967295 bytes"),
            Refused::BadToken(index) => write!(f, "raw token {index} isn't the text's"),
            Refused::TextLeft(at) => write!(f, "the raw tokens end at byte {at}, before the text does"),
            Refused::TooManyEvents => write!(f, "there are too many events"),
            Refused::TooManyErrors => write!(f, "there are too many errors"),
            Refused::BadLink(index) => write!(f, "the link of event {index} leads to no later start"),
            Refused::NoRoot => write!(f, "the events don't make one node"),
            Refused::DoesNotFit => write!(f, "the tokens of the events aren't those of the text"),
            Refused::Other(status, place) => write!(f, "status {status} at {place}"),
        }
    }
}

impl core::error::Error for Refused {}
