//! The events of a parser, and the steps that are sent for them.

use alloc::string::String;
use alloc::vec::Vec;
use core::ops::Range;

use crate::error::{Refused, SyntaxError};
use crate::ffi::{self, RawEvent, RawStep, RawToken};
use crate::syntax_kind::SyntaxKind;
use crate::token::Token;

/// An event of a parser.
#[derive(Clone, Debug, PartialEq, Eq)]
pub enum Event {
    /// The beginning of a node. Where its parent was begun behind it, how many events further on that
    /// parent's `Start` is. `SyntaxKind::TOMBSTONE` is the kind of no node.
    Start { kind: SyntaxKind, forward_parent: Option<u32> },
    /// The end of a node.
    Finish,
    /// A token, and how many raw tokens it is made of, trivia aside.
    Token { kind: SyntaxKind, n_raw_tokens: u8 },
    /// An error.
    Error { msg: String },
}

/// A step of a walk over a tree.
#[derive(Clone, Debug, PartialEq, Eq)]
pub enum Step {
    /// A token, with its bytes of the text.
    Token { kind: SyntaxKind, range: Range<usize> },
    /// The beginning of a node.
    Enter { kind: SyntaxKind },
    /// The end of the node that was entered last and not left yet.
    Exit,
    /// The error of this index among all, and the byte where it stands.
    Error { index: usize, at: usize },
}

/// What is sent for events over a text.
#[derive(Clone, Debug, PartialEq, Eq)]
pub struct Sent {
    pub steps: Vec<Step>,
    /// The errors of the steps in their order, and behind them the lexical ones.
    pub errors: Vec<SyntaxError>,
    /// Whether the tokens of the steps are all of the text.
    pub whole: bool,
}

/// The steps of a parser's events over a text with these raw tokens: trivia is put back, errors and links
/// are placed.
///
/// ```
/// use caliperdock::{steps, Event, Step, SyntaxKind};
///
/// let text = "a b";
/// let tokens = caliperdock::tokens(text)?;
/// let token = || Event::Token { kind: SyntaxKind::IDENT, n_raw_tokens: 1 };
/// let file = Event::Start { kind: SyntaxKind::SOURCE_FILE, forward_parent: None };
/// let sent = steps(text, &tokens, &[file, token(), token(), Event::Finish])?;
/// assert!(sent.whole);
/// assert_eq!(sent.steps[2], Step::Token { kind: SyntaxKind::WHITESPACE, range: 1..2 });
/// # Ok::<(), caliperdock::Refused>(())
/// ```
pub fn steps(text: &str, tokens: &[Token], events: &[Event]) -> Result<Sent, Refused> {
    let tokens: Vec<RawToken> = tokens.iter().map(RawToken::from).collect();
    let mut messages = String::new();
    let mut raw_events = Vec::with_capacity(events.len());
    for (index, event) in events.iter().enumerate() {
        if let Event::Start { forward_parent: Some(0), .. } = event {
            return Err(Refused::BadLink(index));
        }
        raw_events.push(raw_event(event, &mut messages)?);
    }
    let written = ffi::events(text, &tokens, &raw_events, messages.as_bytes())?;
    Ok(Sent {
        steps: written.steps.iter().map(Step::from).collect(),
        errors: written.errors(),
        whole: written.counts.whole == 1,
    })
}

/// An event as numbers; the message of an error goes behind others.
fn raw_event(event: &Event, messages: &mut String) -> Result<RawEvent, Refused> {
    Ok(match event {
        Event::Start { kind, forward_parent } => RawEvent {
            tag: 0,
            kind: u16::from(*kind),
            a: forward_parent.unwrap_or(0),
            b: 0,
        },
        Event::Finish => RawEvent { tag: 1, kind: 0, a: 0, b: 0 },
        Event::Token { kind, n_raw_tokens } => RawEvent {
            tag: 2,
            kind: u16::from(*kind),
            a: u32::from(*n_raw_tokens),
            b: 0,
        },
        Event::Error { msg } => {
            let start = messages.len();
            messages.push_str(msg);
            let place = |at: usize| u32::try_from(at).map_err(|_| Refused::TooManyErrors);
            RawEvent { tag: 3, kind: 0, a: place(start)?, b: place(messages.len())? }
        }
    })
}

impl From<&RawStep> for Step {
    fn from(raw: &RawStep) -> Step {
        let kind = SyntaxKind::from(raw.kind);
        match raw.tag {
            0 => Step::Token { kind, range: raw.start as usize..raw.end as usize },
            1 => Step::Enter { kind },
            2 => Step::Exit,
            _ => Step::Error { index: raw.start as usize, at: raw.end as usize },
        }
    }
}
