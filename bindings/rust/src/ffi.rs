//! The library's C interface: the one module with unsafe code.

use alloc::string::String;
use alloc::vec::Vec;
use core::mem::{offset_of, size_of};

use crate::error::{Refused, SyntaxError};

#[repr(C)]
#[derive(Clone, Copy)]
struct RawAnswer {
    status: u32,
    place: u64,
}

#[repr(C)]
#[derive(Clone, Copy, Default)]
pub(crate) struct RawToken {
    pub kind: u32,
    pub len: u32,
    pub a: u32,
    pub b: u32,
    pub flags: u32,
}

#[repr(C)]
#[derive(Clone, Copy, Default)]
pub(crate) struct RawEvent {
    pub tag: u16,
    pub kind: u16,
    pub a: u32,
    pub b: u32,
}

#[repr(C)]
#[derive(Clone, Copy, Default)]
pub(crate) struct RawStep {
    pub tag: u16,
    pub kind: u16,
    pub start: u32,
    pub end: u32,
}

#[repr(C)]
#[derive(Clone, Copy, Default)]
pub(crate) struct RawStatement {
    pub kind: u64,
    pub start: u64,
    pub end: u64,
}

#[repr(C)]
#[derive(Clone, Copy, Default)]
struct RawError {
    start: u32,
    end: u32,
    message_start: u64,
    message_end: u64,
    hint_end: u64,
}

#[repr(C)]
#[derive(Clone, Copy, Default)]
pub(crate) struct RawCounts {
    steps: u64,
    step_errors: u64,
    errors: u64,
    texts: u64,
    pub whole: u64,
}

#[repr(C)]
#[derive(Clone, Copy, Default)]
struct RawSqlCounts {
    tokens: u64,
    statements: u64,
    sent: RawCounts,
}

#[repr(C)]
#[derive(Clone, Copy, Default)]
struct RawPartCounts {
    bytes: u64,
    place: u32,
    statements: u64,
    sent: RawCounts,
}

// The layouts that the C header states.
const _: () = assert!(size_of::<RawAnswer>() == 16 && offset_of!(RawAnswer, place) == 8);
const _: () = assert!(size_of::<RawToken>() == 20 && offset_of!(RawToken, flags) == 16);
const _: () = assert!(size_of::<RawEvent>() == 12 && offset_of!(RawEvent, b) == 8);
const _: () = assert!(size_of::<RawStep>() == 12 && offset_of!(RawStep, end) == 8);
const _: () = assert!(size_of::<RawStatement>() == 24 && offset_of!(RawStatement, end) == 16);
const _: () = assert!(size_of::<RawError>() == 32 && offset_of!(RawError, hint_end) == 24);
const _: () = assert!(size_of::<RawCounts>() == 40 && offset_of!(RawCounts, whole) == 32);
const _: () = assert!(size_of::<RawSqlCounts>() == 56 && offset_of!(RawSqlCounts, sent) == 16);
const _: () = assert!(size_of::<RawPartCounts>() == 64 && offset_of!(RawPartCounts, sent) == 24);

unsafe extern "C" {
    fn caliperdock_events(
        text: *const u8,
        text_len: usize,
        tokens: *const RawToken,
        token_count: usize,
        events: *const RawEvent,
        event_count: usize,
        messages: *const u8,
        message_len: usize,
        steps: *mut RawStep,
        step_room: usize,
        errors: *mut RawError,
        error_room: usize,
        texts: *mut u8,
        text_room: usize,
        counts: *mut RawCounts,
    ) -> RawAnswer;

    fn caliperdock_sql(
        text: *const u8,
        text_len: usize,
        tokens: *mut RawToken,
        token_room: usize,
        statements: *mut RawStatement,
        statement_room: usize,
        steps: *mut RawStep,
        step_room: usize,
        errors: *mut RawError,
        error_room: usize,
        texts: *mut u8,
        text_room: usize,
        counts: *mut RawSqlCounts,
    ) -> RawAnswer;

    fn caliperdock_statements(
        text: *const u8,
        text_len: usize,
        statements: *mut RawStatement,
        statement_room: usize,
        count: *mut u64,
    ) -> RawAnswer;

    fn caliperdock_part(
        text: *const u8,
        text_len: usize,
        place: u32,
        last: u32,
        statements: *mut RawStatement,
        statement_room: usize,
        steps: *mut RawStep,
        step_room: usize,
        errors: *mut RawError,
        error_room: usize,
        texts: *mut u8,
        text_room: usize,
        counts: *mut RawPartCounts,
    ) -> RawAnswer;
}

/// The status of a call whose buffers were too small.
const TOO_SMALL: u32 = 1;

impl RawAnswer {
    /// Whether all is written.
    fn is_done(self) -> Result<bool, Refused> {
        let index = self.place as usize;
        Err(match self.status {
            0 => return Ok(true),
            TOO_SMALL => return Ok(false),
            2 => Refused::OutOfMemory,
            3 => Refused::NotUtf8(index),
            5 => Refused::TextTooLong,
            6 => Refused::BadToken(index),
            7 => Refused::TextLeft(index),
            8 => Refused::TooManyEvents,
            10 => Refused::BadLink(index),
            11 => Refused::NoRoot,
            12 => Refused::DoesNotFit,
            13 => Refused::TooManyErrors,
            status => Refused::Other(status, self.place),
        })
    }
}

/// What a call has written of steps and errors.
#[derive(Default)]
pub(crate) struct Written {
    pub steps: Vec<RawStep>,
    pub counts: RawCounts,
    errors: Vec<RawError>,
    texts: Vec<u8>,
}

impl Written {
    /// Makes room for as many steps, errors and bytes of texts as the counts say.
    fn resize(&mut self) -> Result<(), Refused> {
        resize(&mut self.steps, self.counts.steps)?;
        resize(&mut self.errors, self.counts.errors)?;
        resize(&mut self.texts, self.counts.texts)
    }

    /// Whether there is room for as much as these counts say.
    fn holds(&self, counts: &RawCounts) -> bool {
        counts.steps <= self.steps.len() as u64
            && counts.errors <= self.errors.len() as u64
            && counts.texts <= self.texts.len() as u64
    }

    /// The errors, with their texts.
    pub fn errors(&self) -> Vec<SyntaxError> {
        let text = |start: u64, end: u64| {
            let bytes = &self.texts[start as usize..end as usize];
            String::from(core::str::from_utf8(bytes).unwrap_or_default())
        };
        let numbered = self.errors.iter().enumerate();
        numbered
            .map(|(index, raw)| SyntaxError {
                range: raw.start as usize..raw.end as usize,
                message: text(raw.message_start, raw.message_end),
                hint: (raw.message_end < raw.hint_end).then(|| text(raw.message_end, raw.hint_end)),
                lexical: index as u64 >= self.counts.step_errors,
            })
            .collect()
    }
}

/// Makes a buffer as long as a count says; memory that is refused is an error.
fn resize<T: Clone + Default>(buffer: &mut Vec<T>, count: u64) -> Result<(), Refused> {
    let len = usize::try_from(count).map_err(|_| Refused::OutOfMemory)?;
    let more = len.saturating_sub(buffer.len());
    buffer.try_reserve_exact(more).map_err(|_| Refused::OutOfMemory)?;
    buffer.resize(len, T::default());
    Ok(())
}

/// The steps and errors of events over a text with these raw tokens.
pub(crate) fn events(
    text: &str,
    tokens: &[RawToken],
    events: &[RawEvent],
    messages: &[u8],
) -> Result<Written, Refused> {
    let mut written = Written::default();
    // There are no more steps than events and raw tokens.
    written.counts.steps = (tokens.len() + events.len()) as u64;
    loop {
        written.resize()?;
        // SAFETY: each pointer is that of a slice, with its length; the slices that are written are
        // borrowed for writing, so no other overlaps them. The library keeps none of them.
        let answer = unsafe {
            caliperdock_events(
                text.as_ptr(),
                text.len(),
                tokens.as_ptr(),
                tokens.len(),
                events.as_ptr(),
                events.len(),
                messages.as_ptr(),
                messages.len(),
                written.steps.as_mut_ptr(),
                written.steps.len(),
                written.errors.as_mut_ptr(),
                written.errors.len(),
                written.texts.as_mut_ptr(),
                written.texts.len(),
                &mut written.counts,
            )
        };
        if answer.is_done()? {
            written.resize()?;
            return Ok(written);
        }
    }
}

/// What a call has written of a text of SQL.
#[derive(Default)]
pub(crate) struct WrittenSql {
    pub tokens: Vec<RawToken>,
    pub written: Written,
}

/// Which lists of a text of SQL are wanted.
#[derive(Clone, Copy, PartialEq, Eq)]
pub(crate) enum Wanted {
    Tokens,
    Tree,
}

/// The lists of a text of SQL that are wanted; of the others nothing.
pub(crate) fn sql(text: &str, wanted: Wanted) -> Result<WrittenSql, Refused> {
    let mut all = WrittenSql::default();
    let mut no_statements: [RawStatement; 0] = [];
    let mut counts = guess(text.len() as u64);
    loop {
        match wanted {
            Wanted::Tokens => resize(&mut all.tokens, counts.tokens)?,
            Wanted::Tree => {
                all.written.counts = counts.sent;
                all.written.resize()?;
            }
        }
        // SAFETY: as above.
        let answer = unsafe {
            caliperdock_sql(
                text.as_ptr(),
                text.len(),
                all.tokens.as_mut_ptr(),
                all.tokens.len(),
                no_statements.as_mut_ptr(),
                0,
                all.written.steps.as_mut_ptr(),
                all.written.steps.len(),
                all.written.errors.as_mut_ptr(),
                all.written.errors.len(),
                all.written.texts.as_mut_ptr(),
                all.written.texts.len(),
                &mut counts,
            )
        };
        answer.is_done()?;
        let fits = match wanted {
            Wanted::Tokens => counts.tokens <= all.tokens.len() as u64,
            Wanted::Tree => all.written.holds(&counts.sent),
        };
        if fits {
            all.tokens.truncate(counts.tokens as usize);
            if wanted == Wanted::Tree {
                all.written.counts = counts.sent;
                all.written.resize()?;
            }
            return Ok(all);
        }
    }
}

/// The statements of a text of SQL.
pub(crate) fn statements(text: &str) -> Result<Vec<RawStatement>, Refused> {
    let mut all = Vec::new();
    let mut count = text.len() as u64 / 40 + 4;
    loop {
        resize(&mut all, count)?;
        // SAFETY: as above.
        let answer = unsafe {
            caliperdock_statements(
                text.as_ptr(),
                text.len(),
                all.as_mut_ptr(),
                all.len(),
                &mut count,
            )
        };
        if answer.is_done()? {
            all.truncate(count as usize);
            return Ok(all);
        }
    }
}

/// What a call has written of the next statements of a script: how many bytes they are, and the place after them.
pub(crate) struct WrittenPart {
    pub written: Written,
    pub bytes: usize,
    pub place: u32,
}

/// The next statements of a script that goes on with a text.
pub(crate) fn part(text: &[u8], place: u32, last: bool) -> Result<WrittenPart, Refused> {
    let mut written = Written::default();
    let mut no_statements: [RawStatement; 0] = [];
    let mut counts = RawPartCounts { sent: guess_sent(text.len() as u64), ..RawPartCounts::default() };
    loop {
        written.counts = counts.sent;
        written.resize()?;
        // SAFETY: as above.
        let answer = unsafe {
            caliperdock_part(
                text.as_ptr(),
                text.len(),
                place,
                u32::from(last),
                no_statements.as_mut_ptr(),
                0,
                written.steps.as_mut_ptr(),
                written.steps.len(),
                written.errors.as_mut_ptr(),
                written.errors.len(),
                written.texts.as_mut_ptr(),
                written.texts.len(),
                &mut counts,
            )
        };
        answer.is_done()?;
        if written.holds(&counts.sent) {
            written.counts = counts.sent;
            written.resize()?;
            return Ok(WrittenPart { written, bytes: counts.bytes as usize, place: counts.place });
        }
    }
}

/// How much a text of so many bytes has, mostly.
fn guess(len: u64) -> RawSqlCounts {
    RawSqlCounts {
        tokens: len / 3 + 16,
        statements: 0,
        sent: guess_sent(len),
    }
}

fn guess_sent(len: u64) -> RawCounts {
    RawCounts {
        steps: len + 32,
        errors: 4,
        texts: 256,
        ..RawCounts::default()
    }
}
