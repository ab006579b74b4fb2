//! A script of any size, from a file or a stream.

use alloc::string::String;
use alloc::vec::Vec;
use core::fmt;
use std::io::{self, Read};

use crate::error::Refused;
use crate::ffi;
use crate::tree::Tree;

/// How many bytes are read at once.
const PIECE: usize = 64 * 1024;

/// The parts of a script that is read from a file or a stream, one after another. It may have any size: what is held is one
/// part. A statement may have 4 gigabytes.
///
/// ```
/// let dump: &[u8] = b"copy t from stdin;\n1\n2\n\\.\nselect 1;\n";
/// let mut texts = Vec::new();
/// for part in caliperdock::parts(dump) {
///     let part = part?;
///     texts.extend(part.tree.root().children().map(|statement| String::from(statement.text())));
/// }
/// assert_eq!(texts, ["copy t from stdin;", "1", "2", "\\.", "select 1;"]);
/// # Ok::<(), caliperdock::ReadError>(())
/// ```
pub fn parts<R: Read>(reader: R) -> Parts<R> {
    Parts { reader, source: Source::Open, bytes: Vec::new(), piece: PIECE, start: 0, place: 0 }
}

/// The parts of a script: an iterator. After an error there is none; all that ends before it has come.
#[derive(Debug)]
pub struct Parts<R> {
    reader: R,
    source: Source,
    /// What is read of the script and is in no part yet.
    bytes: Vec<u8>,
    /// How many bytes are wanted at once.
    piece: usize,
    start: u64,
    place: u32,
}

/// What is known of a reader.
#[derive(Debug)]
enum Source {
    Open,
    AtEnd,
    Failed(ReadError),
    /// All is told.
    Over,
}

/// Statements of a script, one after another.
#[derive(Clone, Debug)]
pub struct Part {
    /// How many bytes of the script stand before it. The places in its tree count from there.
    pub start: u64,
    /// The statements, and what stands between them.
    pub tree: Tree,
}

/// Why a script isn't read further.
#[derive(Debug)]
#[non_exhaustive]
pub enum ReadError {
    /// The file or stream has failed.
    Io(io::Error),
    /// The script isn't UTF-8 at this byte.
    NotUtf8(u64),
    /// The next statements are refused.
    Refused(Refused),
}

impl fmt::Display for ReadError {
    fn fmt(&self, f: &mut fmt::Formatter<'_>) -> fmt::Result {
        match self {
            ReadError::Io(error) => write!(f, "{error}"),
            ReadError::NotUtf8(at) => write!(f, "the script isn't UTF-8 at byte {at}"),
            ReadError::Refused(reason) => write!(f, "{reason}"),
        }
    }
}

impl core::error::Error for ReadError {
    fn source(&self) -> Option<&(dyn core::error::Error + 'static)> {
        match self {
            ReadError::Io(error) => Some(error),
            ReadError::NotUtf8(_) => None,
            ReadError::Refused(reason) => Some(reason),
        }
    }
}

impl<R: Read> Parts<R> {
    /// Reads up to as many bytes as are wanted.
    fn fill(&mut self) -> Result<(), Refused> {
        let wanted = self.piece.saturating_sub(self.bytes.len());
        self.bytes.try_reserve(wanted).map_err(|_| Refused::OutOfMemory)?;
        match self.reader.by_ref().take(wanted as u64).read_to_end(&mut self.bytes) {
            Ok(read) if read < wanted => self.source = Source::AtEnd,
            Ok(_) => {}
            Err(error) => self.source = Source::Failed(ReadError::Io(error)),
        }
        Ok(())
    }

    /// The next part, if the bytes that are held have one.
    fn part(&mut self) -> Result<Option<Part>, Refused> {
        let last = matches!(self.source, Source::AtEnd);
        let part = match ffi::part(&self.bytes, self.place, last) {
            Err(Refused::NotUtf8(at)) => {
                // What ends before it comes first.
                self.source = Source::Failed(ReadError::NotUtf8(self.start + at as u64));
                self.bytes.truncate(at);
                ffi::part(&self.bytes, self.place, false)?
            }
            part => part?,
        };
        self.place = part.place;
        if part.written.steps.is_empty() {
            return Ok(None);
        }
        let rest = self.bytes.split_off(part.bytes);
        let bytes = core::mem::replace(&mut self.bytes, rest);
        let text = String::from_utf8(bytes).map_err(|error| Refused::NotUtf8(error.utf8_error().valid_up_to()))?;
        let tree = Tree::of(text, &part.written)?;
        let start = self.start;
        self.start += part.bytes as u64;
        Ok(Some(Part { start, tree }))
    }
}

impl<R: Read> Iterator for Parts<R> {
    type Item = Result<Part, ReadError>;

    fn next(&mut self) -> Option<Result<Part, ReadError>> {
        while let Source::Open = self.source {
            // A statement that goes on is read once more with as much again.
            self.piece = PIECE.max(2 * self.bytes.len());
            match self.fill().and_then(|()| self.part()) {
                Ok(Some(part)) => return Some(Ok(part)),
                Ok(None) => {}
                Err(reason) => {
                    self.source = Source::Over;
                    return Some(Err(ReadError::Refused(reason)));
                }
            }
        }
        match core::mem::replace(&mut self.source, Source::Over) {
            Source::Failed(error) => Some(Err(error)),
            _ => None,
        }
    }
}
