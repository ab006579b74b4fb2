//! A script that is edited.

#[cfg(test)]
mod tests;

use alloc::boxed::Box;
use alloc::string::String;
use alloc::vec::Vec;
use core::ops::Range;

use crate::error::Refused;
use crate::ffi;
use crate::tree::Tree;

/// How many bytes a piece has at least where a text is new, and where it is edited.
const NEW: usize = 16 * 1024;
const EDITED: usize = 512;

/// A script that is edited. An edit parses the statements that it touches, and as many as it takes until one ends where one
/// ended before.
///
/// ```
/// use caliperdock::Document;
///
/// let mut document = Document::new("create table t (a int);\nselect a from t;\n")?;
/// document.edit(39..39, "1")?;
/// assert_eq!(document.text(), "create table t (a int);\nselect a from t1;\n");
/// assert_eq!(document.part_at(30).unwrap().tree.errors(), []);
/// # Ok::<(), caliperdock::Refused>(())
/// ```
#[derive(Debug)]
pub struct Document {
    pieces: Vec<Box<Piece>>,
    /// How many bytes each piece has.
    lens: Vec<u32>,
}

/// Statements of a script, one after another: a part of it, which is what it is whatever stands `seen` bytes after its end.
#[derive(Debug)]
struct Piece {
    tree: Tree,
    /// Where the script stands before it.
    place: u32,
    seen: usize,
}

/// Statements of a document, one after another.
#[derive(Clone, Copy, Debug)]
pub struct DocumentPart<'d> {
    /// How many bytes of the document stand before it. The places in its tree count from there.
    pub start: usize,
    /// The statements, and what stands between them.
    pub tree: &'d Tree,
}

impl Document {
    /// Parses a text.
    pub fn new(text: &str) -> Result<Document, Refused> {
        Document::in_pieces(text, NEW)
    }

    fn in_pieces(text: &str, size: usize) -> Result<Document, Refused> {
        let mut document = Document { pieces: Vec::new(), lens: Vec::new() };
        document.put(0..0, Vec::from(text), size)?;
        Ok(document)
    }

    /// Puts a text in the place of these bytes. After a refusal all is as before.
    ///
    /// # Panics
    ///
    /// Where the range isn't in the document, or doesn't begin and end between two characters.
    pub fn edit(&mut self, range: Range<usize>, replacement: &str) -> Result<(), Refused> {
        self.edit_in_pieces(range, replacement, EDITED)
    }

    fn edit_in_pieces(&mut self, range: Range<usize>, replacement: &str, size: usize) -> Result<(), Refused> {
        assert!(range.start <= range.end && range.end <= self.len(), "{range:?} isn't in the document");
        let (touched, start) = self.find(range.start);
        let (last, data) = self.edited(touched, start, range.clone(), replacement);
        let (first, mut all) = self.before(touched, start, range.start);
        all.extend(data);
        self.put(first..last, all, size)
    }

    /// All of the text.
    pub fn text(&self) -> String {
        self.pieces.iter().map(|piece| piece.tree.text()).collect()
    }

    /// How many bytes it has.
    pub fn len(&self) -> usize {
        self.lens.iter().map(|&len| len as usize).sum()
    }

    /// Whether it has none.
    pub fn is_empty(&self) -> bool {
        self.len() == 0
    }

    /// Its parts, one after another.
    pub fn parts(&self) -> impl Iterator<Item = DocumentPart<'_>> {
        self.pieces.iter().scan(0, |at, piece| {
            let start = *at;
            *at += piece.tree.text().len();
            Some(DocumentPart { start, tree: &piece.tree })
        })
    }

    /// The part that has the byte at a place.
    pub fn part_at(&self, place: usize) -> Option<DocumentPart<'_>> {
        let (index, start) = self.find(place);
        let piece = self.pieces.get(index)?;
        (place < start + piece.tree.text().len()).then_some(DocumentPart { start, tree: &piece.tree })
    }

    /// The piece that has the byte at a place, or the last one, and where it starts.
    fn find(&self, place: usize) -> (usize, usize) {
        let (mut index, mut start) = (0, 0);
        for lens in self.lens.chunks(256) {
            let sum: usize = lens.iter().map(|&len| len as usize).sum();
            if place < start + sum {
                break;
            }
            start += sum;
            index += lens.len();
        }
        while index < self.lens.len() && place >= start + self.lens[index] as usize {
            start += self.lens[index] as usize;
            index += 1;
        }
        if index > 0 && index == self.lens.len() {
            index -= 1;
            start -= self.lens[index] as usize;
        }
        (index, start)
    }

    /// The pieces that a range touches, from one on, with another text in its place; and the index after the last of them.
    fn edited(&self, first: usize, start: usize, range: Range<usize>, replacement: &str) -> (usize, Vec<u8>) {
        let (mut last, mut end, mut text) = (first, start, String::new());
        while last < self.pieces.len() && (last == first || end < range.end) {
            text.push_str(self.pieces[last].tree.text());
            end += self.lens[last] as usize;
            last += 1;
        }
        text.replace_range(range.start - start..range.end - start, replacement);
        (last, text.into_bytes())
    }

    /// The pieces before one that depend on what stands at a place: the index of the first, and their texts.
    fn before(&self, touched: usize, start: usize, place: usize) -> (usize, Vec<u8>) {
        let (mut first, mut end) = (touched, start);
        while first > 0 && end.saturating_add(self.pieces[first - 1].seen) > place {
            first -= 1;
            end -= self.lens[first] as usize;
        }
        let texts = self.pieces[first..touched].iter().flat_map(|piece| piece.tree.text().bytes());
        (first, texts.collect())
    }

    /// Puts bytes in the place of some pieces, and of those after them up to one that is the same as before.
    fn put(&mut self, pieces: Range<usize>, bytes: Vec<u8>, size: usize) -> Result<(), Refused> {
        let first = pieces.start;
        let place = self.pieces.get(first).map_or(0, |piece| piece.place);
        // What is not much longer than a piece was cut before.
        let size = (bytes.len() > 8 * size).then_some(size);
        let mut cut = Cut { old: &self.pieces, last: pieces.end, bytes, at: 0, place, more: 1, new: Vec::new() };
        while !cut.is_done() {
            cut.next(size)?;
        }
        let (last, new) = (cut.last, cut.new);
        self.pieces.try_reserve(new.len()).map_err(|_| Refused::OutOfMemory)?;
        self.lens.try_reserve(new.len()).map_err(|_| Refused::OutOfMemory)?;
        self.lens.splice(first..last, new.iter().map(|piece| piece.tree.text().len() as u32));
        self.pieces.splice(first..last, new);
        Ok(())
    }
}

/// New pieces that are cut of bytes, after which old ones stand.
struct Cut<'d> {
    old: &'d [Box<Piece>],
    /// The first old piece that stands after the bytes.
    last: usize,
    bytes: Vec<u8>,
    /// How many bytes are cut, and where the script stands there.
    at: usize,
    place: u32,
    /// How many old pieces are read at once, where a statement goes on in them.
    more: usize,
    new: Vec<Box<Piece>>,
}

impl Cut<'_> {
    /// Whether all is cut, and the old pieces go on there.
    fn is_done(&self) -> bool {
        let goes_on = match self.old.get(self.last) {
            Some(piece) => piece.place == self.place,
            // An empty text has a piece, too.
            None => self.place != 0 || !self.new.is_empty(),
        };
        self.at == self.bytes.len() && goes_on
    }

    /// Cuts a piece of so many bytes or more, or of the statement that is longer; without a size one of all that ends.
    fn next(&mut self, size: Option<usize>) -> Result<(), Refused> {
        let mut wanted = size.unwrap_or(usize::MAX);
        while let Some(line) = self.line_end(wanted) {
            if self.cut(line, false)? {
                return Ok(());
            }
            wanted = wanted.saturating_mul(2);
        }
        if self.last == self.old.len() {
            self.cut(self.bytes.len(), true)?;
            return Ok(());
        }
        let len = self.bytes.len();
        let seen = self.old[self.last - 1].seen;
        self.bytes.extend_from_slice(&self.old[self.last].tree.text().as_bytes()[..seen]);
        let is_cut = self.cut(self.bytes.len(), false)?;
        self.bytes.truncate(len);
        if !is_cut {
            self.read_old(self.more);
            self.more *= 2;
        } else if self.at > len {
            self.read_old(1);
        }
        Ok(())
    }

    /// Where the first line ends that has so many bytes before it, if one does.
    fn line_end(&self, wanted: usize) -> Option<usize> {
        let rest = self.bytes.get(self.at.saturating_add(wanted)..)?;
        Some(self.bytes.len() - rest.len() + rest.iter().position(|&byte| byte == b'\n')? + 1)
    }

    /// Cuts the statements that end in the bytes up to one. Returns whether there are any.
    fn cut(&mut self, end: usize, last: bool) -> Result<bool, Refused> {
        let seen = &self.bytes[self.at..end];
        let part = ffi::part(seen, self.place, last)?;
        if part.written.steps.is_empty() {
            return Ok(false);
        }
        let text = core::str::from_utf8(&seen[..part.bytes]).map_err(|error| Refused::NotUtf8(error.valid_up_to()))?;
        let seen = if last { usize::MAX } else { seen.len() - part.bytes };
        let tree = Tree::of(String::from(text), &part.written)?;
        self.new.push(Box::new(Piece { tree, place: self.place, seen }));
        self.at += part.bytes;
        self.place = part.place;
        Ok(true)
    }

    /// Takes the texts of so many old pieces.
    fn read_old(&mut self, count: usize) {
        let last = self.old.len().min(self.last.saturating_add(count));
        for piece in &self.old[self.last..last] {
            self.bytes.extend_from_slice(piece.tree.text().as_bytes());
        }
        self.last = last;
    }
}
