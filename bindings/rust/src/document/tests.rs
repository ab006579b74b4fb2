//! Documents after edits: what is told of them is told of their text.

use alloc::string::String;
use alloc::vec::Vec;
use core::ops::Range;

use super::Document;
use crate::{SyntaxError, SyntaxKind, Tree};

const WORDS: [&str; 20] = [
    "select 1;\n",
    "select a from t",
    ";",
    "\n",
    " ",
    "'",
    "\"",
    "$$",
    "(",
    ")",
    "/*",
    "*/",
    "--",
    "copy t from stdin;\n",
    "1\tit's é\n",
    "\\.\n",
    "\\g\n",
    "begin atomic ",
    "create function f() ",
    "end;",
];

/// Numbers at random, the same ones each time.
struct Random(u64);

impl Random {
    fn below(&mut self, end: usize) -> usize {
        self.0 = self.0.wrapping_mul(6364136223846793005).wrapping_add(1442695040888963407);
        (self.0 >> 33) as usize % end
    }

    fn words(&mut self, most: usize) -> String {
        (0..self.below(most + 1)).map(|_| WORDS[self.below(WORDS.len())]).collect()
    }

    /// A range of a text between two characters.
    fn range(&mut self, text: &str) -> Range<usize> {
        let start = char_start(text, self.below(text.len() + 1));
        let len = [0, 0, 1, 3, 40][self.below(5)];
        start..char_start(text, text.len().min(start + len)).max(start)
    }
}

fn char_start(text: &str, mut at: usize) -> usize {
    while !text.is_char_boundary(at) {
        at -= 1;
    }
    at
}

type Told = (Vec<(SyntaxKind, usize, usize)>, Vec<SyntaxError>);

/// The nodes and tokens of a tree, and its errors in the order of places.
fn in_tree(tree: &Tree, start: usize) -> Told {
    let elements = tree.root().descendants_with_tokens().skip(1).map(|element| {
        let range = element.text_range();
        (element.kind(), start + range.start, start + range.end)
    });
    let mut errors = tree.errors().to_vec();
    for error in &mut errors {
        error.range = start + error.range.start..start + error.range.end;
    }
    errors.sort_by_key(|error| (error.range.start, !error.lexical));
    (elements.collect(), errors)
}

fn check(document: &Document, text: &str) {
    assert_eq!(document.text(), text);
    let mut told: Told = (Vec::new(), Vec::new());
    for part in document.parts() {
        let (elements, errors) = in_tree(part.tree, part.start);
        told.0.extend(elements);
        told.1.extend(errors);
    }
    assert_eq!(told, in_tree(&Tree::parse(text).unwrap(), 0), "{text:?}");
}

fn edits_at_random(size: usize, seed: u64) {
    let mut random = Random(seed);
    for _ in 0..40 {
        let mut text = random.words(40);
        let mut document = Document::in_pieces(&text, 8 * size).unwrap();
        check(&document, &text);
        for _ in 0..25 {
            let range = random.range(&text);
            let replacement = random.words(2);
            document.edit_in_pieces(range.clone(), &replacement, size).unwrap();
            text.replace_range(range, &replacement);
            check(&document, &text);
        }
    }
}

#[test]
fn edits_of_small_pieces() {
    edits_at_random(1, 1);
}

#[test]
fn edits_of_larger_pieces() {
    edits_at_random(16, 2);
}

#[test]
fn a_quote_that_is_opened_and_closed() {
    let mut text = "select 1;\n".repeat(4000);
    let mut document = Document::new(&text).unwrap();
    for (at, sign) in [(17000, "'"), (23000, "'"), (17000, "é")] {
        document.edit(at..at, sign).unwrap();
        text.insert_str(at, sign);
        check(&document, &text);
    }
    // The pieces after the second quote are those of before.
    assert!(document.pieces.len() > 1);
    let part = document.part_at(30000).unwrap();
    assert!(part.start <= 30000 && 30000 < part.start + part.tree.text().len());
    assert!(document.part_at(text.len()).is_none());
}

#[test]
fn an_edit_parses_what_it_touches() {
    let text = "select 1;\n".repeat(2000);
    let mut document = Document::in_pieces(&text, 512).unwrap();
    let before: Vec<*const Tree> = document.parts().map(|part| core::ptr::from_ref(part.tree)).collect();
    document.edit(10_007..10_008, "2").unwrap();
    let after: Vec<*const Tree> = document.parts().map(|part| core::ptr::from_ref(part.tree)).collect();
    assert!(after.iter().filter(|tree| !before.contains(tree)).count() <= 2);
}

#[test]
fn nothing_is_a_document() {
    let mut document = Document::new("").unwrap();
    assert!(document.is_empty());
    document.edit(0..0, "select").unwrap();
    check(&document, "select");
    document.edit(0..6, "").unwrap();
    check(&document, "");
    assert!(document.part_at(0).is_none());
}

#[test]
#[should_panic(expected = "isn't in the document")]
fn an_edit_outside() {
    let _ = Document::new("select").unwrap().edit(3..7, "");
}
