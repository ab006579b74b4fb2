//! Scripts from readers: what is told of parts is told of the whole.

use std::io::{self, Read};

use caliperdock::{ReadError, Tree};

/// A reader that gives so many bytes at once, and is interrupted before each.
struct Slow<'t> {
    text: &'t [u8],
    size: usize,
    is_ready: bool,
}

impl Read for Slow<'_> {
    fn read(&mut self, buffer: &mut [u8]) -> io::Result<usize> {
        self.is_ready = !self.is_ready;
        if !self.is_ready {
            return Err(io::ErrorKind::Interrupted.into());
        }
        let size = self.size.min(buffer.len());
        self.text.read(&mut buffer[..size])
    }
}

/// A reader that fails after a text.
struct Failing<'t>(&'t [u8]);

impl Read for Failing<'_> {
    fn read(&mut self, buffer: &mut [u8]) -> io::Result<usize> {
        match self.0.read(buffer)? {
            0 => Err(io::Error::other("the disk is gone")),
            read => Ok(read),
        }
    }
}

const PIECE: &str = "select f(1;\nselect 'a'\n'b', 'c' 'd', 1x;\ncopy t from stdin;\nit's é\n\\.\n\\x\n/* ; */ ;\n";

type Told = (Vec<(u16, u64, u64)>, Vec<(u64, u64, String)>);

/// The statements of a script, and its errors in the order of places.
fn told(parts: impl Iterator<Item = Result<caliperdock::Part, ReadError>>) -> Told {
    let (mut statements, mut errors, mut at) = (Vec::new(), Vec::new(), 0);
    for part in parts {
        let part = part.unwrap();
        assert_eq!(part.start, at);
        at += part.tree.text().len() as u64;
        let (start, mut found) = in_tree(&part.tree);
        statements.extend(start.iter().map(|&(kind, start, end)| (kind, part.start + start, part.start + end)));
        found.iter_mut().for_each(|(start, end, _)| (*start, *end) = (part.start + *start, part.start + *end));
        errors.extend(found);
    }
    (statements, errors)
}

fn in_tree(tree: &Tree) -> Told {
    let statements = tree.root().children().map(|statement| {
        let range = statement.text_range();
        (u16::from(statement.kind()), range.start as u64, range.end as u64)
    });
    let errors = tree.errors().iter().map(|error| (error.range.start as u64, error.range.end as u64, error.message.clone()));
    let mut errors: Vec<_> = errors.collect();
    errors.sort();
    (statements.collect(), errors)
}

#[test]
fn parts_are_told_as_the_whole() {
    let long = format!("select '{}';\n", "a;\n".repeat(100_000));
    for text in [String::new(), String::from("select 1"), PIECE.repeat(3), PIECE.repeat(3000), [&long, PIECE, &long].concat()] {
        let whole = in_tree(&Tree::parse(&text).unwrap());
        assert_eq!(told(caliperdock::parts(text.as_bytes())), whole);
        for size in [1, 7, 100_000] {
            let reader = Slow { text: text.as_bytes(), size, is_ready: false };
            assert_eq!(told(caliperdock::parts(reader)), whole);
        }
    }
}

#[test]
fn parts_before_an_error_come() {
    let mut parts = caliperdock::parts(Failing(b"select 1;\nselect 2;\nselect"));
    assert_eq!(parts.next().unwrap().unwrap().tree.text(), "select 1;\nselect 2;");
    assert_eq!(parts.next().unwrap().unwrap_err().to_string(), "the disk is gone");
    assert!(parts.next().is_none());
    let good = PIECE.repeat(2000);
    let text = [good.as_bytes(), b"select '\xff'"].concat();
    let mut parts = caliperdock::parts(&text[..]);
    let read: String = parts.by_ref().map_while(|part| Some(String::from(part.ok()?.tree.text()))).collect();
    assert_eq!(read, good.trim_end());
    let mut parts = caliperdock::parts(&text[..]);
    let at = good.len() as u64 + 8;
    assert!(matches!(parts.find_map(Result::err), Some(ReadError::NotUtf8(place)) if place == at));
    assert!(parts.next().is_none());
}
