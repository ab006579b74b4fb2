//! The trees of the corpus' texts, against those that the program prints: the files are those of `bindings/corpus.py`.

use std::fmt::Write;
use std::fs;
use std::path::Path;

use caliperdock::Tree;

/// A line for each node and token, and then one for each error in the tree.
fn plain(tree: &Tree) -> String {
    let mut lines = String::new();
    for element in tree.root().descendants_with_tokens() {
        let mut depth = 0;
        let mut parent = element.parent();
        while let Some(node) = parent {
            depth += 1;
            parent = node.parent();
        }
        let range = element.text_range();
        let kind = u16::from(element.kind());
        writeln!(lines, "{depth} {kind} {} {}", range.start, range.end).unwrap();
    }
    for error in tree.errors().iter().filter(|error| !error.lexical) {
        writeln!(lines, "error {} {}", error.range.start, error.message).unwrap();
    }
    lines
}

#[test]
fn trees_are_those_of_the_program() {
    let folder = Path::new(env!("CARGO_MANIFEST_DIR")).join("../out/corpus");
    let texts = (0..).map(|number| folder.join(format!("{number}.sql")));
    let texts: Vec<_> = texts.take_while(|file| file.exists()).collect();
    if texts.is_empty() {
        eprintln!("there are no texts: bindings/corpus.py writes them");
    }
    for file in texts {
        let tree = Tree::parse(&fs::read_to_string(&file).unwrap()).unwrap();
        let wanted = fs::read_to_string(file.with_extension("plain")).unwrap();
        assert_eq!(plain(&tree), wanted, "{}", file.display());
    }
}
