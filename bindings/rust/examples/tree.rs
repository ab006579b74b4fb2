//! Prints the tree of a text of SQL: that of the argument, or a small one.

use caliperdock::{SyntaxElement, Tree};

fn main() -> Result<(), caliperdock::Refused> {
    let sql = std::env::args().nth(1).unwrap_or_else(|| String::from("select 1"));
    let tree = Tree::parse(&sql)?;
    print(tree.root().into(), 0);
    for error in tree.errors() {
        eprintln!("{error}");
    }
    Ok(())
}

fn print(element: SyntaxElement<'_>, depth: usize) {
    let range = element.text_range();
    print!("{:depth$}{:?}@{}..{}", "", element.kind(), range.start, range.end, depth = 2 * depth);
    match element {
        SyntaxElement::Token(token) => println!(" {:?}", token.text()),
        SyntaxElement::Node(node) => {
            println!();
            node.children_with_tokens().for_each(|child| print(child, depth + 1));
        }
    }
}
