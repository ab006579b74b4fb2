//! The tree of a text of SQL, walked as one of rowan.

use alloc::string::String;
use alloc::vec::Vec;
use core::ops::Range;

use crate::error::{Refused, SyntaxError};
use crate::ffi::{self, RawStep, Wanted, Written};
use crate::syntax_kind::SyntaxKind;

/// The tree of a text of SQL: all of the text is in its tokens.
///
/// ```
/// use caliperdock::{SyntaxElement, Tree};
///
/// let tree = Tree::parse("select f(1")?;
/// assert_eq!(tree.errors()[0].message, "expected )");
/// let tokens = tree.root().descendants_with_tokens().filter_map(SyntaxElement::into_token);
/// let text: String = tokens.map(|token| token.text()).collect();
/// assert_eq!(text, "select f(1");
/// # Ok::<(), caliperdock::Refused>(())
/// ```
#[derive(Clone, Debug)]
pub struct Tree {
    text: String,
    elements: Vec<Element>,
    errors: Vec<SyntaxError>,
}

/// A node or a token; those of a node stand directly behind it.
#[derive(Clone, Copy, Debug)]
struct Element {
    kind: SyntaxKind,
    is_node: bool,
    start: u32,
    end: u32,
    parent: u32,
    /// The index of the first element that isn't in this one.
    behind: u32,
}

impl Tree {
    /// Parses a text.
    pub fn parse(sql: &str) -> Result<Tree, Refused> {
        let all = ffi::sql(sql, Wanted::Tree)?;
        Tree::of(String::from(sql), &all.written)
    }

    /// The tree of a text for which this was written.
    pub(crate) fn of(text: String, written: &Written) -> Result<Tree, Refused> {
        Ok(Tree {
            text,
            elements: elements(&written.steps)?,
            errors: written.errors(),
        })
    }

    /// The node over the whole text.
    pub fn root(&self) -> SyntaxNode<'_> {
        SyntaxNode { tree: self, index: 0 }
    }

    /// What is wrong with the text: the errors of the parse, and after them the lexical ones.
    pub fn errors(&self) -> &[SyntaxError] {
        &self.errors
    }

    /// The text.
    pub fn text(&self) -> &str {
        &self.text
    }

    fn element(&self, index: usize) -> SyntaxElement<'_> {
        if self.elements[index].is_node {
            SyntaxElement::Node(SyntaxNode { tree: self, index })
        } else {
            SyntaxElement::Token(SyntaxToken { tree: self, index })
        }
    }
}

/// The elements of a walk.
fn elements(steps: &[RawStep]) -> Result<Vec<Element>, Refused> {
    let mut elements = Vec::new();
    elements.try_reserve_exact(steps.len()).map_err(|_| Refused::OutOfMemory)?;
    let mut parent = 0;
    for step in steps {
        let index = elements.len() as u32;
        match step.tag {
            0 | 1 => {
                let is_node = step.tag == 1;
                elements.push(Element {
                    kind: SyntaxKind::from(step.kind),
                    is_node,
                    start: step.start,
                    end: step.end,
                    parent,
                    behind: index + 1,
                });
                if is_node {
                    parent = index;
                }
            }
            2 => {
                let left: &mut Element = &mut elements[parent as usize];
                left.end = step.start;
                left.behind = index;
                parent = left.parent;
            }
            _ => {}
        }
    }
    Ok(elements)
}

/// A node of a tree.
#[derive(Clone, Copy, Debug)]
pub struct SyntaxNode<'t> {
    tree: &'t Tree,
    index: usize,
}

/// A token of a tree.
#[derive(Clone, Copy, Debug)]
pub struct SyntaxToken<'t> {
    tree: &'t Tree,
    index: usize,
}

/// A node or a token of a tree.
#[derive(Clone, Copy, Debug)]
pub enum SyntaxElement<'t> {
    Node(SyntaxNode<'t>),
    Token(SyntaxToken<'t>),
}

impl<'t> SyntaxNode<'t> {
    fn get(self) -> Element {
        self.tree.elements[self.index]
    }

    pub fn kind(self) -> SyntaxKind {
        self.get().kind
    }

    /// Its bytes of the text.
    pub fn text_range(self) -> Range<usize> {
        SyntaxElement::Node(self).text_range()
    }

    /// Its part of the text.
    pub fn text(self) -> &'t str {
        &self.tree.text[self.text_range()]
    }

    /// The node directly around it; the root has none.
    pub fn parent(self) -> Option<SyntaxNode<'t>> {
        SyntaxElement::Node(self).parent()
    }

    /// The nodes directly in it.
    pub fn children(self) -> impl Iterator<Item = SyntaxNode<'t>> {
        self.children_with_tokens().filter_map(SyntaxElement::into_node)
    }

    /// The nodes and tokens directly in it.
    pub fn children_with_tokens(self) -> impl Iterator<Item = SyntaxElement<'t>> {
        core::iter::successors(self.first_child_or_token(), |element| element.next_sibling_or_token())
    }

    /// The first node directly in it.
    pub fn first_child(self) -> Option<SyntaxNode<'t>> {
        self.children().next()
    }

    /// The first node or token directly in it.
    pub fn first_child_or_token(self) -> Option<SyntaxElement<'t>> {
        let first = self.index + 1;
        (first < self.get().behind as usize).then(|| self.tree.element(first))
    }

    /// The next node beside it.
    pub fn next_sibling(self) -> Option<SyntaxNode<'t>> {
        let next = SyntaxElement::Node(self).next_sibling_or_token();
        core::iter::successors(next, |element| element.next_sibling_or_token())
            .find_map(SyntaxElement::into_node)
    }

    /// The next node or token beside it.
    pub fn next_sibling_or_token(self) -> Option<SyntaxElement<'t>> {
        SyntaxElement::Node(self).next_sibling_or_token()
    }

    /// It, and all nodes in it, in the order of the text.
    pub fn descendants(self) -> impl Iterator<Item = SyntaxNode<'t>> {
        self.descendants_with_tokens().filter_map(SyntaxElement::into_node)
    }

    /// It, and all nodes and tokens in it, in the order of the text.
    pub fn descendants_with_tokens(self) -> impl Iterator<Item = SyntaxElement<'t>> {
        (self.index..self.get().behind as usize).map(move |index| self.tree.element(index))
    }

    /// The nodes around it, itself first.
    pub fn ancestors(self) -> impl Iterator<Item = SyntaxNode<'t>> {
        core::iter::successors(Some(self), |node| node.parent())
    }
}

impl<'t> SyntaxToken<'t> {
    pub fn kind(self) -> SyntaxKind {
        SyntaxElement::Token(self).kind()
    }

    /// Its bytes of the text.
    pub fn text_range(self) -> Range<usize> {
        SyntaxElement::Token(self).text_range()
    }

    /// Its text.
    pub fn text(self) -> &'t str {
        &self.tree.text[self.text_range()]
    }

    /// The node directly around it.
    pub fn parent(self) -> Option<SyntaxNode<'t>> {
        SyntaxElement::Token(self).parent()
    }

    /// The next node or token beside it.
    pub fn next_sibling_or_token(self) -> Option<SyntaxElement<'t>> {
        SyntaxElement::Token(self).next_sibling_or_token()
    }
}

impl<'t> SyntaxElement<'t> {
    fn place(self) -> (&'t Tree, usize) {
        match self {
            SyntaxElement::Node(node) => (node.tree, node.index),
            SyntaxElement::Token(token) => (token.tree, token.index),
        }
    }

    pub fn kind(self) -> SyntaxKind {
        let (tree, index) = self.place();
        tree.elements[index].kind
    }

    /// Its bytes of the text.
    pub fn text_range(self) -> Range<usize> {
        let (tree, index) = self.place();
        let element = &tree.elements[index];
        element.start as usize..element.end as usize
    }

    /// The node directly around it; the root has none.
    pub fn parent(self) -> Option<SyntaxNode<'t>> {
        let (tree, index) = self.place();
        let parent = tree.elements[index].parent as usize;
        (index > 0).then_some(SyntaxNode { tree, index: parent })
    }

    /// The next node or token beside it.
    pub fn next_sibling_or_token(self) -> Option<SyntaxElement<'t>> {
        let (tree, index) = self.place();
        let parent = self.parent()?;
        let next = tree.elements[index].behind;
        (next < parent.get().behind).then(|| tree.element(next as usize))
    }

    pub fn into_node(self) -> Option<SyntaxNode<'t>> {
        match self {
            SyntaxElement::Node(node) => Some(node),
            SyntaxElement::Token(_) => None,
        }
    }

    pub fn into_token(self) -> Option<SyntaxToken<'t>> {
        match self {
            SyntaxElement::Node(_) => None,
            SyntaxElement::Token(token) => Some(token),
        }
    }
}

impl<'t> From<SyntaxNode<'t>> for SyntaxElement<'t> {
    fn from(node: SyntaxNode<'t>) -> SyntaxElement<'t> {
        SyntaxElement::Node(node)
    }
}
