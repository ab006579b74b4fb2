//! Trees of SQL text for x86-64 Linux, and trees of any parser's events.
//!
//! The work is done by a library that is proved correct; this crate calls it, and owns what it returns.
//!
//! ```
//! use caliperdock::{SyntaxKind, Tree};
//!
//! let tree = Tree::parse("select a from t; -- that's all")?;
//! let statement = tree.root().first_child().unwrap();
//! assert_eq!(statement.kind(), SyntaxKind::QUERY);
//! assert_eq!(statement.text(), "select a from t;");
//! # Ok::<(), caliperdock::Refused>(())
//! ```
//!
//! A text may be wrong: it has a tree all the same, and [`Tree::errors`] says what is wrong with it.
//!
//! A statement in a tree has the kind that PostgreSQL's grammar says, as QUERY or CREATE_TABLE. One of [`statements`]
//! has the kind of its first word, as SELECT or CREATE.
//!
//! A script of any size is read [part by part](parts) from a file or a stream, by the feature `std`. One that is edited is a
//! [`Document`].
#![no_std]

extern crate alloc;
#[cfg(feature = "std")]
extern crate std;

mod document;
mod error;
mod event;
mod ffi;
#[cfg(feature = "std")]
mod parts;
mod sql;
mod syntax_kind;
mod token;
mod tree;

pub use document::{Document, DocumentPart};
pub use error::{Refused, SyntaxError};
pub use event::{steps, Event, Sent, Step};
#[cfg(feature = "std")]
pub use parts::{parts, Part, Parts, ReadError};
pub use sql::{statements, tokens, Statement};
pub use syntax_kind::SyntaxKind;
pub use token::{Base, LiteralKind, Token, TokenKind};
pub use tree::{SyntaxElement, SyntaxNode, SyntaxToken, Tree};
