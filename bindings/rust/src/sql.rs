//! The raw tokens and the statements of a text of SQL.

use alloc::vec::Vec;
use core::ops::Range;

use crate::error::Refused;
use crate::ffi::{self, Wanted};
use crate::syntax_kind::SyntaxKind;
use crate::token::Token;

/// A statement of a text.
#[derive(Clone, Debug, PartialEq, Eq)]
pub struct Statement {
    /// The kind for its first word, as SELECT.
    pub kind: SyntaxKind,
    /// Its bytes of the text, its semicolon among them.
    pub range: Range<usize>,
}

/// The raw tokens of a text, by PostgreSQL's rules. Their lengths add up to the text.
///
/// ```
/// use caliperdock::{tokens, TokenKind};
///
/// let tokens = tokens("select 1")?;
/// assert_eq!(tokens.len(), 3);
/// assert_eq!(tokens[1].kind, TokenKind::Whitespace);
/// # Ok::<(), caliperdock::Refused>(())
/// ```
pub fn tokens(sql: &str) -> Result<Vec<Token>, Refused> {
    let all = ffi::sql(sql, Wanted::Tokens)?;
    Ok(all.tokens.iter().map(Token::from).collect())
}

/// The statements of a text. A semicolon in a string, a comment, a dollar quote, or the body of a routine
/// or a rule ends none.
///
/// ```
/// use caliperdock::statements;
///
/// let sql = "do $$ begin; end $$; select ';';";
/// let texts: Vec<_> = statements(sql)?.iter().map(|s| &sql[s.range.clone()]).collect();
/// assert_eq!(texts, ["do $$ begin; end $$;", "select ';';"]);
/// # Ok::<(), caliperdock::Refused>(())
/// ```
pub fn statements(sql: &str) -> Result<Vec<Statement>, Refused> {
    let all = ffi::statements(sql)?;
    let statements = all.iter().map(|raw| Statement {
        kind: SyntaxKind::from(raw.kind as u16),
        range: raw.start as usize..raw.end as usize,
    });
    Ok(statements.collect())
}
