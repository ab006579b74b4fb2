//! Raw tokens.

use crate::ffi::RawToken;

/// A raw token: its kind, and its length in bytes. It starts where the token before it ends.
#[derive(Clone, Copy, Debug, PartialEq, Eq)]
pub struct Token {
    pub kind: TokenKind,
    pub len: u32,
}

/// What a raw token is. Places inside a token count bytes from its start.
#[derive(Clone, Copy, Debug, PartialEq, Eq)]
pub enum TokenKind {
    Unknown,
    LineComment,
    BlockComment { terminated: bool },
    Whitespace,
    /// An identifier or a keyword.
    Ident,
    QuotedIdent { terminated: bool, uescape: bool },
    PsqlCommand { ends_query: bool },
    PositionalParam { trailing_junk_start: u32 },
    Literal { kind: LiteralKind },
    Semi,
    Comma,
    Dot,
    DotDot,
    OpenParen,
    CloseParen,
    OpenBracket,
    CloseBracket,
    OpenCurly,
    CloseCurly,
    At,
    Pound,
    Tilde,
    Question,
    Colon,
    Eq,
    Bang,
    Lt,
    Gt,
    Minus,
    And,
    Or,
    Plus,
    Star,
    Slash,
    Caret,
    Percent,
    Backtick,
}

/// What a literal is.
#[derive(Clone, Copy, Debug, PartialEq, Eq)]
pub enum LiteralKind {
    Int { empty_int: bool, base: Base, trailing_junk_start: u32 },
    Numeric { empty_exponent_start: Option<u32>, trailing_junk_start: u32 },
    Str { terminated: bool },
    NationalStr { terminated: bool },
    ByteStr { terminated: bool },
    BitStr { terminated: bool },
    DollarQuotedString { terminated: bool },
    UnicodeEscStr { terminated: bool },
    EscStr { terminated: bool },
}

/// The base of an integer.
#[derive(Clone, Copy, Debug, PartialEq, Eq)]
pub enum Base {
    Binary = 2,
    Octal = 8,
    Decimal = 10,
    Hexadecimal = 16,
}

const TERMINATED: u32 = 1;
const UESCAPE: u32 = 2;
const ENDS_QUERY: u32 = 4;
const EMPTY_INT: u32 = 8;
const EMPTY_EXPONENT: u32 = 16;

/// The kinds from this number on that have no fields.
const FIRST_SIGN: u32 = 8;

const SIGNS: [TokenKind; 28] = [
    TokenKind::Semi,
    TokenKind::Comma,
    TokenKind::Dot,
    TokenKind::DotDot,
    TokenKind::OpenParen,
    TokenKind::CloseParen,
    TokenKind::OpenBracket,
    TokenKind::CloseBracket,
    TokenKind::OpenCurly,
    TokenKind::CloseCurly,
    TokenKind::At,
    TokenKind::Pound,
    TokenKind::Tilde,
    TokenKind::Question,
    TokenKind::Colon,
    TokenKind::Eq,
    TokenKind::Bang,
    TokenKind::Lt,
    TokenKind::Gt,
    TokenKind::Minus,
    TokenKind::And,
    TokenKind::Or,
    TokenKind::Plus,
    TokenKind::Star,
    TokenKind::Slash,
    TokenKind::Caret,
    TokenKind::Percent,
    TokenKind::Backtick,
];

fn flag(set: bool, bit: u32) -> u32 {
    if set {
        bit
    } else {
        0
    }
}

impl From<&Token> for RawToken {
    fn from(token: &Token) -> RawToken {
        let (kind, a, b, flags) = match token.kind {
            TokenKind::Unknown => (0, 0, 0, 0),
            TokenKind::LineComment => (1, 0, 0, 0),
            TokenKind::BlockComment { terminated } => (2, 0, 0, flag(terminated, TERMINATED)),
            TokenKind::Whitespace => (3, 0, 0, 0),
            TokenKind::Ident => (4, 0, 0, 0),
            TokenKind::QuotedIdent { terminated, uescape } => {
                (5, 0, 0, flag(terminated, TERMINATED) | flag(uescape, UESCAPE))
            }
            TokenKind::PsqlCommand { ends_query } => (6, 0, 0, flag(ends_query, ENDS_QUERY)),
            TokenKind::PositionalParam { trailing_junk_start } => (7, trailing_junk_start, 0, 0),
            TokenKind::Literal { kind } => literal_number(kind),
            sign => {
                let place = SIGNS.iter().position(|one| *one == sign).unwrap_or(0);
                (FIRST_SIGN + place as u32, 0, 0, 0)
            }
        };
        RawToken { kind, len: token.len, a, b, flags }
    }
}

/// The kind of a literal, its fields and its flags.
fn literal_number(kind: LiteralKind) -> (u32, u32, u32, u32) {
    let (number, terminated) = match kind {
        LiteralKind::Int { empty_int, base, trailing_junk_start } => {
            return (36, trailing_junk_start, base as u32, flag(empty_int, EMPTY_INT));
        }
        LiteralKind::Numeric { empty_exponent_start, trailing_junk_start } => {
            let empty = flag(empty_exponent_start.is_some(), EMPTY_EXPONENT);
            return (37, trailing_junk_start, empty_exponent_start.unwrap_or(0), empty);
        }
        LiteralKind::Str { terminated } => (38, terminated),
        LiteralKind::NationalStr { terminated } => (39, terminated),
        LiteralKind::ByteStr { terminated } => (40, terminated),
        LiteralKind::BitStr { terminated } => (41, terminated),
        LiteralKind::DollarQuotedString { terminated } => (42, terminated),
        LiteralKind::UnicodeEscStr { terminated } => (43, terminated),
        LiteralKind::EscStr { terminated } => (44, terminated),
    };
    (number, 0, 0, flag(terminated, TERMINATED))
}

impl From<&RawToken> for Token {
    fn from(raw: &RawToken) -> Token {
        let has = |bit| raw.flags & bit != 0;
        let terminated = has(TERMINATED);
        let kind = match raw.kind {
            1 => TokenKind::LineComment,
            2 => TokenKind::BlockComment { terminated },
            3 => TokenKind::Whitespace,
            4 => TokenKind::Ident,
            5 => TokenKind::QuotedIdent { terminated, uescape: has(UESCAPE) },
            6 => TokenKind::PsqlCommand { ends_query: has(ENDS_QUERY) },
            7 => TokenKind::PositionalParam { trailing_junk_start: raw.a },
            8..=35 => SIGNS[(raw.kind - FIRST_SIGN) as usize],
            36 => TokenKind::Literal {
                kind: LiteralKind::Int {
                    empty_int: has(EMPTY_INT),
                    base: base(raw.b),
                    trailing_junk_start: raw.a,
                },
            },
            37 => TokenKind::Literal {
                kind: LiteralKind::Numeric {
                    empty_exponent_start: has(EMPTY_EXPONENT).then_some(raw.b),
                    trailing_junk_start: raw.a,
                },
            },
            38 => TokenKind::Literal { kind: LiteralKind::Str { terminated } },
            39 => TokenKind::Literal { kind: LiteralKind::NationalStr { terminated } },
            40 => TokenKind::Literal { kind: LiteralKind::ByteStr { terminated } },
            41 => TokenKind::Literal { kind: LiteralKind::BitStr { terminated } },
            42 => TokenKind::Literal { kind: LiteralKind::DollarQuotedString { terminated } },
            43 => TokenKind::Literal { kind: LiteralKind::UnicodeEscStr { terminated } },
            44 => TokenKind::Literal { kind: LiteralKind::EscStr { terminated } },
            _ => TokenKind::Unknown,
        };
        Token { kind, len: raw.len }
    }
}

fn base(number: u32) -> Base {
    match number {
        2 => Base::Binary,
        8 => Base::Octal,
        16 => Base::Hexadecimal,
        _ => Base::Decimal,
    }
}
