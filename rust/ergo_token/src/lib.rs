//! ErgoScript tokens: a safe wrapper of `libergo.a`, whose header is `include/ergo_token.h`.
//!
//! ```
//! let tokens = ergo_token::tokenize(b"x = 7").expect("a refusal");
//! let texts: Vec<&str> = tokens.iter().map(|token| token.text).collect();
//! assert_eq!(texts, ["x", "=", "7", ""]);
//!
//! let refusal = ergo_token::tokenize(b"\"str").unwrap_err();
//! assert_eq!((refusal.number, refusal.place), (7, 4));
//!
//! // Stored records are read back without the script.
//! let roll = ergo_token::Roll::read(tokens.records()).expect("a refusal");
//! let kinds: Vec<u16> = roll.iter().map(|record| record.kind.number()).collect();
//! assert_eq!(kinds, [1, 43, 4, 18]);
//!
//! // A place has a line and a column.
//! let at = ergo_token::position(b"x\n= 7", 4).expect("a refusal");
//! assert_eq!((at.line, at.column), (2, 3));
//!
//! // So has a direction mark, for which a script is refused wherever it stands, in a comment too.
//! let script = "x\n// \u{202E}".as_bytes();
//! let refusal = ergo_token::tokenize(script).unwrap_err();
//! assert_eq!((refusal.number, refusal.place), (29, 5));
//! let at = ergo_token::position(script, refusal.place).expect("a refusal");
//! assert_eq!((at.line, at.column), (2, 4));
//! ```
//!
//! No function here panics, whatever the bytes. Memory aside (the records of a script of n bytes take at most [`record_bound`]`(n)` bytes),
//! nothing is kept between calls. The library is proved; this wrapper is not.

use std::iter::FusedIterator;
use sys::length;

mod lines;
mod refusal;
mod roll;
mod view;

pub use lines::{position, Lines, Position, Positions};
pub use refusal::Refusal;
pub use roll::Roll;
pub use view::{shown, view, view_contact};

/// A longer script is refused by 17.
pub const SCRIPT_LIMIT: usize = 16_777_216;

/// The most bytes that [`tokenize_contact`] takes: a longer script is refused by 27.
pub const CONTACT_BYTES: usize = 4096;

/// The most tokens that [`tokenize_contact`] takes, line ends and Eof included: with more, a script is refused by 28.
pub const CONTACT_TOKENS: usize = 512;

/// Bytes enough for the records of every contact.
pub const CONTACT_RECORDS: usize = (CONTACT_TOKENS - 1) * LONG_LIT_LENGTH + RECORD_HEAD;

/// The length of a record's head, which its values follow. Of a kind without values the whole record is just the head.
pub const RECORD_HEAD: usize = 13;

/// The length of the record of an [`IntLit`](TokenKind::IntLit): the head and a value of 4 bytes.
pub const INT_LIT_LENGTH: usize = RECORD_HEAD + 4;

/// The length of the record of a [`LongLit`](TokenKind::LongLit): the head and a value of 8 bytes.
pub const LONG_LIT_LENGTH: usize = RECORD_HEAD + 8;

/// The length of the record of a [`Str`](TokenKind::Str): the head, content start and content end.
pub const STR_LENGTH: usize = RECORD_HEAD + 8;

/// The length of the record of a [`Newline`](TokenKind::Newline): the head and a value of 1 byte.
pub const NEWLINE_LENGTH: usize = RECORD_HEAD + 1;

/// One byte of script costs at most so many bytes of records: those of an [`IntLit`](TokenKind::IntLit).
pub const RECORD_PER_BYTE: usize = INT_LIT_LENGTH;

/// Bytes enough for the records of every script of `n` bytes. It never wraps: where that is more than a `usize` holds it is the largest one. With 32
/// bits, too, no script of at most [`SCRIPT_LIMIT`] bytes comes near that.
pub const fn record_bound(n: usize) -> usize {
    RECORD_PER_BYTE.saturating_mul(n).saturating_add(RECORD_HEAD)
}

mod sys {
    // The library takes a length in 64 bits on every processor, whatever usize has there.
    pub fn length<T>(part: &[T]) -> u64 {
        part.len() as u64
    }

    #[link(name = "ergo", kind = "static")]
    extern "C" {
        pub fn ergo_tokenize(script: *const u8, n: u64, records: *mut u8, m: u64, answer: *mut u8, k: u64) -> u32;
        pub fn ergo_tokenize_contact(script: *const u8, n: u64, records: *mut u8, m: u64, answer: *mut u8, k: u64) -> u32;
        pub fn ergo_measure(script: *const u8, n: u64, answer: *mut u8, k: u64) -> u32;
        pub fn ergo_token_text(script: *const u8, n: u64, start: u32, end: u32) -> u32;
        pub fn ergo_read_roll(roll: *const u8, n: u64, answer: *mut u8, k: u64) -> u32;
        pub fn ergo_index_lines(script: *const u8, n: u64, index: *mut u32, m: u64, answer: *mut u8, k: u64) -> u32;
        pub fn ergo_line_column(script: *const u8, n: u64, index: *const u32, m: u64, place: u32, answer: *mut u8, k: u64) -> u32;
    }
}

/// How much the records of an acceptable script are.
#[derive(Debug, Clone, Copy, PartialEq, Eq)]
pub struct Size {
    /// How many records, line ends and Eof included.
    pub count: u32,
    /// How many bytes they take.
    pub bytes: u32,
}

/// What the records of an acceptable script need, and how many of its tokens have values, by kind.
#[derive(Debug, Clone, Copy, PartialEq, Eq)]
pub struct Need {
    /// How many tokens, line ends and Eof included.
    pub count: u32,
    /// How many bytes the records take: [`RECORD_HEAD`] for each token, and beside that 4 for each `IntLit`, 8 for each `LongLit` and each `Str`, 1
    /// for each `Newline`.
    pub bytes: u32,
    /// How many of the tokens are [`IntLit`](TokenKind::IntLit)s.
    pub int_lits: u32,
    /// How many are [`LongLit`](TokenKind::LongLit)s.
    pub long_lits: u32,
    /// How many are [`Str`](TokenKind::Str)s.
    pub strs: u32,
    /// How many are [`Newline`](TokenKind::Newline)s.
    pub newlines: u32,
}

// A number of an answer block.
fn word(answer: &[u8], at: usize) -> u32 {
    bytes(answer, at).map_or(0, u32::from_le_bytes)
}

// The place and the size that an answer block has behind the number.
fn answered(answer: [u8; 16]) -> (u32, Size) {
    (word(&answer, 4), Size { count: word(&answer, 8), bytes: word(&answer, 12) })
}

// A function that tokenizes.
type Entry = unsafe extern "C" fn(*const u8, u64, *mut u8, u64, *mut u8, u64) -> u32;

// One call: the number handed back, the place, and the size.
fn call(entry: Entry, script: &[u8], records: &mut [u8]) -> (u32, u32, Size) {
    let mut answer = [0u8; 16];
    let (n, m, k) = (length(script), length(records), length(&answer));
    // SAFETY: the three slices are valid for their lengths, and the two that are lent for writing are borrowed for it, so none overlap.
    let number = unsafe { entry(script.as_ptr(), n, records.as_mut_ptr(), m, answer.as_mut_ptr(), k) };
    let (place, size) = answered(answer);
    (number, place, size)
}

/// Measures a script: what its records need, or why it is refused, with the number and place that [`tokenize`] gives. No record is made.
///
/// ```
/// let script = b"x = 7";
/// let need = ergo_token::measure(script).expect("a refusal");
/// assert_eq!((need.count, need.int_lits, need.long_lits), (4, 1, 0));
///
/// let mut records = vec![0; need.bytes as usize];
/// let size = ergo_token::write(script, &mut records).expect("a refusal");
/// assert_eq!((size.count, size.bytes), (need.count, need.bytes));
/// ```
pub fn measure(script: &[u8]) -> Result<Need, Refusal> {
    let mut answer = [0u8; 32];
    // SAFETY: both slices are valid for their lengths, and the one that is lent for writing is borrowed for it, so they don't overlap.
    let number = unsafe { sys::ergo_measure(script.as_ptr(), length(script), answer.as_mut_ptr(), length(&answer)) };
    let at = |at| word(&answer, at);
    match number {
        0 => Ok(Need { count: at(8), bytes: at(12), int_lits: at(16), long_lits: at(20), strs: at(24), newlines: at(28) }),
        number => Err(Refusal { number, place: at(4) }),
    }
}

/// Writes the records of a script into `records`, from its start on. The bytes past them keep their values; on a refusal all bytes do. Where
/// the records need more than was lent the refusal is 19; [`measure`] tells how much that is.
pub fn write(script: &[u8], records: &mut [u8]) -> Result<Size, Refusal> {
    match call(sys::ergo_tokenize, script, records) {
        (0, _, size) => Ok(size),
        (number, place, _) => Err(Refusal { number, place }),
    }
}

// The tokens of a script by one call, with so many bytes lent, of which only those that the records take are kept.
fn tokens_within(entry: Entry, script: &[u8], lent: usize) -> Result<Tokens<'_>, Refusal> {
    let mut records = vec![0; lent];
    match call(entry, script, &mut records) {
        (0, _, size) => {
            records.truncate(size.bytes as usize);
            records.shrink_to_fit();
            Ok(Tokens { script, records, count: size.count })
        }
        (number, place, _) => Err(Refusal { number, place }),
    }
}

/// The tokens of a script, or why it is refused. It measures first, and then lends just the bytes that the records need.
pub fn tokenize(script: &[u8]) -> Result<Tokens<'_>, Refusal> {
    let need = measure(script)?;
    tokens_within(sys::ergo_tokenize, script, need.bytes as usize)
}

/// The tokens of a contact, which is a script of at most [`CONTACT_BYTES`] bytes with at most [`CONTACT_TOKENS`] tokens, or why it is refused: as by
/// [`tokenize`], or by 27 for its bytes and 28 for its tokens. One call does, since no contact needs more than [`CONTACT_RECORDS`] bytes.
///
/// ```
/// assert_eq!(ergo_token::tokenize_contact(b"x = 7").expect("a refusal").count(), 4);
/// assert_eq!(ergo_token::tokenize_contact(&[b' '; 4097]).unwrap_err().number, 27);
/// assert_eq!(ergo_token::tokenize_contact(&[b';'; 512]).unwrap_err().number, 28);
/// ```
pub fn tokenize_contact(script: &[u8]) -> Result<Tokens<'_>, Refusal> {
    tokens_within(sys::ergo_tokenize_contact, script, CONTACT_RECORDS)
}

/// The text of the script from `start` to `end` (`end` not included), or refusal 21 where `start` is past `end`, `end` is past the script, or
/// either lies inside a character. Nothing is said of the bytes between; in a script that [`tokenize`] accepts they are UTF-8 without direction marks.
/// [`shown`] makes a text of any other script safe to print.
pub fn token_text(script: &[u8], start: u32, end: u32) -> Result<&[u8], Refusal> {
    // SAFETY: the slice is valid for its length, and only read.
    let number = unsafe { sys::ergo_token_text(script.as_ptr(), length(script), start, end) };
    match (number, script.get(start as usize..end as usize)) {
        (0, Some(text)) => Ok(text),
        _ => Err(Refusal { number: 21, place: 0 }),
    }
}

/// The tokens of an accepted script.
#[derive(Debug, Clone, PartialEq, Eq)]
pub struct Tokens<'s> {
    script: &'s [u8],
    records: Vec<u8>,
    count: u32,
}

impl<'s> Tokens<'s> {
    /// How many tokens, line ends and Eof included.
    pub fn count(&self) -> usize {
        self.count as usize
    }

    /// The records, as the library wrote them: a roll that can be stored, and read back by [`Roll::read`].
    pub fn records(&self) -> &[u8] {
        &self.records
    }

    /// The script that was tokenized.
    pub fn script(&self) -> &'s [u8] {
        self.script
    }

    /// The tokens in the order of the script; the last is Eof.
    pub fn iter(&self) -> Iter<'s, '_> {
        Iter { script: self.script, records: Records { rest: &self.records } }
    }
}

impl<'s, 't> IntoIterator for &'t Tokens<'s> {
    type Item = Token<'s>;
    type IntoIter = Iter<'s, 't>;

    fn into_iter(self) -> Iter<'s, 't> {
        self.iter()
    }
}

/// An iterator over the tokens of a script.
#[derive(Debug, Clone)]
#[must_use = "iterators are lazy and do nothing unless consumed"]
pub struct Iter<'s, 't> {
    script: &'s [u8],
    records: Records<'t>,
}

impl<'s> Iterator for Iter<'s, '_> {
    type Item = Token<'s>;

    // A record without a text would end the walk, as one that is none of the header's would in `Records`.
    fn next(&mut self) -> Option<Token<'s>> {
        let mut records = self.records.clone();
        let token = Token::new(self.script, records.next()?)?;
        self.records = records;
        Some(token)
    }

    fn size_hint(&self) -> (usize, Option<usize>) {
        self.records.size_hint()
    }
}

// As in `Records`.
impl FusedIterator for Iter<'_, '_> {}

/// What a record holds: a token without its text.
#[derive(Debug, Clone, Copy, PartialEq, Eq, Hash)]
pub struct Record {
    pub kind: TokenKind,
    pub start: u32,
    pub end: u32,
    /// As in [`Token`]; of a stored roll only that it is 0 or 1 is judged.
    pub cut: bool,
}

impl Record {
    fn read(record: &[u8]) -> Option<Record> {
        Some(Record {
            kind: TokenKind::read(record)?,
            start: u32::from_le_bytes(bytes(record, 4)?),
            end: u32::from_le_bytes(bytes(record, 8)?),
            cut: *record.get(12)? == 1,
        })
    }
}

/// An iterator over records, those of a script or of a [`Roll`].
#[derive(Debug, Clone)]
#[must_use = "iterators are lazy and do nothing unless consumed"]
pub struct Records<'r> {
    rest: &'r [u8],
}

impl Iterator for Records<'_> {
    type Item = Record;

    // A record that is none of the header's would end the walk: the library has written these records or read them, so there are no such
    // records, and nothing here may panic.
    fn next(&mut self) -> Option<Record> {
        let length = u16::from_le_bytes(bytes(self.rest, 0)?) as usize;
        let record = Record::read(self.rest.get(..length)?)?;
        self.rest = self.rest.get(length..)?;
        Some(record)
    }

    // No record is shorter than its head. That there is one more is not known before it is read.
    fn size_hint(&self) -> (usize, Option<usize>) {
        (0, Some(self.rest.len() / RECORD_HEAD))
    }
}

// Where `next` gives nothing, `rest` stays as it was, whatever the bytes: so it gives nothing again.
impl FusedIterator for Records<'_> {}

// N bytes of a record or an answer block.
fn bytes<const N: usize>(record: &[u8], at: usize) -> Option<[u8; N]> {
    record.get(at..at.checked_add(N)?)?.try_into().ok()
}

/// A token with its place: the bytes from `start` to `end`, `end` not included.
#[derive(Debug, Clone, Copy, PartialEq, Eq)]
pub struct Token<'s> {
    pub kind: TokenKind,
    pub start: u32,
    pub end: u32,
    /// Whether, since the last token that is no line end, a block comment stands behind a line end and, past spaces and tabs, is not followed
    /// by a line end. Never so for line ends.
    pub cut: bool,
    pub text: &'s str,
}

impl<'s> Token<'s> {
    fn new(script: &'s [u8], record: Record) -> Option<Token<'s>> {
        let Record { kind, start, end, cut } = record;
        let text = std::str::from_utf8(script.get(start as usize..end as usize)?).ok()?;
        Some(Token { kind, start, end, cut, text })
    }

    /// What the token's record holds: all but its text.
    pub fn record(&self) -> Record {
        Record { kind: self.kind, start: self.start, end: self.end, cut: self.cut }
    }

    /// The content of a string, without its quotes. Escapes are checked, not decoded. Nothing for other kinds.
    pub fn content(&self) -> Option<&'s str> {
        let TokenKind::Str { content_start, content_end } = self.kind else {
            return None;
        };
        self.text.get(content_start.checked_sub(self.start)? as usize..content_end.checked_sub(self.start)? as usize)
    }
}

/// The kinds of tokens, with their values.
#[derive(Debug, Clone, Copy, PartialEq, Eq, Hash)]
pub enum TokenKind {
    Ident,
    /// A run of operator signs that is no keyword.
    OpId,
    /// Its text takes in the backticks.
    BacktickId,
    /// The value, at most 2147483647.
    IntLit(u32),
    /// The value, at most 9223372036854775807.
    LongLit(u64),
    /// Where the content stands in the script; [`Token::content`] is the content.
    Str {
        content_start: u32,
        content_end: u32,
    },
    /// `'c'` or `'symbol`, with its quotes.
    CharSym,
    LParen,
    RParen,
    LBracket,
    RBracket,
    LBrace,
    RBrace,
    Comma,
    Semi,
    Dot,
    /// Whether a comment stands between this line end and the one before it in the same gap, or the gap's start.
    Newline {
        after_comment: bool,
    },
    /// Starts and ends at the script's length; of a stored roll this is not judged.
    Eof,
    Kw(Kw),
}

/// The keywords.
#[derive(Debug, Clone, Copy, PartialEq, Eq, Hash)]
pub enum Kw {
    Case,
    Else,
    False,
    Function,
    If,
    Match,
    Return,
    Then,
    True,
    /// `:`
    Colon,
    /// `=>`
    FatArrow,
    /// `=`
    Assign,
    /// `#`
    Hash,
    /// `@`
    At,
}

const KEYWORDS: [Kw; 14] = [
    Kw::Case,
    Kw::Else,
    Kw::False,
    Kw::Function,
    Kw::If,
    Kw::Match,
    Kw::Return,
    Kw::Then,
    Kw::True,
    Kw::Colon,
    Kw::FatArrow,
    Kw::Assign,
    Kw::Hash,
    Kw::At,
];

impl TokenKind {
    fn read(record: &[u8]) -> Option<TokenKind> {
        let number = u16::from_le_bytes(bytes(record, 2)?);
        Some(match number {
            1 => TokenKind::Ident,
            2 => TokenKind::OpId,
            3 => TokenKind::BacktickId,
            4 => TokenKind::IntLit(u32::from_le_bytes(bytes(record, RECORD_HEAD)?)),
            5 => TokenKind::LongLit(u64::from_le_bytes(bytes(record, RECORD_HEAD)?)),
            6 => TokenKind::Str {
                content_start: u32::from_le_bytes(bytes(record, RECORD_HEAD)?),
                content_end: u32::from_le_bytes(bytes(record, RECORD_HEAD + 4)?),
            },
            7 => TokenKind::CharSym,
            8 => TokenKind::LParen,
            9 => TokenKind::RParen,
            10 => TokenKind::LBracket,
            11 => TokenKind::RBracket,
            12 => TokenKind::LBrace,
            13 => TokenKind::RBrace,
            14 => TokenKind::Comma,
            15 => TokenKind::Semi,
            16 => TokenKind::Dot,
            17 => TokenKind::Newline { after_comment: *record.get(RECORD_HEAD)? == 1 },
            18 => TokenKind::Eof,
            _ => TokenKind::Kw(*KEYWORDS.get(usize::from(number.checked_sub(32)?))?),
        })
    }

    /// The kind's number in a record.
    pub fn number(self) -> u16 {
        match self {
            TokenKind::Ident => 1,
            TokenKind::OpId => 2,
            TokenKind::BacktickId => 3,
            TokenKind::IntLit(_) => 4,
            TokenKind::LongLit(_) => 5,
            TokenKind::Str { .. } => 6,
            TokenKind::CharSym => 7,
            TokenKind::LParen => 8,
            TokenKind::RParen => 9,
            TokenKind::LBracket => 10,
            TokenKind::RBracket => 11,
            TokenKind::LBrace => 12,
            TokenKind::RBrace => 13,
            TokenKind::Comma => 14,
            TokenKind::Semi => 15,
            TokenKind::Dot => 16,
            TokenKind::Newline { .. } => 17,
            TokenKind::Eof => 18,
            TokenKind::Kw(kw) => 32 + kw as u16,
        }
    }
}
