use std::error::Error;
use std::fmt;

/// Why a script, a stored roll or a place is refused, and where.
#[derive(Debug, Clone, Copy, PartialEq, Eq, Hash)]
pub struct Refusal {
    /// 1 to 16: the script is no sequence of tokens. 17: it is too long. 18: it is not UTF-8. 19, of [`write`](crate::write) only: too few bytes
    /// were lent. 21: of [`token_text`](crate::token_text) only. 22 to 24, of [`Roll::read`](crate::Roll::read) only: the stored roll can't be
    /// read. 25, where a position is asked for: the place is past the script's end or inside a character. 27 and 28, of
    /// [`tokenize_contact`](crate::tokenize_contact) only: the contact has too many bytes or tokens. 29: a direction mark, U+202A to U+202E or U+2066
    /// to U+2069, stands in the script, and whether it is a sequence of tokens is not asked. (20, a wrong answer block, and 26, too few numbers for
    /// the index of lines, do not occur here.)
    pub number: u32,
    /// A byte offset from 0 into the script, or for 22 to 24 into the roll, modulo 2^32; 0 where the header names none.
    pub place: u32,
}

impl Refusal {
    /// What was met, in words.
    pub fn meaning(&self) -> &'static str {
        self.words().0
    }

    /// What the author of the script should do; for 19 to 21, 25 and 26, the author of the host; for 22 to 24, whoever keeps the stored roll.
    pub fn advice(&self) -> &'static str {
        self.words().1
    }

    fn words(&self) -> (&'static str, &'static str) {
        match self.number {
            1 => {
                ("a CR stands here without an LF after it", "end lines by LF or CR LF; a CR alone may stand only in strings, comments and backticks")
            }
            2 => ("the block comment that starts here is still open at the script's end", "close it by */; each /* inside it needs a */ of its own"),
            3 => ("no token starts with this character", "take it out, or put it into a string or backticks"),
            4 => ("the backtick that starts here is still open at the script's end", "close it by a backtick"),
            5 => ("nothing stands between these two backticks", "put a name between them"),
            6 => ("the number that starts here is too large", "append L, which takes numbers up to 9223372036854775807, or write a smaller number"),
            7 => ("a string opened by one \" is still open at the script's end", "close it by \""),
            8 => ("a line ends inside a string opened by one \"", "close the string on its line, or open and close it by \"\"\""),
            9 => ("a string opened by \"\"\" is still open at the script's end", "close it by \"\"\""),
            10 => ("a backslash stands in a string opened by \"\"\"", "open and close the string by one \", where escapes are taken"),
            11 => ("${ stands in a prefixed string, which is not supported", "join strings instead"),
            12 => ("the script ends directly after the backslash of an escape", "finish the escape, and the string or character in which it stands"),
            13 => ("missing hex digit here after \\u", "write exactly four hex digits after \\u"),
            14 => (
                "this character after a backslash is no escape",
                "write \\b \\t \\n \\f \\r \\' \\\" or \\], a backslash and one to three digits, or \\u and four hex digits; \\\\ is none of them",
            ),
            15 => ("missing ' here after the escape of a character", "close the character by ' right after its escape"),
            16 => ("neither a character nor a symbol stands after the '", "write a character and ' after it, or a symbol"),
            17 => ("the script has more than 16777216 bytes", "hand over a shorter script"),
            18 => ("the bytes from here on are not UTF-8", "save the script as UTF-8"),
            19 => ("the records need more bytes than were lent", "lend as many bytes as measuring tells"),
            20 => ("the answer block has another length than the function asks for", "lend an answer block of the length that the header names"),
            21 => {
                ("this start and this end do not enclose a text of the script", "ask for a start and an end as they stand in a record of this script")
            }
            22 => ("the roll ends inside the record that starts here", "the roll was cut short, or a length in it damaged: fetch it again"),
            23 => (
                "no record has the kind and the length of the one that starts here",
                "these bytes are no roll of this tokenizer, or one of another version: tokenize the script again",
            ),
            24 => (
                "the record that starts here has a field out of range or a token that overlaps the one before it, or bytes stand here after Eof, or \
                 the roll ends here without Eof",
                "the roll was damaged, cut short between two records, or joined with another: fetch it again and hand it over alone, or tokenize the \
                 script again",
            ),
            25 => (
                "the place asked for is past the script's end, or inside a character",
                "ask for the place of a token or of a refusal of this script, or for its length",
            ),
            26 => ("the script has more lines than numbers were lent for their starts", "lend as many numbers as there are lines"),
            27 => ("the contact has more than 4096 bytes", "shorten it to 4096 bytes"),
            28 => (
                "the contact has more than 512 tokens, line ends and the script's end included",
                "use fewer tokens, and take out empty lines: each costs a token",
            ),
            29 => (
                "a direction mark, which makes the script look other than it reads",
                "take it out; in a character, or in a string that opens by one \" and has no prefix, its escape, \\u and four hex digits, can stand in \
                 its place",
            ),
            _ => ("the library's header knows no such refusal", "link the libergo.a that this wrapper was written for"),
        }
    }
}

impl fmt::Display for Refusal {
    fn fmt(&self, f: &mut fmt::Formatter<'_>) -> fmt::Result {
        write!(f, "refused {} at {}: {}; {}", self.number, self.place, self.meaning(), self.advice())
    }
}

impl Error for Refusal {}
