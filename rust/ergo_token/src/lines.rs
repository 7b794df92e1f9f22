use crate::sys::{self, length};
use crate::{word, Refusal};
use std::fmt;

/// A line and a column, both from 1; the column counts characters.
#[derive(Debug, Clone, Copy, PartialEq, Eq)]
pub struct Position {
    pub line: usize,
    pub column: usize,
}

impl fmt::Display for Position {
    fn fmt(&self, f: &mut fmt::Formatter<'_>) -> fmt::Result {
        write!(f, "line {}, column {}", self.line, self.column)
    }
}

/// The position of a place in a script: [`Lines::index`], and [`Lines::position`] once.
///
/// ```
/// let at = ergo_token::position(b"a\r\nb", 3).expect("a refusal");
/// assert_eq!((at.line, at.column), (2, 1));
/// ```
pub fn position(script: &[u8], place: u32) -> Result<Position, Refusal> {
    Lines::index(script)?.position(place)
}

// Builds an index: the number handed back, the place, and the number of lines.
fn build(script: &[u8], index: &mut [u32]) -> (u32, u32, u32) {
    let mut answer = [0u8; 16];
    let (n, m, k) = (length(script), length(index), length(&answer));
    // SAFETY: the three slices are valid for their lengths, and the two that are lent for writing are borrowed for it, so none overlap.
    let number = unsafe { sys::ergo_index_lines(script.as_ptr(), n, index.as_mut_ptr(), m, answer.as_mut_ptr(), k) };
    (number, word(&answer, 4), word(&answer, 8))
}

/// The lines of a script: an index of the places where they start.
///
/// LF and CR LF end a line everywhere, also inside strings, comments and backticks; a CR alone ends none. So a script has one line more than it
/// has line ends. Both bytes of CR LF belong to the line that they end: the LF stands one column behind the CR.
///
/// ```
/// let lines = ergo_token::Lines::index(b"a\r\nb\n").expect("a refusal");
/// assert_eq!(lines.starts(), [0, 3, 5]);
/// let at = lines.position(4).expect("a refusal");
/// assert_eq!((at.line, at.column), (2, 2));
/// assert_eq!(lines.position(6).unwrap_err().number, 25);
/// ```
#[derive(Debug, Clone, PartialEq, Eq)]
pub struct Lines<'s> {
    script: &'s [u8],
    starts: Vec<u32>,
}

impl<'s> Lines<'s> {
    /// The index of a script, or why there is none: 17 or 18. Nothing else of the script is judged, so that one refused by 1 to 16 or by 29 has lines
    /// too. It asks for the number of lines first, and then lends just as many numbers.
    pub fn index(script: &'s [u8]) -> Result<Lines<'s>, Refusal> {
        let mut starts = match build(script, &mut []) {
            (26, _, lines) => vec![0; lines as usize],
            (number, place, _) => return Err(Refusal { number, place }),
        };
        match build(script, &mut starts) {
            (0, _, _) => Ok(Lines { script, starts }),
            (number, place, _) => Err(Refusal { number, place }),
        }
    }

    /// How many lines: at least one.
    pub fn count(&self) -> usize {
        self.starts.len()
    }

    /// Where the lines start, the first of them at 0.
    pub fn starts(&self) -> &[u32] {
        &self.starts
    }

    /// The script whose lines these are.
    pub fn script(&self) -> &'s [u8] {
        self.script
    }

    /// The position of a place, by the library, or refusal 25 where the place is past the script's end or inside a character; the script's length is
    /// a place too. The library reads the whole script for each place: for many places [`Lines::positions`] is quicker.
    pub fn position(&self, place: u32) -> Result<Position, Refusal> {
        let (script, starts) = (self.script, &self.starts);
        let mut answer = [0u8; 16];
        let (n, m, k) = (length(script), length(starts), length(&answer));
        // SAFETY: the three slices are valid for their lengths, and the one that is lent for writing is borrowed for it, so it overlaps none.
        let number = unsafe { sys::ergo_line_column(script.as_ptr(), n, starts.as_ptr(), m, place, answer.as_mut_ptr(), k) };
        match number {
            0 => Ok(Position { line: word(&answer, 8) as usize, column: word(&answer, 12) as usize }),
            number => Err(Refusal { number, place: word(&answer, 4) }),
        }
    }

    /// The positions of many places, ascending ones best.
    pub fn positions(&self) -> Positions<'_> {
        Positions { lines: self, at: 0, line: 1, column: 1 }
    }
}

/// Positions of places one after another, the same as [`Lines::position`] gives. The lines are taken from the index and the characters counted
/// on from the last place: for ascending places each byte is walked once at most. The library's query for each of them would be quadratic.
#[derive(Debug, Clone)]
pub struct Positions<'l> {
    lines: &'l Lines<'l>,
    at: usize,
    // From 1, so that it is also the next line's place in the index.
    line: usize,
    column: usize,
}

impl Positions<'_> {
    /// The position of a place, or refusal 25. A place before the last one is looked for from the script's start again.
    pub fn at(&mut self, place: u32) -> Result<Position, Refusal> {
        let Lines { script, starts } = self.lines;
        let to = place as usize;
        let inside = script.get(to).is_some_and(|byte| byte & 0xC0 == 0x80);
        if to > script.len() || inside {
            return Err(Refusal { number: 25, place: 0 });
        }
        if to < self.at {
            *self = self.lines.positions();
        }
        while let Some(&start) = starts.get(self.line).filter(|&&start| start <= place) {
            (self.at, self.line, self.column) = (start as usize, self.line + 1, 1);
        }
        let passed = script.get(self.at..to).unwrap_or_default();
        self.column += passed.iter().filter(|&byte| byte & 0xC0 != 0x80).count();
        self.at = to;
        Ok(Position { line: self.line, column: self.column })
    }
}
