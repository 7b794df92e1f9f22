use crate::sys::{self, length};
use crate::{answered, Record, Records, Refusal};

/// A stored roll: the records of one script, read back without it.
///
/// The library reads the whole roll before there is a `Roll`, so that a damaged one yields no token at all.
///
/// ```
/// let stored = ergo_token::tokenize(b"x = 7").expect("a refusal").records().to_vec();
/// let roll = ergo_token::Roll::read(&stored).expect("a refusal");
/// for record in &roll {
///     println!("{:?} {} {} {}", record.kind, record.start, record.end, record.cut);
/// }
///
/// let refusal = ergo_token::Roll::read(&stored[..20]).unwrap_err();
/// assert_eq!((refusal.number, refusal.place), (22, 13));
/// ```
#[derive(Debug, Clone, Copy, PartialEq, Eq)]
#[must_use]
pub struct Roll<'r> {
    records: &'r [u8],
    count: u32,
}

impl<'r> Roll<'r> {
    /// Reads a roll, or tells by 22, 23 or 24 why it can't be read; the place is then an offset into the roll. Nothing that needs the script is
    /// judged: the roll of a script that is now refused by 29 stays readable.
    pub fn read(records: &'r [u8]) -> Result<Roll<'r>, Refusal> {
        let mut answer = [0u8; 16];
        // SAFETY: both slices are valid for their lengths, and the one that is lent for writing is borrowed for it, so they don't overlap.
        let number = unsafe { sys::ergo_read_roll(records.as_ptr(), length(records), answer.as_mut_ptr(), length(&answer)) };
        match (number, answered(answer)) {
            (0, (_, size)) => Ok(Roll { records, count: size.count }),
            (number, (place, _)) => Err(Refusal { number, place }),
        }
    }

    /// How many tokens, line ends and Eof included; modulo 2^32, which takes a roll of 55 GB to be seen.
    pub fn count(&self) -> usize {
        self.count as usize
    }

    /// The bytes that were read.
    pub fn records(&self) -> &'r [u8] {
        self.records
    }

    /// The tokens in the order of the roll; the last is Eof, and no other is.
    pub fn iter(&self) -> Records<'r> {
        Records { rest: self.records }
    }
}

impl<'r> IntoIterator for &Roll<'r> {
    type Item = Record;
    type IntoIter = Records<'r>;

    fn into_iter(self) -> Records<'r> {
        self.iter()
    }
}

impl<'r> IntoIterator for Roll<'r> {
    type Item = Record;
    type IntoIter = Records<'r>;

    fn into_iter(self) -> Records<'r> {
        self.iter()
    }
}
