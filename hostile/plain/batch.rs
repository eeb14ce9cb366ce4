//! Batch files and reply files.

/// The most bodies of a batch.
pub const MOST_BODIES: usize = 65_536;
/// The most bytes of a body.
pub const MOST_BYTES: usize = 512;

/// Letters, version and number of bodies, as they stand in front of these.
pub fn header(letters: &[u8; 4], bodies: usize) -> Vec<u8> {
    [&letters[..], &[0, 1], &(bodies as u32).to_be_bytes()].concat()
}

/// The bodies of a batch file, which are left behind those that were taken.
pub struct Bodies<'a> {
    rest: &'a [u8],
    left: usize,
}

/// The bodies of a batch file, if it begins as one.
pub fn bodies_of(file: &[u8]) -> Option<Bodies<'_>> {
    let (count, rest) = file.strip_prefix(b"I83B\0\x01")?.split_first_chunk()?;
    let left = u32::from_be_bytes(*count) as usize;
    (left <= MOST_BODIES).then_some(Bodies { rest, left })
}

impl Bodies<'_> {
    pub fn left(&self) -> usize {
        self.left
    }

    /// All were taken, and nothing stands behind them.
    pub fn are_whole(&self) -> bool {
        self.left == 0 && self.rest.is_empty()
    }
}

impl<'a> Iterator for Bodies<'a> {
    type Item = &'a [u8];

    /// The next body; none where it isn't whole, or has a wrong length.
    fn next(&mut self) -> Option<&'a [u8]> {
        let left = self.left.checked_sub(1)?;
        let (length, rest) = self.rest.split_first_chunk()?;
        let (body, rest) = rest.split_at_checked(u16::from_be_bytes(*length).into())?;
        if !(1..=MOST_BYTES).contains(&body.len()) {
            return None;
        }
        *self = Bodies { rest, left };
        Some(body)
    }
}
