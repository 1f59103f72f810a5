//! Numbers of a job: groups of seven bits, low group first, the top bit set on
//! all but the last; at most 5 bytes, below 2^32, in their shortest form.

/// Why a job or a patch is refused: the number in document 01's table.
#[derive(Clone, Copy, Debug, PartialEq, Eq)]
pub struct Refused(pub u8);

/// 1: not a number.
pub const NOT_A_NUMBER: Refused = Refused(1);
/// 2: outside a limit, or names nothing.
pub const NAMES_NOTHING: Refused = Refused(2);
/// 3: listed twice, or not rising.
pub const LISTED_TWICE: Refused = Refused(3);

/// The longest form of a number, in bytes.
const MOST_GROUPS: usize = 5;

/// Stands on the job's bytes and the offset of the next one.
pub struct Reader<'a> {
    bytes: &'a [u8],
    next: usize,
}

impl<'a> Reader<'a> {
    /// Stands before the first byte.
    pub fn new(bytes: &'a [u8]) -> Self {
        Reader { bytes, next: 0 }
    }

    /// How many bytes there are.
    pub fn len(&self) -> usize {
        self.bytes.len()
    }

    /// How many bytes were read.
    pub fn place(&self) -> usize {
        self.next
    }

    /// Whether every byte was read.
    pub fn at_end(&self) -> bool {
        self.next == self.bytes.len()
    }

    /// Reads a number, or refuses with 1.
    pub fn number(&mut self) -> Result<u32, Refused> {
        let mut number = 0u64;
        for group in 0..MOST_GROUPS {
            let byte = *self.bytes.get(self.next).ok_or(NOT_A_NUMBER)?;
            self.next += 1;
            number |= u64::from(byte & 0x7f) << (7 * group);
            if byte & 0x80 == 0 {
                let shortest = byte != 0 || group == 0;
                return match u32::try_from(number) {
                    Ok(number) if shortest => Ok(number),
                    _ => Err(NOT_A_NUMBER),
                };
            }
        }
        Err(NOT_A_NUMBER)
    }

    /// Reads a number from `least` to `most`, else refuses with 2.
    pub fn within(&mut self, least: usize, most: usize) -> Result<usize, Refused> {
        let number = self.number()? as usize;
        if (least..=most).contains(&number) {
            Ok(number)
        } else {
            Err(NAMES_NOTHING)
        }
    }

    /// Reads the number of one of `count` things, else refuses with 2.
    pub fn index(&mut self, count: usize) -> Result<usize, Refused> {
        let number = self.number()? as usize;
        if number < count {
            Ok(number)
        } else {
            Err(NAMES_NOTHING)
        }
    }

    /// Reads 0 or 1, else refuses with 2.
    pub fn flag(&mut self) -> Result<bool, Refused> {
        Ok(self.index(2)? == 1)
    }
}

/// Appends the shortest form of a number.
pub fn put(job: &mut Vec<u8>, mut number: u32) {
    while number >= 0x80 {
        job.push(number as u8 | 0x80);
        number >>= 7;
    }
    job.push(number as u8);
}
