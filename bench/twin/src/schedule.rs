//! The reader of schedules, after 01, "Schedule bytes and listing".

/// One entry, as the table of 01 has it: its code decides the case, the operands follow.
#[derive(Clone, Copy)]
pub enum Entry {
    Enqueue { t: u32, v: u32 },
    Dequeue { t: u32 },
    FutureEnqueue { t: u32, v: u32 },
    FutureDequeue { t: u32 },
    Evaluate { t: u32, f: u32 },
    Step { t: u32 },
    Run { t: u32, n: u32 },
}

/// A refusal is its number in 01's table.
pub type Refusal = u32;

pub const SETUP_OUT_OF_RANGE: Refusal = 9;
pub const BYTES_END: Refusal = 10;
pub const NUMBER_TOO_LONG: Refusal = 11;
pub const NO_SUCH_CODE: Refusal = 12;

/// "At most five bytes."
const LONGEST: usize = 5;
/// "A fifth byte above 15" would reach past 2^32 - 1; it is the raw byte, top bit included.
const FIFTH_MOST: u8 = 15;

pub struct Reader<'a> {
    bytes: &'a [u8],
    at: usize,
}

impl<'a> Reader<'a> {
    pub fn new(bytes: &'a [u8]) -> Self {
        Reader { bytes, at: 0 }
    }

    /// "Groups of seven bits, low group first, top bit set when another follows; below 2^32; at most
    /// five bytes." The first offending byte decides between 10 and 11.
    fn number(&mut self) -> Result<u32, Refusal> {
        let mut value = 0u32;
        for group in 0..LONGEST {
            let Some(&byte) = self.bytes.get(self.at) else {
                return Err(BYTES_END);
            };
            self.at += 1;
            if group == LONGEST - 1 && byte > FIFTH_MOST {
                return Err(NUMBER_TOO_LONG);
            }
            value |= u32::from(byte & 0x7f) << (7 * group);
            if byte & 0x80 == 0 {
                // "A last group of zero after another group."
                if byte == 0 && group > 0 {
                    return Err(NUMBER_TOO_LONG);
                }
                return Ok(value);
            }
        }
        unreachable!("a fifth byte with its top bit set is above 15")
    }

    /// "The thread number, the node number"; "at set-up 9 is tested after both numbers have been read".
    pub fn setup(&mut self) -> Result<(usize, usize), Refusal> {
        let threads = self.number()?;
        let nodes = self.number()?;
        if !(1..=8).contains(&threads) || !(2..=512).contains(&nodes) {
            return Err(SETUP_OUT_OF_RANGE);
        }
        Ok((threads as usize, nodes as usize))
    }

    /// "The entry reader answers the entry ..., or end where no byte is left." The code is a number
    /// like any other, and "12 comes as soon as the code is read".
    pub fn entry(&mut self) -> Result<Option<Entry>, Refusal> {
        if self.at == self.bytes.len() {
            return Ok(None);
        }
        let code = self.number()?;
        if !(1..=7).contains(&code) {
            return Err(NO_SUCH_CODE);
        }
        let t = self.number()?;
        let entry = match code {
            1 => Entry::Enqueue { t, v: self.number()? },
            2 => Entry::Dequeue { t },
            3 => Entry::FutureEnqueue { t, v: self.number()? },
            4 => Entry::FutureDequeue { t },
            5 => Entry::Evaluate { t, f: self.number()? },
            6 => Entry::Step { t },
            _ => Entry::Run { t, n: self.number()? },
        };
        Ok(Some(entry))
    }
}
