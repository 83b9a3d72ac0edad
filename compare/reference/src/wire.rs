//! Commands: one byte, then operands of fixed width, little-endian.

/// Why a part is refused: the number of the refusal table, and the position of the command in the part.
#[derive(Clone, Copy, Debug, PartialEq, Eq)]
pub struct Fault {
    pub number: u8,
    pub position: usize,
}

/// What reading a part ends with: what it holds and the position past its end, or a fault.
pub type Read<T> = Result<(T, usize), Fault>;

/// A command: its byte, its operands, and where it stands.
pub struct Command<'a> {
    pub byte: u8,
    operands: &'a [u8],
    pub position: usize,
}

/// Goes through the commands of a part.
pub struct Commands<'a> {
    bytes: &'a [u8],
    pub at: usize,
}

impl<'a> Commands<'a> {
    pub fn new(bytes: &'a [u8]) -> Self {
        Commands { bytes, at: 0 }
    }

    /// The next command. `width` gives the count of operand bytes of each byte that is a command here.
    pub fn next(&mut self, width: impl Fn(u8) -> Option<usize>) -> Result<Command<'a>, Fault> {
        let position = self.at;
        let fault = |number| Fault { number, position };
        let byte = *self.bytes.get(position).ok_or(fault(2))?;
        let width = width(byte).ok_or(fault(1))?;
        let operands = self.bytes.get(position + 1..position + 1 + width).ok_or(fault(2))?;
        self.at = position + 1 + width;
        Ok(Command { byte, operands, position })
    }
}

impl Command<'_> {
    /// Refuses the command with `number` when `bad` holds. The tests of a command are written in the order of their numbers.
    pub fn refuse(&self, number: u8, bad: bool) -> Result<(), Fault> {
        if bad {
            Err(Fault { number, position: self.position })
        } else {
            Ok(())
        }
    }

    pub fn u8(&self, at: usize) -> u8 {
        self.operands[at]
    }

    pub fn u16(&self, at: usize) -> u16 {
        u16::from_le_bytes(self.operands[at..at + 2].try_into().unwrap())
    }

    pub fn i16(&self, at: usize) -> i16 {
        self.u16(at) as i16
    }

    pub fn u32(&self, at: usize) -> u32 {
        u32::from_le_bytes(self.operands[at..at + 4].try_into().unwrap())
    }

    pub fn i32(&self, at: usize) -> i32 {
        self.u32(at) as i32
    }

    pub fn u64(&self, at: usize) -> u64 {
        u64::from_le_bytes(self.operands[at..at + 8].try_into().unwrap())
    }

    pub fn i64(&self, at: usize) -> i64 {
        self.u64(at) as i64
    }
}

/// A part that is a run of bytes by itself: bytes after its end are refused 12.
pub fn alone<T>(bytes: &[u8], read: Read<T>) -> Result<T, Fault> {
    let (value, end) = read?;
    if end < bytes.len() {
        return Err(Fault { number: 12, position: end });
    }
    Ok(value)
}
