//! Fields of any width up to 32 bits, packed most significant bit first and without gaps.

/// Takes fields from the front of a byte slice. The caller knows that the fields are there.
pub struct BitReader<'b> {
    bytes: &'b [u8],
    position: usize,
}

impl<'b> BitReader<'b> {
    pub fn new(bytes: &'b [u8]) -> Self {
        BitReader { bytes, position: 0 }
    }

    pub fn field(&mut self, width: usize) -> u32 {
        let mut value = 0;
        let mut missing = width;
        while missing > 0 {
            // One step takes what the current byte still has of the field.
            let left = 8 - self.position % 8;
            let taken = left.min(missing);
            let byte = u32::from(self.bytes[self.position / 8]);
            let part = (byte >> (left - taken)) & ((1 << taken) - 1);
            value = (value << taken) | part;
            self.position += taken;
            missing -= taken;
        }
        value
    }

    /// A field of at most eight bits.
    pub fn byte(&mut self, width: usize) -> u8 {
        self.field(width) as u8
    }

    /// Bits left over in the byte that the last field ended in.
    pub fn fill_width(&self) -> usize {
        (8 - self.position % 8) % 8
    }
}

/// Appends fields; the last byte is filled up with zero bits.
#[derive(Default)]
pub struct BitWriter {
    bytes: Vec<u8>,
    position: usize,
}

impl BitWriter {
    pub fn new() -> Self {
        Self::default()
    }

    /// Writes the lowest `width` bits of `value`.
    pub fn field(&mut self, width: usize, value: u32) {
        let mut missing = width;
        while missing > 0 {
            if self.position % 8 == 0 {
                self.bytes.push(0);
            }
            let left = 8 - self.position % 8;
            let taken = left.min(missing);
            let part = (value >> (missing - taken)) & ((1 << taken) - 1);
            self.bytes[self.position / 8] |= (part << (left - taken)) as u8;
            self.position += taken;
            missing -= taken;
        }
    }

    pub fn into_bytes(self) -> Vec<u8> {
        self.bytes
    }
}
