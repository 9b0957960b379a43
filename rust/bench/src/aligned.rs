//! Bytes at an address of a known kind, so that no run depends on where memory was found.

/// Bytes at a multiple of 64, or 1 byte behind it.
pub struct Aligned {
    memory: Vec<u8>,
    first: usize,
    length: usize,
}

impl Aligned {
    /// A copy of these bytes.
    pub fn copy_of(bytes: &[u8], odd: bool) -> Aligned {
        let mut memory = vec![0; bytes.len() + 65];
        let first = memory.as_ptr().align_offset(64) + usize::from(odd);
        memory[first..first + bytes.len()].copy_from_slice(bytes);
        Aligned {
            memory,
            first,
            length: bytes.len(),
        }
    }

    pub fn bytes(&self) -> &[u8] {
        &self.memory[self.first..self.first + self.length]
    }

    pub fn bytes_mut(&mut self) -> &mut [u8] {
        &mut self.memory[self.first..self.first + self.length]
    }
}
