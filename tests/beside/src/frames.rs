//! Frames from a stream, one at a time, so that an input of any length takes the memory of its longest frame.

use std::io::{self, BufRead};

pub struct Frames<R> {
    from: R,
    body: Vec<u8>,
}

impl<R: BufRead> Frames<R> {
    pub fn new(from: R) -> Self {
        Self {
            from,
            body: Vec::new(),
        }
    }

    /// Is there nothing more?
    pub fn is_done(&mut self) -> io::Result<bool> {
        Ok(self.from.fill_buf()?.is_empty())
    }

    /// The next frame: its length in four bytes, low byte first, then its body. A stream that ends inside a frame is an error.
    pub fn frame(&mut self) -> io::Result<&[u8]> {
        let length = self.number()?;
        self.bytes(length)
    }

    /// A number of four bytes, low byte first.
    pub fn number(&mut self) -> io::Result<usize> {
        let mut bytes = [0; 4];
        self.from.read_exact(&mut bytes)?;
        Ok(u32::from_le_bytes(bytes) as usize)
    }

    /// One byte.
    pub fn byte(&mut self) -> io::Result<u8> {
        let mut byte = [0];
        self.from.read_exact(&mut byte)?;
        Ok(byte[0])
    }

    /// So many bytes.
    pub fn bytes(&mut self, count: usize) -> io::Result<&[u8]> {
        self.body.resize(count, 0);
        self.from.read_exact(&mut self.body)?;
        Ok(&self.body)
    }
}
