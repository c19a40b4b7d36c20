//! A stream over a reader of bytes.
use crate::raw::{self, RawEntry, Told};
use crate::stream::{Feed, Finish};
use crate::{Stream, Unit};
use std::io::{self, BufRead, BufReader, ErrorKind, Read};

/// The units of what a reader gives, as they come: from a file, a pipe or a socket. Needs the feature `std`.
///
/// Each unit is answered as soon as its last byte is there; the end of the input is the end of the stream. It is no `Iterator`, since an entry lies in the
/// reader until the next call.
///
/// ```
/// use chomkadieu::StreamReader;
///
/// let input = &b"# comment\nfwd-7 [002] 12.5: tb_tx: type=TB_CFG_PKG_READ size=3 domain=0 route=0 data=[1]"[..];
/// let mut units = StreamReader::new(input);
/// while let Some(unit) = units.next_unit()? {
///     match unit {
///         Ok(entry) => println!("{} of {}", entry.pdf(), entry.task()),
///         Err(refusal) => println!("refused {}: {refusal}", refusal.number()),
///     }
/// }
/// # Ok::<(), std::io::Error>(())
/// ```
#[derive(Debug)]
pub struct StreamReader<R> {
    input: BufReader<R>,
    stream: Stream,
    ended: bool,
}

impl<R: Read> StreamReader<R> {
    /// The stream of what the reader gives from here on. It has a buffer of its own, so the reader needs none.
    pub fn new(input: R) -> Self {
        Self {
            input: BufReader::new(input),
            stream: Stream::new(),
            ended: false,
        }
    }

    /// The next unit, or none behind the last. It is read as [`Stream::feed`] reads it. An interrupted read is tried again. Any other error is handed
    /// on and nothing is lost with it: the next call goes on where this one stood.
    pub fn next_unit(&mut self) -> io::Result<Option<Unit<'_>>> {
        self.by(raw::stream_feed, raw::stream_finish)
    }

    /// The same, but read as [`Stream::feed_lenient`] reads it.
    pub fn next_unit_lenient(&mut self) -> io::Result<Option<Unit<'_>>> {
        self.by(raw::stream_feed_lenient, raw::stream_finish_lenient)
    }

    /// The reader, which may have given more than was answered.
    pub fn get_ref(&self) -> &R {
        self.input.get_ref()
    }

    fn by(&mut self, feed: Feed, finish: Finish) -> io::Result<Option<Unit<'_>>> {
        let told = self.told(feed, finish)?;
        Ok(self.stream.unit(told))
    }

    /// What the first call tells that tells of a unit, or the end.
    fn told(&mut self, feed: Feed, finish: Finish) -> io::Result<Told<RawEntry>> {
        while !self.ended {
            let part = match self.input.fill_buf() {
                Err(error) if error.kind() == ErrorKind::Interrupted => continue,
                filled => filled?,
            };
            if part.is_empty() {
                self.ended = true;
                return Ok(self.stream.end(finish));
            }
            let mut left = part;
            let told = self.stream.take(feed, &mut left);
            let taken = part.len() - left.len();
            self.input.consume(taken);
            if !matches!(told, Ok(None)) {
                return Ok(told);
            }
        }
        Ok(Ok(None))
    }
}
