//! The entry: what a line or a record says.
use crate::raw::{self, RawEntry};
use crate::{Book, ControlPacket, Event, Pdf, Refusal};

/// Seconds, and microseconds as they stand in the line.
#[derive(Clone, Copy, Debug, PartialEq, Eq)]
pub struct Timestamp {
    /// The first number.
    pub seconds: u64,
    /// The second number, which is no fraction: `1.5` has 5 microseconds.
    pub microseconds: u64,
}

/// What a trace line or a record says of one packet. It borrows the text that it was read from and the slots that hold its dwords.
#[derive(Clone, Copy, Debug)]
pub struct Entry<'t, 's> {
    raw: RawEntry,
    text: &'t [u8],
    data: &'s [u32],
}

type Reader = fn(&[u8], &mut [u32]) -> Result<RawEntry, u8>;

impl<'t, 's> Entry<'t, 's> {
    /// The entry of a line of trace; its dwords go to the first slots. A refusal leaves the slots as they were. A line with a piece of `data` that
    /// is no hex number of 32 bits is refused: [`Refusal::BadPiece`].
    pub fn parse(line: &'t [u8], slots: &'s mut [u32]) -> Result<Self, Refusal> {
        Self::by(raw::parse, line, slots)
    }

    /// The same, but such a piece is left out, as tbtools does it: the dwords behind it move up.
    ///
    /// ```
    /// use chomkadieu::{Entry, Refusal};
    ///
    /// let line = b"a-1 [002] 1.2: f: type=t size=3 domain=0 route=0 data=[0x1, 0x04zz, 0x2]";
    /// let mut slots = [0; 3];
    /// assert_eq!(Entry::parse(line, &mut slots).err(), Some(Refusal::BadPiece));
    /// assert_eq!(Entry::parse_lenient(line, &mut slots)?.data(), [1, 2]);
    /// # Ok::<(), chomkadieu::Refusal>(())
    /// ```
    pub fn parse_lenient(line: &'t [u8], slots: &'s mut [u32]) -> Result<Self, Refusal> {
        Self::by(raw::parse_lenient, line, slots)
    }

    /// The entry of a record; its dwords go to the first slots, which a refusal leaves as they were.
    pub fn from_record(record: &'t [u8], slots: &'s mut [u32]) -> Result<Self, Refusal> {
        Self::by(raw::record_read, record, slots)
    }

    /// The entry of a text that is a record if it starts with A1, else a line as [`Entry::parse`] reads it.
    pub fn read(text: &'t [u8], slots: &'s mut [u32]) -> Result<Self, Refusal> {
        Self::by(raw::read, text, slots)
    }

    /// The same, but a line is read as [`Entry::parse_lenient`] reads it. Records are read alike.
    pub fn read_lenient(text: &'t [u8], slots: &'s mut [u32]) -> Result<Self, Refusal> {
        Self::by(raw::read_lenient, text, slots)
    }

    fn by(reader: Reader, text: &'t [u8], slots: &'s mut [u32]) -> Result<Self, Refusal> {
        let raw = reader(text, slots).map_err(Refusal::from_number)?;
        Ok(Self::over(raw, text, slots))
    }

    /// The entry that a call read from the text, its dwords in the first of the slots.
    pub(crate) fn over(raw: RawEntry, text: &'t [u8], slots: &'s [u32]) -> Self {
        Self {
            raw,
            text,
            data: slots.get(..raw.dwords).unwrap_or_default(),
        }
    }

    /// The entry's record into the first bytes of the buffer, and how many bytes it has. A refusal leaves the buffer as it was.
    pub fn write(&self, out: &mut [u8]) -> Result<usize, Refusal> {
        raw::record_write(self.text, self.raw, self.data, out).map_err(Refusal::from_number)
    }

    /// The entry's packet over a checked book; the first places take where the book describes each dword.
    pub fn packet<'a>(
        &self,
        book: Book<'a>,
        places: &'a mut [u32],
    ) -> Result<ControlPacket<'a>, Refusal>
    where
        's: 'a,
    {
        ControlPacket::parse(self.pdf(), book, self.data, places)
    }

    pub(crate) fn raw(&self) -> RawEntry {
        self.raw
    }

    fn part(&self, at: usize, len: usize) -> &'t str {
        // Texts of an entry lie in the text and are ASCII; were they not, this would be empty and no harm done.
        let bytes = self
            .text
            .get(at..)
            .and_then(|rest| rest.get(..len))
            .unwrap_or_default();
        core::str::from_utf8(bytes).unwrap_or_default()
    }

    /// The task that handled the packet.
    pub fn task(&self) -> &'t str {
        self.part(self.raw.task_at, self.raw.task_len)
    }

    /// The process.
    pub fn pid(&self) -> u32 {
        self.raw.pid
    }

    /// The CPU that handled the packet.
    pub fn cpu(&self) -> u16 {
        self.raw.cpu
    }

    /// When.
    pub fn timestamp(&self) -> Timestamp {
        Timestamp {
            seconds: self.raw.seconds,
            microseconds: self.raw.microseconds,
        }
    }

    /// The kernel function that traced the packet.
    pub fn function(&self) -> &'t str {
        self.part(self.raw.function_at, self.raw.function_len)
    }

    /// The kind of the packet.
    pub fn pdf(&self) -> Pdf {
        Pdf::from_kind(self.raw.kind)
    }

    /// The packet's size in dwords, as the line says it.
    pub fn size(&self) -> u16 {
        self.raw.size
    }

    /// Did the kernel drop the packet?
    pub fn dropped(&self) -> bool {
        self.raw.dropped == 1
    }

    /// The domain.
    pub fn domain_index(&self) -> u32 {
        self.raw.domain
    }

    /// The route.
    pub fn route(&self) -> u64 {
        self.raw.route
    }

    /// The dword offset, where the line says one.
    pub fn offset(&self) -> Option<u16> {
        raw::word(self.raw.offset)
    }

    /// The event of a notification.
    pub fn event(&self) -> Option<Event> {
        raw::byte(self.raw.code).map(Event::from)
    }

    /// How many dwords are to be read or written, where the line says so (`len`). The packet's own dwords are [`Entry::data`].
    pub fn dwords(&self) -> Option<u16> {
        raw::word(self.raw.len)
    }

    /// The adapter: the port, but none for the two events that put something else there.
    pub fn adapter_num(&self) -> Option<u8> {
        raw::adapter_num(self.raw)
    }

    /// The port as it was read.
    pub fn port(&self) -> Option<u8> {
        raw::byte(self.raw.port)
    }

    /// The configuration space, as the byte that was read.
    pub fn cs(&self) -> Option<u8> {
        raw::byte(self.raw.config)
    }

    /// The sequence number.
    pub fn sn(&self) -> Option<u8> {
        raw::byte(self.raw.seq)
    }

    /// Is it an unplug?
    pub fn unplug(&self) -> Option<bool> {
        raw::unplug(self.raw)
    }

    /// The byte behind [`Entry::unplug`], as it was read.
    pub fn unplug_byte(&self) -> Option<u8> {
        raw::byte(self.raw.unplug)
    }

    /// The packet's dwords.
    pub fn data(&self) -> &'s [u32] {
        self.data
    }

    /// What the two entries must share besides their texts and dwords.
    fn numbers(&self) -> ([u64; 8], [u32; 7]) {
        let e = &self.raw;
        let always = [
            e.pid.into(),
            e.cpu.into(),
            e.seconds,
            e.microseconds,
            u64::from(e.kind) << 8 | u64::from(e.dropped),
            e.size.into(),
            e.domain.into(),
            e.route,
        ];
        (
            always,
            [e.offset, e.code, e.len, e.port, e.config, e.seq, e.unplug],
        )
    }
}

/// Two entries are the same when each field is, texts and dwords by what they hold, wherever they lie.
impl PartialEq<Entry<'_, '_>> for Entry<'_, '_> {
    fn eq(&self, other: &Entry<'_, '_>) -> bool {
        self.task() == other.task()
            && self.function() == other.function()
            && self.numbers() == other.numbers()
            && self.data == other.data
    }
}

impl Eq for Entry<'_, '_> {}
