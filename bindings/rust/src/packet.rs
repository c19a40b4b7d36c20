//! Packets: an entry's dwords, described by a book.
use crate::raw::{self, Described, RawField, RawRange};
use crate::{Book, Pdf, Refusal};

/// A packet over a checked book. It borrows the book, the dwords and the places that it was described into.
#[derive(Clone, Copy, Debug)]
pub struct ControlPacket<'a> {
    described: Described<'a>,
    start: Option<u16>,
    uuid: Option<[u32; 4]>,
}

impl<'a> ControlPacket<'a> {
    /// The packet of a kind and dwords; the first places take, for each dword, where the book describes it. A refusal leaves them as they were.
    pub fn parse(
        pdf: Pdf,
        book: Book<'a>,
        dwords: &'a [u32],
        places: &'a mut [u32],
    ) -> Result<Self, Refusal> {
        let (kind, book) = (pdf as u8, book.bytes());
        let (start, uuid) =
            raw::packet(kind, book, dwords, places).map_err(Refusal::from_number)?;
        let places: &'a [u32] = places;
        let places = places.get(..dwords.len()).unwrap_or_default();
        Ok(Self {
            described: Described {
                kind,
                book,
                dwords,
                places,
            },
            start,
            uuid,
        })
    }

    /// The packet's kind.
    pub fn pdf(&self) -> Pdf {
        Pdf::from_kind(self.described.kind)
    }

    /// The first dword above the second, or [`Refusal::NoPacketRoute`].
    pub fn route(&self) -> Result<u64, Refusal> {
        one(self.described.route())
    }

    /// The top bit of the route.
    pub fn cm(&self) -> Result<bool, Refusal> {
        one(self.described.cm()).map(|bit| bit == 1)
    }

    /// The adapter number.
    pub fn adapter_num(&self) -> Option<u8> {
        some(self.described.adapter_num()).map(|v| v as u8)
    }

    /// The address that is read or written; the offset of an inter-domain packet.
    pub fn data_address(&self) -> Option<u16> {
        some(self.described.data_address()).map(|v| v as u16)
    }

    /// How many dwords are read or written; the size of an inter-domain packet's properties block.
    pub fn data_size(&self) -> Option<u16> {
        some(self.described.data_size()).map(|v| v as u16)
    }

    /// Where the data starts.
    pub fn data_start(&self) -> Option<u16> {
        self.start
    }

    /// The data: the dwords from its start on. They are the original ones, cut once.
    pub fn data(&self) -> Option<&'a [u32]> {
        self.described.dwords.get(self.start?.into()..)
    }

    /// Is it a read, request or response?
    pub fn is_read(&self) -> bool {
        matches!(self.pdf(), Pdf::ReadRequest | Pdf::ReadResponse)
    }

    /// Is it a write, request or response?
    pub fn is_write(&self) -> bool {
        matches!(self.pdf(), Pdf::WriteRequest | Pdf::WriteResponse)
    }

    /// Is it an inter-domain packet?
    pub fn is_xdomain(&self) -> bool {
        matches!(self.pdf(), Pdf::XdomainRequest | Pdf::XdomainResponse)
    }

    /// The UUID that its four `UUID` fields make; it chooses the protocol table.
    pub fn uuid(&self) -> Option<[u32; 4]> {
        self.uuid
    }

    /// The values of the fields of that name, if there are exactly four.
    pub fn uuid_by_name(&self, name: &str) -> Option<[u32; 4]> {
        some(self.described.uuid_by_name(name.as_bytes()))
    }

    /// The packet type, its number and name; [`Refusal::UnnamedType`] if the number has none.
    pub fn packet_type(&self) -> Result<Option<(u32, &'a str)>, Refusal> {
        let told = self.described.packet_type().map_err(Refusal::from_number)?;
        let book = self.described.book;
        Ok(told.map(|(value, place)| (value, raw::name(book, place).unwrap_or_default())))
    }

    /// The value of the first bit range of that name.
    pub fn value(&self, name: &str) -> Option<u32> {
        some(self.described.value(name.as_bytes())).map(|v| v as u32)
    }

    /// The fields, one for each dword.
    pub fn fields(&self) -> impl Iterator<Item = Field<'a>> + use<'a> {
        let described = self.described;
        (0..described.dwords.len()).map_while(move |i| field(described, described.field(i as u16)))
    }

    /// For each dword the place in the book of the entry that describes it, 0 for none.
    pub fn places(&self) -> &'a [u32] {
        self.described.places
    }

    /// The field at an offset.
    pub fn field_by_offset(&self, offset: u16) -> Option<Field<'a>> {
        field(self.described, self.described.field(offset))
    }

    /// The first field of that name.
    pub fn field_by_name(&self, name: &str) -> Option<Field<'a>> {
        field(
            self.described,
            self.described.field_by_name(name.as_bytes()),
        )
    }

    /// The first field with a bit range of that name.
    pub fn field_by_bitfield_name(&self, name: &str) -> Option<Field<'a>> {
        field(
            self.described,
            self.described.field_by_range(name.as_bytes()),
        )
    }
}

/// A question that has an answer or is refused.
fn one(told: Result<Option<u64>, u8>) -> Result<u64, Refusal> {
    told.map(Option::unwrap_or_default)
        .map_err(Refusal::from_number)
}

/// A question that a packet never refuses.
fn some<T>(told: Result<Option<T>, u8>) -> Option<T> {
    told.ok().flatten()
}

fn field<'a>(described: Described<'a>, told: Result<Option<RawField>, u8>) -> Option<Field<'a>> {
    some(told).map(|raw| Field {
        raw,
        book: described.book,
    })
}

/// The table that describes a field.
#[derive(Clone, Copy, Debug, PartialEq, Eq)]
pub enum Source {
    /// None does.
    Bare,
    /// The table of the packet's kind.
    Control,
    /// The inter-domain header's.
    Header,
    /// A protocol's.
    Protocol,
}

/// A dword of a packet, and what the book says of it.
#[derive(Clone, Copy, Debug)]
pub struct Field<'a> {
    raw: RawField,
    book: &'a [u8],
}

impl<'a> Field<'a> {
    /// Which dword it is, from 0.
    pub fn offset(&self) -> u16 {
        self.raw.offset
    }

    /// The dword.
    pub fn value(&self) -> u32 {
        self.raw.value
    }

    /// The table that describes it.
    pub fn source(&self) -> Source {
        match self.raw.source {
            1 => Source::Control,
            2 => Source::Header,
            3 => Source::Protocol,
            _ => Source::Bare,
        }
    }

    /// Its name, a part of the book.
    pub fn name(&self) -> Option<&'a str> {
        raw::name(self.book, self.raw.entry)
    }

    /// Its bit ranges, in the book's order.
    pub fn ranges(&self) -> impl Iterator<Item = Range<'a>> + use<'a> {
        let (raw, book) = (self.raw, self.book);
        (0..raw::range_count(book, raw.entry))
            .map_while(move |k| raw::nth_range(book, raw.entry, raw.value, k))
            .map(move |raw| Range { raw, book })
    }

    /// Its first bit range of that name.
    pub fn range(&self, name: &str) -> Option<Range<'a>> {
        let book = self.book;
        raw::range_named(book, self.raw.entry, self.raw.value, name.as_bytes())
            .map(|raw| Range { raw, book })
    }
}

/// A bit range of a field.
#[derive(Clone, Copy, Debug)]
pub struct Range<'a> {
    raw: RawRange,
    book: &'a [u8],
}

impl<'a> Range<'a> {
    /// Its lowest bit.
    pub fn low(&self) -> u8 {
        self.raw.low
    }

    /// Its highest bit.
    pub fn high(&self) -> u8 {
        self.raw.high
    }

    /// The value of its bits.
    pub fn value(&self) -> u32 {
        self.raw.value
    }

    /// Its name, a part of the book.
    pub fn name(&self) -> &'a str {
        raw::name(self.book, self.raw.place).unwrap_or_default()
    }

    /// The name of its value, where it has one.
    pub fn value_name(&self) -> Option<&'a str> {
        raw::value_name(self.book, self.raw.place, self.raw.value)
    }
}
