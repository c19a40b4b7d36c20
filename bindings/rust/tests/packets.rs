//! Packets over the sample book: what document 01 says of them.
use chomkadieu::{Book, ControlPacket, Entry, MOST_DWORDS, Pdf, Refusal, Source};

const BOOK: &[u8] = include_bytes!("../../../books/usb4.book");
const FWD: &[u8] = b" fwd-7 [002] d..1. 12.000345: tb_tx: type=TB_CFG_PKG_READ, size=3, domain=0, route=0, data=[0x0, 0x0, 0x04002001]\n";

#[test]
fn the_fwd_line_has_named_fields() {
    let book = Book::check(BOOK).unwrap();
    let (mut slots, mut places) = ([0; MOST_DWORDS], [7; MOST_DWORDS]);
    let entry = Entry::parse(FWD, &mut slots).unwrap();
    let packet = entry.packet(book, &mut places).unwrap();
    assert_eq!((packet.route(), packet.cm()), (Ok(0), Ok(false)));
    assert_eq!(
        (
            packet.data_address(),
            packet.data_size(),
            packet.adapter_num()
        ),
        (Some(1), Some(1), Some(0))
    );
    assert_eq!(
        (packet.data_start(), packet.data(), packet.uuid()),
        (None, None, None)
    );
    assert_eq!(
        (packet.value("Configuration Space"), packet.value("Nothing")),
        (Some(2), None)
    );
    assert_eq!(packet.fields().count(), 3);
    let field = packet.field_by_bitfield_name("Read Size").unwrap();
    assert_eq!(
        (field.offset(), field.value(), field.source()),
        (2, 0x04002001, Source::Control)
    );
    let space = field.range("Configuration Space").unwrap();
    assert_eq!(
        (space.low(), space.high(), space.value(), space.value_name()),
        (25, 26, 2, Some("Router"))
    );
    assert_eq!(field.ranges().next().unwrap().name(), "Address");
    assert!(
        packet.field_by_offset(3).is_none()
            && packet.field_by_name("").is_none()
            && field.range("Nothing").is_none()
    );
    assert_eq!(
        packet.field_by_name("Route String Low").unwrap().offset(),
        1
    );
}

#[test]
fn a_response_has_data_and_a_route_its_top_bit() {
    let book = Book::check(BOOK).unwrap();
    let (dwords, mut places) = ([0x8000_0000, 1, 0, 7, 8], [0; 5]);
    let packet = ControlPacket::parse(Pdf::ReadResponse, book, &dwords, &mut places).unwrap();
    assert_eq!((packet.route(), packet.cm()), (Ok((1 << 63) + 1), Ok(true)));
    assert_eq!(
        (packet.data_start(), packet.data()),
        (Some(3), Some(&[7, 8][..]))
    );
    assert_eq!(packet.field_by_offset(4).unwrap().source(), Source::Bare);
}

#[test]
fn a_discovery_request_has_uuid_and_type() {
    let book = Book::check(BOOK).unwrap();
    let uuid = [0x0ed7_38b6, 0xbb40_ff42, 0xe290_c297, 0x07ff_b2c0];
    let mut dwords = [0, 1, 5, uuid[0], uuid[1], uuid[2], uuid[3], 3];
    let mut places = [0; 8];
    let packet = ControlPacket::parse(Pdf::XdomainRequest, book, &dwords, &mut places).unwrap();
    assert_eq!(
        (
            packet.uuid(),
            packet.uuid_by_name("UUID"),
            packet.uuid_by_name("Else")
        ),
        (Some(uuid), Some(uuid), None)
    );
    let (value, name) = packet.packet_type().unwrap().unwrap();
    assert_eq!((value, name), (3, "Properties Request"));
    assert_eq!(
        (
            packet.field_by_offset(3).unwrap().source(),
            packet.field_by_offset(7).unwrap().source()
        ),
        (Source::Header, Source::Protocol)
    );
    dwords[7] = 0xffff;
    let packet = ControlPacket::parse(Pdf::XdomainRequest, book, &dwords, &mut places).unwrap();
    assert_eq!(packet.packet_type().unwrap_err(), Refusal::UnnamedType);
}

#[test]
fn a_refusal_leaves_the_places() {
    let book = Book::check(BOOK).unwrap();
    for (pdf, dwords, room, refusal) in [
        (Pdf::Unknown, &[0; 3][..], 3, Refusal::NoKind),
        (Pdf::IcmEvent, &[0; 3][..], 3, Refusal::NoTable),
        (Pdf::ReadRequest, &[0; 257][..], 257, Refusal::LongPacket),
        (Pdf::ReadResponse, &[0; 2][..], 3, Refusal::ShortPacket),
        (Pdf::ReadRequest, &[0; 3][..], 2, Refusal::FewPlaces),
    ] {
        let mut places = [7; 257];
        assert_eq!(
            ControlPacket::parse(pdf, book, dwords, &mut places[..room]).unwrap_err(),
            refusal
        );
        assert_eq!(places, [7; 257]);
    }
    let mut places = [0; 1];
    let packet = ControlPacket::parse(Pdf::ReadRequest, book, &[1], &mut places).unwrap();
    assert_eq!(
        (packet.route(), packet.cm()),
        (Err(Refusal::NoPacketRoute), Err(Refusal::NoPacketRoute))
    );
}
