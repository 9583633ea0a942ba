//! The worked examples of document 01, its "Trial rows".

mod common;
use common::*;
use model::*;

const ROW_1: &str = "80 C9 00 01 11 22 33 44";
const ROW_2: &str = "81 CA 00 03 11 22 33 44 01 03 61 40 62 00 00 00";

fn row_2_content() -> Content {
    sdes(vec![Chunk {
        ssrc: 0x1122_3344,
        items: vec![item(CNAME, b"a@b")],
    }])
}

#[test]
fn row_1() {
    let packet = read_as(Kind::Rr, &hex(ROW_1));
    assert_eq!(packet, Ok(plain(rr(0x1122_3344))));
}

#[test]
fn row_2() {
    let packet = read_as(Kind::Sdes, &hex(ROW_2));
    assert_eq!(packet, Ok(plain(row_2_content())));
}

#[test]
fn row_3() {
    let both = [hex(ROW_1), hex(ROW_2)].concat();
    assert_eq!(
        read_compound(&both),
        Ok(vec![plain(rr(0x1122_3344)), plain(row_2_content())])
    );
    assert_eq!(read_compound(&hex(ROW_1)), refused(8, 0, 0));
    assert_eq!(read_compound(&hex(ROW_2)), refused(7, 202, 0));
    assert_eq!(read_compound(&[]), refused(2, 4, 0));
}

#[test]
fn row_4() {
    let bytes = hex("82 CA 00 04 00 00 00 01 00 00 00 00 00 00 00 10 00 00 00 00");
    let chunk = |ssrc| Chunk {
        ssrc,
        items: Vec::new(),
    };
    assert_eq!(
        read_as(Kind::Sdes, &bytes),
        Ok(plain(sdes(vec![chunk(1), chunk(16)])))
    );
}

#[test]
fn row_5() {
    assert_eq!(read_as(Kind::Sdes, &hex("A0 CA 00 00")), refused(4, 0, 0));
}

#[test]
fn row_6() {
    let bytes = hex("81 CA 00 03 00 00 00 01 08 01 05 00 00 00 00 00");
    assert_eq!(read_as(Kind::Sdes, &bytes), refused(5, 5, 0));
}

#[test]
fn row_7() {
    let bytes = hex("81 CA 00 03 00 00 00 01 01 03 61 62 63 02 00 00");
    let chunk = Chunk {
        ssrc: 1,
        items: vec![item(CNAME, b"abc"), item(2, b"")],
    };
    assert_eq!(read_as(Kind::Sdes, &bytes), Ok(plain(sdes(vec![chunk]))));
}

#[test]
fn row_8() {
    let bytes = hex("81 CA 00 01 00 00 00 01");
    assert_eq!(read_as(Kind::Sdes, &bytes), refused(2, 8, 4));
}

#[test]
fn row_9() {
    assert_eq!(
        written(&give_bye(1, b"ab", 4)),
        Ok(hex("A1 CB 00 03 11 22 33 44 02 61 62 00 00 00 00 04"))
    );
}

#[test]
fn row_10() {
    let block = |cumulative_lost| Block {
        cumulative_lost,
        ..Block::default()
    };
    assert_eq!(size(&give_rr(vec![block(0); 31], 0)), Ok(8 + 31 * 24));
    assert_eq!(size(&give_rr(vec![block(0); 32], 0)), refused(18, 32, 31));

    let bytes = written(&give_rr(vec![block(8_388_607)], 0)).expect("it is written");
    assert_eq!(bytes[12..16], [0, 0x7F, 0xFF, 0xFF]);
    let bytes = written(&give_rr(vec![block(-8_388_608)], 0)).expect("it is written");
    assert_eq!(bytes[12..16], [0, 0x80, 0, 0]);
    assert_eq!(
        size(&give_rr(vec![block(8_388_608)], 0)),
        refused(17, 8_388_608, 8_388_607)
    );

    assert_eq!(size(&give_bye(0, &[b'r'; 255], 0)), Ok(4 + 256));
    assert_eq!(size(&give_bye(0, &[b'r'; 256], 0)), refused(16, 256, 255));

    let value = |length| give_sdes(&[private(&[b'p'; 10], &vec![b'v'; length])], 0);
    assert_eq!(size(&value(244)), Ok(4 + 4 + 257 + 3));
    assert_eq!(size(&value(245)), refused(20, 245, 244));

    assert_eq!(size(&give_app(0, b"name", 262_132, 0)), Ok(262_144));
    assert_eq!(size(&give_app(0, b"name", 262_136, 0)), refused(22, 0, 0));
}
