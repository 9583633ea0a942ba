//! Order 2 of document 02, "Names for a whole stage", sentence by sentence.

mod common;
use common::*;
use model::*;

const NO_BYTE: &str = "";
const NO_CHUNKS: &str = "80 CA 00 00";
const A_AT_B: &str = "81 CA 00 03 11 22 33 44 01 03 61 40 62 00 00 00";

/// Any answer but one.
const STALE: u8 = 0x5A;

/// A lookup with room for so many answers: what it gives, and the answers.
fn looked_up(bytes: &[u8], ssrcs: &[u32], room: usize) -> (Answer<u64>, Vec<u8>) {
    let mut answers = vec![STALE; room];
    let answer = look_up(bytes, ssrcs, &mut answers);
    (answer, answers)
}

/// The answers where it is not refused.
fn answers(bytes: &[u8], ssrcs: &[u32]) -> Vec<u8> {
    let (answer, answers) = looked_up(bytes, ssrcs, ssrcs.len());
    assert!(answer.is_ok(), "{answer:?}");
    answers
}

fn refusal(bytes: &[u8], ssrcs: &[u32], room: usize) -> Refusal {
    let (answer, answers) = looked_up(bytes, ssrcs, room);
    assert_eq!(answers, vec![STALE; room], "a refusal writes no answer");
    answer.expect_err("it is refused")
}

/// A packet of chunks with these SSRCs, each with items of these types.
fn packet(chunks: &[(u32, &[u8])]) -> Vec<u8> {
    let chunk = |(ssrc, types): &(u32, &[u8])| Chunk {
        ssrc: *ssrc,
        items: types.iter().map(|of| item(*of, b"v")).collect(),
    };
    layout(&plain(sdes(chunks.iter().map(chunk).collect())))
}

/// A packet of one chunk of SSRC 1.
fn one_chunk(types: &[u8]) -> Vec<u8> {
    packet(&[(1, types)])
}

#[test]
fn an_empty_list_has_no_answer() {
    for room in [0, 1, 3] {
        let untouched = vec![STALE; room];
        let none = looked_up(&hex(NO_CHUNKS), &[], room);
        assert_eq!(none, (Ok(0), untouched.clone()));
        let one = looked_up(&hex(A_AT_B), &[], room);
        assert_eq!(one, (Ok(1), untouched));
    }
}

/// The packet is read, whatever is looked up in it.
#[test]
fn an_empty_list_does_not_save_a_packet() {
    for room in [0, 1] {
        let refused = |text| refusal(&hex(text), &[], room);
        assert_eq!(refused(NO_BYTE), Refusal::new(2, 4, 0));
        assert_eq!(refused("A0 CA 00 00"), Refusal::bare(4));
        assert_eq!(refused("80 C9 00 00"), Refusal::new(6, 201, 202));
    }
}

#[test]
fn a_packet_without_chunks_names_nobody() {
    assert_eq!(answers(&hex(NO_CHUNKS), &[0, 1]), [NO_CHUNK; 2]);
    let padded = hex("A0 CA 00 02 00 00 00 01 00 00 00 08");
    assert_eq!(answers(&padded, &[1]), [NO_CHUNK]);
}

#[test]
fn a_list_longer_than_the_buffer_comes_before_the_packet() {
    let ssrcs = [0x1122_3344; 33];
    let bad_version = "01 CA 00 00";
    let rr = "80 C9 00 01 11 22 33 44";
    for text in [NO_BYTE, NO_CHUNKS, A_AT_B, bad_version, "A0 CA 00 00", rr] {
        for (listed, room) in [(2, 1), (1, 0), (2, 0), (32, 31), (33, 31), (33, 32)] {
            let refused = refusal(&hex(text), &ssrcs[..listed], room);
            assert_eq!(refused, Refusal::new(31, 0, 0));
        }
    }
}

#[test]
fn a_list_as_long_as_the_buffer_or_shorter_is_fine() {
    let ssrc = 0x1122_3344;
    assert_eq!(answers(&hex(A_AT_B), &[ssrc]), [0]);
    assert_eq!(answers(&hex(A_AT_B), &[ssrc; 31]), [0; 31]);
    assert_eq!(answers(&hex(A_AT_B), &[ssrc; 300]), [0; 300]);
    // Entries past the list stay.
    let (answer, answers) = looked_up(&hex(A_AT_B), &[ssrc, 1], 5);
    assert_eq!(answer, Ok(1));
    assert_eq!(answers, [0, NO_CHUNK, STALE, STALE, STALE]);
}

#[test]
fn the_packets_own_checks() {
    let refused = |text| refusal(&hex(text), &[1, 2], 2);
    assert_eq!(refused(NO_BYTE), Refusal::new(2, 4, 0));
    assert_eq!(refused("81 CA 00"), Refusal::new(2, 4, 3));
    assert_eq!(refused("41 CA 00 00"), Refusal::new(1, 1, 0));
    assert_eq!(refused("81 CB 00 00"), Refusal::new(6, 203, 202));
    assert_eq!(refused("81 CA 00 01"), Refusal::new(2, 8, 4));
    assert_eq!(refused("80 CA 00 00 00"), Refusal::new(3, 4, 5));
    assert_eq!(refused("A0 CA 00 00"), Refusal::bare(4));
    assert_eq!(refused("81 CA 00 00"), Refusal::new(2, 4, 0));
    let prefix = "81 CA 00 02 00 00 00 01 08 01 05 00";
    assert_eq!(refused(prefix), Refusal::new(5, 5, 0));
    let left = "80 CA 00 01 00 00 00 01";
    assert_eq!(refused(left), Refusal::new(3, 4, 8));
}

/// An answer that was found already is not written either.
#[test]
fn a_fault_after_the_first_match() {
    let good = packet(&[(1, &[CNAME]), (2, &[CNAME])]);
    assert_eq!(answers(&good, &[1, 2]), [0, 1]);
    let mut short = good.clone();
    short[0] += 1;
    assert_eq!(refusal(&short, &[1, 2], 2), Refusal::new(2, 4, 0));
    let mut left = good.clone();
    left[0] -= 1;
    assert_eq!(refusal(&left, &[1, 2], 2), Refusal::new(3, 12, 20));
    let mut unclosed = good;
    *unclosed.last_mut().expect("a byte") = 1;
    assert_eq!(refusal(&unclosed, &[1, 2], 2), Refusal::new(2, 4, 1));
}

#[test]
fn a_chunk_without_a_cname_does_not_count() {
    assert_eq!(answers(&one_chunk(&[]), &[1]), [NO_CHUNK]);
    for other in 2..=255 {
        assert_eq!(answers(&one_chunk(&[other]), &[1]), [NO_CHUNK]);
    }
    let second = packet(&[(1, &[]), (1, &[CNAME])]);
    assert_eq!(answers(&second, &[1]), [1]);
    let third = packet(&[(1, &[2]), (1, &[]), (1, &[3, CNAME]), (1, &[CNAME])]);
    assert_eq!(answers(&third, &[1]), [2]);
}

#[test]
fn the_first_of_two_with_both() {
    let both = packet(&[(1, &[CNAME]), (1, &[CNAME])]);
    assert_eq!(answers(&both, &[1]), [0]);
    let later = packet(&[(2, &[CNAME]), (1, &[CNAME]), (2, &[]), (1, &[CNAME])]);
    assert_eq!(answers(&later, &[1, 2]), [1, 0]);
}

/// The SSRC in one chunk and a CNAME in another are not both in one.
#[test]
fn another_chunks_cname_does_not_count() {
    let apart = packet(&[(1, &[2]), (2, &[CNAME])]);
    assert_eq!(answers(&apart, &[1, 2]), [NO_CHUNK, 1]);
    let apart = packet(&[(2, &[CNAME]), (1, &[2])]);
    assert_eq!(answers(&apart, &[1, 2]), [NO_CHUNK, 0]);
}

#[test]
fn a_cname_at_any_place_and_of_any_length() {
    for types in [&[CNAME, 2][..], &[2, CNAME], &[2, 3, CNAME], &[1, 1]] {
        assert_eq!(answers(&one_chunk(types), &[1]), [0]);
    }
    // An empty CNAME.
    let empty = hex("81 CA 00 02 00 00 00 01 01 00 00 00");
    assert_eq!(answers(&empty, &[1]), [0]);
    // A PRIV item with a prefix of length 0 before it.
    let after = hex("81 CA 00 03 00 00 00 01 08 01 00 01 01 61 00 00");
    assert_eq!(answers(&after, &[1]), [0]);
    // Inside the value of another item it is none.
    for of in ["02", "08"] {
        let inside = format!("81 CA 00 03 00 00 00 01 {of} 04 00 01 01 61 00 00");
        assert_eq!(answers(&hex(&inside), &[1]), [NO_CHUNK]);
    }
}

#[test]
fn an_ssrc_listed_twice_is_answered_twice() {
    let two = packet(&[(7, &[CNAME]), (9, &[CNAME])]);
    assert_eq!(answers(&two, &[9, 9]), [1, 1]);
    assert_eq!(answers(&two, &[9, 7, 9, 8, 9, 8]), [1, 0, 1, 255, 1, 255]);
}

#[test]
fn every_ssrc_is_one_like_any_other() {
    for ssrc in [0, 1, 0x0102_0304, 0x8000_0000, u32::MAX] {
        let found = packet(&[(5, &[CNAME]), (ssrc, &[CNAME])]);
        assert_eq!(answers(&found, &[ssrc]), [1]);
        let others = [ssrc ^ 1, ssrc ^ 0x8000_0000, !ssrc];
        assert_eq!(answers(&found, &others), [NO_CHUNK; 3]);
    }
    let found = packet(&[(0x0102_0304, &[CNAME])]);
    assert_eq!(answers(&found, &[0x0403_0201]), [NO_CHUNK]);
}

#[test]
fn thirty_one_chunks() {
    let chunks: Vec<(u32, &[u8])> = (0..31).map(|i| (100 + i, &[CNAME][..])).collect();
    let bytes = packet(&chunks);
    let ssrcs: Vec<u32> = (100..131).collect();
    let reversed: Vec<u32> = ssrcs.iter().rev().copied().collect();
    let in_order: Vec<u8> = (0..31).collect();
    let backwards: Vec<u8> = (0..31).rev().collect();
    assert_eq!(answers(&bytes, &ssrcs), in_order);
    assert_eq!(answers(&bytes, &reversed), backwards);
    assert_eq!(answers(&bytes, &ssrcs[..30]), in_order[..30]);
    assert_eq!(answers(&bytes, &[130, 99, 131]), [30, NO_CHUNK, NO_CHUNK]);
}

#[test]
fn padding_names_nobody() {
    let mut bytes = packet(&[(1, &[CNAME])]);
    bytes.extend(hex("00 00 00 02 01 01 61 00 00 00 00 0C"));
    (bytes[0], bytes[3]) = (0xA1, 5);
    assert_eq!(answers(&bytes, &[1, 2, 12]), [0, NO_CHUNK, NO_CHUNK]);
    bytes[0] = 0xA2;
    assert_eq!(refusal(&bytes, &[1], 1), Refusal::new(2, 4, 0));
}

/// At most the header's count is all that is fixed of the visits.
#[test]
fn visits_are_at_most_the_chunks() {
    for count in 0..32usize {
        let bytes = packet(&vec![(1, &[CNAME][..]); count]);
        for ssrcs in [&[][..], &[1], &[2], &[1, 2, 1]] {
            let (most, _) = looked_up(&bytes, ssrcs, 3);
            assert_eq!(most, Ok(count as u64));
        }
    }
}
