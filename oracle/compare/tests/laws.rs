//! What holds between the parts of the model, on random inputs: the layout
//! against reading, walks against reading, the writer against the book.

use compare::generate::{calls, operation, packet, Sort};
use compare::operation::{Operation, Outcome};
use compare::rng::Rng;
use model::*;

const ROUNDS: usize = 20_000;

fn random(sort: Sort, mut check: impl FnMut(Operation)) {
    let mut rng = Rng::new(7);
    for _ in 0..ROUNDS {
        check(operation(&mut rng, sort));
    }
}

fn layouts(packets: &[Packet]) -> Vec<u8> {
    packets.iter().flat_map(layout).collect()
}

#[test]
fn reading_undoes_the_layout() {
    let mut rng = Rng::new(7);
    for kind in Kind::ALL {
        for _ in 0..ROUNDS {
            let packet = packet(&mut rng, Some(kind));
            assert_eq!(read_as(kind, &layout(&packet)), Ok(packet));
        }
    }
}

#[test]
fn the_layout_undoes_reading() {
    random(Sort::ReadAs, |operation| {
        let Operation::ReadAs(kind, bytes) = operation else {
            return;
        };
        if let Ok(packet) = read_as(kind, &bytes) {
            assert_eq!(layout(&packet), bytes);
        }
    });
    random(Sort::ReadCompound, |operation| {
        let Operation::ReadCompound(bytes) = operation else {
            return;
        };
        if let Ok(packets) = read_compound(&bytes) {
            assert_eq!(layouts(&packets), bytes);
        }
    });
}

#[test]
fn a_walk_gives_each_packet_in_order() {
    random(Sort::ReadCompound, |operation| {
        let Operation::ReadCompound(bytes) = operation else {
            return;
        };
        let Ok(packets) = read_compound(&bytes) else {
            assert!(open(&bytes).is_err());
            return;
        };
        let mut position = open(&bytes).expect("it is accepted");
        for packet in packets {
            let (given, next) = step(&bytes, position).expect("a packet is left");
            assert_eq!(given, packet);
            position = next;
        }
        assert_eq!(step(&bytes, position), Err(Refusal::NOTHING_LEFT));
    });
}

#[test]
fn an_sdes_walk_gives_each_chunk_with_its_items() {
    random(Sort::OpenSdes, |operation| {
        let Operation::OpenSdes(bytes) = operation else {
            return;
        };
        let Ok(packet) = read_as(Kind::Sdes, &bytes) else {
            assert!(open_sdes(&bytes).is_err());
            return;
        };
        let Content::Sdes { chunks } = packet.content else {
            panic!("an SDES");
        };
        let mut walk = open_sdes(&bytes).expect("it is accepted");
        for chunk in chunks {
            let from = &bytes[walk.position as usize..];
            let mut position = open_items(from).expect("a chunk");
            for item in &chunk.items {
                let (given, next) = item_step(from, position).expect("an item is left");
                assert_eq!(given, *item);
                position = next;
            }
            assert_eq!(item_step(from, position), Err(Refusal::NOTHING_LEFT));
            let (given, next) = sdes_step(&bytes, walk).expect("a chunk is left");
            assert_eq!(given, chunk);
            walk = next;
        }
        assert_eq!(sdes_step(&bytes, walk), Err(Refusal::NOTHING_LEFT));
    });
}

#[test]
fn a_write_is_the_layout_and_touches_nothing_else() {
    random(Sort::Write, |operation| {
        let Operation::Write(given, before) = &operation else {
            return;
        };
        let Outcome::Written(answer, after) = operation.modelled() else {
            panic!("a write");
        };
        match answer {
            Ok(size) => {
                let size = size as usize;
                assert_eq!(after[..size], layout(&written_packet(given)));
                assert_eq!(after[size..], before[size..]);
            }
            Err(_) => assert_eq!(after, *before),
        }
    });
}

#[test]
fn the_writer_answers_as_the_book() {
    let mut rng = Rng::new(7);
    for _ in 0..ROUNDS {
        let mut book = Book::default();
        let mut datagram = Vec::new();
        for operation in calls(&mut rng) {
            let call = match &operation {
                Operation::Add(_, given, buffer) => Call::Add {
                    given: given.clone(),
                    buffer: buffer.len() as u64,
                },
                Operation::Close(_) => Call::Close,
                _ => continue,
            };
            let told = book.turn(&call);
            let writer = match operation.modelled() {
                Outcome::Added(answer, writer, buffer) => {
                    assert_eq!(answer, told);
                    if answer.is_ok() {
                        datagram = buffer[..writer.length as usize].to_vec();
                    }
                    writer
                }
                Outcome::Closed(answer, writer) => {
                    assert_eq!(answer, told);
                    writer
                }
                _ => panic!("a call"),
            };
            assert_eq!(datagram, layouts(&book.packets));
            assert_eq!(writer.closed, book.closed);
            if writer.closed {
                assert_eq!(read_compound(&datagram), Ok(book.packets.clone()));
            }
        }
    }
}
