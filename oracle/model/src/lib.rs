//! Document 01 in Rust, with orders 1 to 3 of document 02: what every operation
//! answers, on every input. docs/PROTOCOL.md says the same in our own words.
//!
//! The text follows the documents and nothing else. It is meant to be held
//! beside them, so it prefers their order and words to speed.

mod book;
mod compound;
mod layout;
mod list;
mod lookup;
mod packet;
mod read;
mod reception;
mod refusal;
mod walk;
mod write;
mod writer;

pub use book::{written_packet, Book, Call};
pub use compound::read_compound;
pub use layout::{layout, layout_chunk, layout_item};
pub use list::Listing;
pub use lookup::{look_up, NO_CHUNK};
pub use packet::*;
pub use read::{
    check_header, read_as, read_block, read_block_at, read_chunk, read_item, read_prefix,
    read_source_at,
};
pub use reception::{Event, ExactReception, Phase, Place, Receive, Reception, Reply, Since};
pub use refusal::{Answer, Refusal};
pub use walk::{item_step, open, open_items, open_sdes, sdes_step, step, SdesWalk, SDES_LIMIT};
pub use write::{
    size, size_of_chunk, size_of_item, write, write_chunk, write_item, BlockLists, ChunkLists,
    Given, ItemLists, SdesLists, CHUNK_LIMIT, PACKET_LIMIT,
};
pub use writer::Writer;
