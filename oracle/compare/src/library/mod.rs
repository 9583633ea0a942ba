//! The project's static library as a side: every C function with all that its
//! result has. A result that breaks the rules of the boundary shows a value that
//! no other side shows.

mod calls;
mod compounds;
mod lists;
mod lookup;
mod reading;
mod reception;
mod writing;

use crate::operation::Operation;
use crate::side::Side;
use crate::text::inputs;
use crate::view::{Value, View};
use compounds::{read_compound, step};
use library::guard::{self, Guarded};
use library::*;
use model::{Kind, Refusal};
use reading::{
    block_alone, item_alone, item_step, prefix_alone, read_as, read_chunk, sdes_step, source_alone,
};
pub use reception::{new_reception, take};
use std::cell::RefCell;
use std::panic::{set_hook, take_hook};
use std::rc::Rc;

/// Hands everything over in guarded memory.
pub struct Library(pub guard::Side);

/// A line that says what there is of the library.
pub fn about_library() -> String {
    let (all, missing) = (FUNCTIONS.len(), missing());
    match missing.len() {
        0 => format!("library: all {all} functions"),
        few if few < all => format!("library: without {}", missing.join(", ")),
        _ => "no comparison with the library: its archive is not there (RTCP_LIB)".to_string(),
    }
}

thread_local! {
    static RUNNING: RefCell<Option<Rc<Operation>>> = const { RefCell::new(None) };
}

/// Has the operation printed if a C function that runs for it is stopped, or
/// what it gives cannot be reckoned with.
pub fn watched(operation: Operation) -> Rc<Operation> {
    let operation = Rc::new(operation);
    let last = RUNNING.replace(Some(operation.clone()));
    if last.is_none() {
        guard::report_faults(print_running);
        let print = take_hook();
        set_hook(Box::new(move |info| {
            print(info);
            print_running();
        }));
    }
    operation
}

fn print_running() {
    if let Some(operation) = RUNNING.take() {
        println!("difference: {}", inputs(&operation));
    }
}

impl Side for Library {
    fn name(&self) -> &'static str {
        "library"
    }

    fn view(&self, operation: &Operation) -> Option<View> {
        match operation {
            Operation::List(listing, bytes, before) => self.listed(*listing, bytes, before),
            Operation::LookUp(bytes, ssrcs, before) => self.looked_up(bytes, ssrcs, before),
            Operation::Write(given, before) => self.write(given, before),
            Operation::WriteChunk(lists, before) => self.write_chunk(lists, before),
            Operation::WriteItem(item, before) => self.write_item(item, before),
            Operation::Add(writer, given, before) => self.added(*writer, given, before),
            Operation::Close(writer) => self.closed(*writer),
            Operation::NewReception(_) | Operation::Receive(..) | Operation::History(..) => {
                reception::view(operation)
            }
            _ => {
                let bytes = operation.bytes_read()?;
                let s = Guarded::new(bytes, self.0);
                let mut view = read(operation, &s)?;
                kept(&mut view, &s, bytes);
                Some(view)
            }
        }
    }
}

/// What is lent to a reading is as it was.
fn kept<T: PartialEq>(view: &mut View, lent: &[T], before: &[T]) {
    if lent != before {
        broken(view, "lent to a reading and changed");
    }
}

fn read(operation: &Operation, s: &[u8]) -> Option<View> {
    match operation {
        Operation::ReadAs(kind, _) => read_as(*kind, s),
        Operation::ReadBlock(_) => block_alone(rtcp_block_parse(s)?),
        Operation::ReadBlockAt(Kind::Sr, _, i) => block_alone(rtcp_sr_report_block(s, *i)?),
        Operation::ReadBlockAt(_, _, i) => block_alone(rtcp_rr_report_block(s, *i)?),
        Operation::ReadSourceAt(_, i) => source_alone(rtcp_bye_source(s, *i)?),
        Operation::ReadItem(_) => item_alone(s),
        Operation::ReadPrefix(_) => prefix_alone(s),
        Operation::ReadChunk(_) => read_chunk(s),
        Operation::ReadCompound(_) => read_compound(s),
        Operation::Open(_) => opened(rtcp_walk_open(s)?, &["position"]),
        Operation::Step(_, at) => step(s, *at),
        Operation::OpenSdes(_) => opened(rtcp_chunk_walk_open(s)?, &["position", "end"]),
        Operation::SdesStep(_, walk) => sdes_step(s, *walk),
        Operation::OpenItems(_) => opened(rtcp_item_walk_open(s)?, &["position"]),
        Operation::ItemStep(_, at) => item_step(s, *at),
        _ => None,
    }
}

/// A walk just opened: all of its fields, by these names.
fn opened<R: Outcome>(walk: R, names: &[&'static str]) -> Option<View> {
    Some(shown(walk, |view| {
        for (name, value) in names.iter().zip(walk.fields()) {
            view.number(name, value);
        }
    }))
}

// ---- results

/// What a result shows: its refusal, with 0 in every other field, or its fields.
fn shown<R: Outcome>(result: R, show: impl FnOnce(&mut View)) -> View {
    walked(result, |_| {}, show)
}

/// The same, where a refusal gives back something that went in.
fn walked<R: Outcome>(result: R, keep: impl FnOnce(&mut R), show: impl FnOnce(&mut View)) -> View {
    let head = result.head();
    if head.number == 0 {
        let mut view = View::accepted();
        if head != Head::default() {
            broken(&mut view, "a detail without a refusal");
        }
        show(&mut view);
        return view;
    }
    let number = u8::try_from(head.number).unwrap_or(u8::MAX);
    let mut view = View::refused(Refusal::new(number, head.first, head.second));
    let mut wanted = R::bare(head);
    keep(&mut wanted);
    if result != wanted {
        broken(&mut view, "another field with a refusal");
    }
    view
}

/// Marks a view so that it agrees with no other.
fn broken(view: &mut View, rule: &'static str) {
    view.put(rule, Value::Panic);
}

fn place(view: &mut View, offset: u64, wanted: u64) {
    if offset != wanted {
        broken(view, "a part out of place");
    }
}

fn part(view: &mut View, name: &'static str, s: &[u8], offset: u64, len: u64) {
    match part_of(s, offset, len) {
        Some(part) => view.bytes(name, part),
        None => view.put(name, Value::Panic),
    }
}

fn part_of(s: &[u8], offset: u64, len: u64) -> Option<&[u8]> {
    let end = offset.checked_add(len)?;
    s.get(usize::try_from(offset).ok()?..usize::try_from(end).ok()?)
}
