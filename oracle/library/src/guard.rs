//! Memory that ends, or starts, at a page that must not be touched, so that a
//! byte too far stops the program; and a word before it stops.

use std::cell::{Cell, RefCell};
use std::ffi::c_void;
use std::marker::PhantomData;
use std::ops::{Deref, DerefMut};
use std::{mem, ptr, slice};

extern "C" {
    fn mmap(
        at: *mut c_void,
        len: usize,
        access: i32,
        flags: i32,
        file: i32,
        from: i64,
    ) -> *mut c_void;
    fn mprotect(at: *mut c_void, len: usize, access: i32) -> i32;
    fn signal(number: i32, handler: extern "C" fn(i32)) -> usize;
    fn _exit(status: i32) -> !;
}

const NO_ACCESS: i32 = 0;
const READ_AND_WRITE: i32 = 3;
const PRIVATE_ANONYMOUS: i32 = 0x22;

/// A multiple of every size that a page may have.
const PAGE: usize = 65_536;

/// Open pages between two closed ones. A region is never given back: it goes to
/// the free ones, where the next user finds it.
#[derive(Clone, Copy)]
struct Region {
    start: *mut u8,
    len: usize,
}

impl Region {
    fn new(len: usize) -> Region {
        let len = len.max(1).next_multiple_of(PAGE);
        // Fresh pages of our own, and the open ones lie within them.
        unsafe {
            let all = mmap(
                ptr::null_mut(),
                len + 2 * PAGE,
                NO_ACCESS,
                PRIVATE_ANONYMOUS,
                -1,
                0,
            );
            assert!(all as isize != -1, "memory for {len} bytes");
            let start = all.cast::<u8>().add(PAGE);
            assert_eq!(mprotect(start.cast(), len, READ_AND_WRITE), 0);
            Region { start, len }
        }
    }
}

thread_local! {
    static FREE: RefCell<Vec<Region>> = const { RefCell::new(Vec::new()) };
}

/// Plain numbers: any bytes are one, and none needs to be dropped.
pub trait Number: Copy {}
impl Number for u8 {}
impl Number for i32 {}
impl Number for u32 {}
impl Number for u64 {}
impl Number for crate::RtcpWriter {}

/// Which end of the slice lies at a closed page.
#[derive(Clone, Copy, Debug, PartialEq, Eq)]
pub enum Side {
    Start,
    End,
}

/// A copy of a slice in guarded memory.
pub struct Guarded<T: Number> {
    region: Region,
    start: *mut T,
    len: usize,
    items: PhantomData<T>,
}

impl<T: Number> Guarded<T> {
    pub fn new(items: &[T], side: Side) -> Self {
        let size = mem::size_of_val(items);
        let region = FREE.with_borrow_mut(|free| {
            let fit = free.iter().position(|region| region.len >= size);
            fit.map_or_else(|| Region::new(size), |at| free.swap_remove(at))
        });
        let skipped = match side {
            Side::Start => 0,
            Side::End => region.len - size,
        };
        // The region has room for the items. Its bounds are multiples of a page,
        // so a whole number of items from either is aligned.
        let start = unsafe {
            let start = region.start.add(skipped).cast::<T>();
            ptr::copy_nonoverlapping(items.as_ptr(), start, items.len());
            start
        };
        Guarded {
            region,
            start,
            len: items.len(),
            items: PhantomData,
        }
    }
}

impl<T: Number> Deref for Guarded<T> {
    type Target = [T];

    fn deref(&self) -> &[T] {
        // `new` has put that many items there, and nobody else has the region.
        unsafe { slice::from_raw_parts(self.start, self.len) }
    }
}

impl<T: Number> DerefMut for Guarded<T> {
    fn deref_mut(&mut self) -> &mut [T] {
        // As above.
        unsafe { slice::from_raw_parts_mut(self.start, self.len) }
    }
}

impl<T: Number> Drop for Guarded<T> {
    fn drop(&mut self) {
        FREE.with_borrow_mut(|free| free.push(self.region));
    }
}

thread_local! {
    static REPORT: Cell<Option<fn()>> = const { Cell::new(None) };
}

/// Has `report` called, and the program ended with status 1, where this thread
/// touches a closed page or stops by a trap.
pub fn report_faults(report: fn()) {
    const FAULTS: [i32; 5] = [4, 5, 7, 8, 11];
    REPORT.set(Some(report));
    for number in FAULTS {
        // The handler only runs while a C function is called, which holds
        // nothing that `report` waits for.
        unsafe { signal(number, on_fault) };
    }
}

extern "C" fn on_fault(number: i32) {
    if let Some(report) = REPORT.take() {
        println!("stopped by signal {number} in a C function");
        report();
    }
    // No destructor is to run after a fault.
    unsafe { _exit(1) }
}

#[cfg(test)]
mod tests {
    use super::*;
    use std::process::Command;

    const TOUCHED: &str = "GUARD_TEST_TOUCHED";

    /// Runs `touch` in a process of its own, and says how that ended.
    fn touched(what: &str) -> (bool, String) {
        let output = Command::new(std::env::current_exe().expect("the test's own file"))
            .args(["--exact", "guard::tests::touch", "--nocapture"])
            .env(TOUCHED, what)
            .output()
            .expect("it can be run");
        let text = String::from_utf8_lossy(&output.stdout).into_owned();
        (output.status.success(), text)
    }

    #[test]
    fn a_byte_too_far_stops_the_program() {
        for (what, stopped) in [
            ("inside", false),
            ("after the end", true),
            ("before the start", true),
        ] {
            let (success, text) = touched(what);
            assert_eq!(success, !stopped, "{what}: {text}");
            assert_eq!(text.contains("this was running"), stopped, "{what}: {text}");
        }
    }

    #[test]
    fn touch() {
        let Ok(what) = std::env::var(TOUCHED) else {
            return;
        };
        report_faults(|| println!("this was running"));
        for len in [0, 1, 3, PAGE - 1, PAGE, PAGE + 1] {
            let end = Guarded::new(&vec![7u8; len], Side::End);
            let start = Guarded::new(&vec![7u8; len], Side::Start);
            assert!(end.iter().chain(start.iter()).all(|byte| *byte == 7));
            let touched = match what.as_str() {
                "after the end" => end.as_ptr().wrapping_add(len),
                "before the start" => start.as_ptr().wrapping_sub(1),
                _ => continue,
            };
            // The page is there, but closed.
            unsafe { ptr::read_volatile(touched) };
        }
    }
}
