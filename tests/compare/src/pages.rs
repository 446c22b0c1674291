//! Pages between two guard pages, which can be neither read nor written.
//!
//! A call that reads or writes in a guard page is stopped by the processor: the
//! test process says on standard error how far before the beginning or behind
//! the end of the pages that was, and which seed was tried, and ends by SIGSEGV.
//! The page before is the guard of a list that begins where its pages begin, the
//! page behind that of a list that ends where they end.
//!
//! x86-64 Linux, as the library itself.

use std::cell::{Cell, RefCell};
use std::ffi::c_void;
use std::io::Write;
use std::ptr;
use std::sync::Once;

/// Bytes of a page.
pub const PAGE: usize = 4_096;

const NONE: i32 = 0;
const READ_AND_WRITE: i32 = 3;
const PRIVATE_ANONYMOUS: i32 = 0x22;
const SIGSEGV: i32 = 11;
/// The handler is told the address, runs on the thread's other stack, and runs
/// once: what it returns to faults again and ends the process.
const WITH_ADDRESS_ON_OTHER_STACK_ONCE: i32 = 0x8800_0004_u32 as i32;

/// glibc's `struct sigaction`.
#[repr(C)]
struct Action {
    handler: extern "C" fn(i32, *const SignalInfo, *mut c_void),
    mask: [u64; 16],
    flags: i32,
    restorer: usize,
}

/// The first fields of `siginfo_t`, as a fault fills them.
#[repr(C)]
struct SignalInfo {
    signal: i32,
    error: i32,
    code: i32,
    address: usize,
}

extern "C" {
    fn mmap(at: *mut c_void, bytes: usize, may: i32, how: i32, file: i32, from: i64)
        -> *mut c_void;
    fn mprotect(at: *mut c_void, bytes: usize, may: i32) -> i32;
    fn sigaction(signal: i32, action: *const Action, old: *mut Action) -> i32;
}

/// Pages that can be read and written, of this thread alone.
#[derive(Clone, Copy)]
pub struct Pages {
    first: *mut u8,
    count: usize,
}

thread_local! {
    /// Pages that are not in use, by their count.
    static FREE: RefCell<Vec<Vec<Pages>>> = const { RefCell::new(Vec::new()) };
    /// All pages that the thread has.
    static ALL: RefCell<Vec<Pages>> = const { RefCell::new(Vec::new()) };
    /// The seed that the thread tries.
    static SEED: Cell<u64> = const { Cell::new(0) };
}

impl Pages {
    /// Pages for so many bytes, one at least, whatever they hold.
    pub fn take(bytes: usize) -> Pages {
        let count = bytes.div_ceil(PAGE).max(1);
        let free = FREE.with_borrow_mut(|free| free.get_mut(count).and_then(Vec::pop));
        free.unwrap_or_else(|| Pages::map(count))
    }

    /// Gives the pages back for a later list.
    pub fn put_back(self) {
        FREE.with_borrow_mut(|free| {
            free.resize_with(free.len().max(self.count + 1), Vec::new);
            free[self.count].push(self);
        });
    }

    /// Where the pages begin.
    pub fn first(self) -> *mut u8 {
        self.first
    }

    /// Bytes of the pages.
    pub fn bytes(self) -> usize {
        self.count * PAGE
    }

    /// New pages with a guard page before them and one behind.
    fn map(count: usize) -> Pages {
        watch();
        let bytes = count * PAGE;
        let whole = bytes + 2 * PAGE;
        let (at, may) = (ptr::null_mut(), NONE);
        let guard = unsafe { mmap(at, whole, may, PRIVATE_ANONYMOUS, -1, 0) };
        assert!(guard as isize != -1, "no memory for {whole} bytes");
        let first = guard.wrapping_byte_add(PAGE);
        let opened = unsafe { mprotect(first, bytes, READ_AND_WRITE) };
        assert_eq!(opened, 0, "mprotect");
        let pages = Pages {
            first: first.cast(),
            count,
        };
        ALL.with_borrow_mut(|all| all.push(pages));
        pages
    }

    /// What an access at an address in one of the two guard pages was.
    fn left_at(self, address: usize) -> Option<String> {
        let begin = self.first as usize;
        let end = begin + self.bytes();
        if (begin - PAGE..begin).contains(&address) {
            let before = begin - address;
            return Some(format!("byte {before} before the beginning of lent memory"));
        }
        let behind = address.checked_sub(end).filter(|far| *far < PAGE)?;
        Some(format!("byte {} behind the end of lent memory", behind + 1))
    }
}

/// Notes the seed that the thread tries.
pub fn trying(seed: u64) {
    SEED.set(seed);
}

/// Has a fault in a guard page told before it ends the process.
fn watch() {
    static WATCHED: Once = Once::new();
    let action = Action {
        handler: tell,
        mask: [0; 16],
        flags: WITH_ADDRESS_ON_OTHER_STACK_ONCE,
        restorer: 0,
    };
    WATCHED.call_once(|| {
        let set = unsafe { sigaction(SIGSEGV, &action, ptr::null_mut()) };
        assert_eq!(set, 0, "sigaction");
    });
}

/// Says where the thread left what it was lent. It runs inside a call of the
/// library, which holds no lock and has no memory of its own.
extern "C" fn tell(_signal: i32, info: *const SignalInfo, _context: *mut c_void) {
    let address = unsafe { (*info).address };
    let left = |all: &Vec<Pages>| all.iter().find_map(|pages| pages.left_at(address));
    let place = ALL.with_borrow(left);
    let place = place.unwrap_or_else(|| format!("address {address:#x}, far from lent memory"));
    let seed = SEED.get();
    let line = format!("\nGUARD: a call touched {place}, while trying seed {seed}\n");
    let _ = std::io::stderr().write_all(line.as_bytes());
}
