// Memory for lent slices: each lies flush against a page that nobody may touch, and its open side holds bytes that no call may change.
use crate::planted::planted;
use crate::rng::Rng;
use std::fmt::LowerHex;
use std::os::raw::{c_int, c_void};
use std::ptr;
use std::slice;

extern "C" {
    fn mmap(at: *mut c_void, len: usize, protection: c_int, flags: c_int, file: c_int, offset: i64) -> *mut c_void;
    fn mprotect(at: *mut c_void, len: usize, protection: c_int) -> c_int;
}

#[cfg(address_checks)]
extern "C" {
    fn __asan_poison_memory_region(at: *const c_void, len: usize);
    fn __asan_unpoison_memory_region(at: *const c_void, len: usize);
}

const PAGE: usize = 4096;
const NO_ACCESS: c_int = 0;
const READ: c_int = 1;
const READ_AND_WRITE: c_int = 3;
const PRIVATE_ANONYMOUS_UNRESERVED: c_int = 0x02 | 0x20 | 0x4000;

static GUARDS: [u8; PAGE] = guards();

const fn guards() -> [u8; PAGE] {
    let mut bytes = [0; PAGE];
    let mut at = 0;
    while at < PAGE {
        bytes[at] = 0xA7 ^ (at % 251) as u8;
        at += 1;
    }
    bytes
}

fn map(len: usize, protection: c_int) -> Option<*mut u8> {
    let at = unsafe { mmap(ptr::null_mut(), len, protection, PRIVATE_ANONYMOUS_UNRESERVED, -1, 0) };
    if at as isize == -1 {
        None
    } else {
        Some(at as *mut u8)
    }
}

// Read-only zeros for slices of more than 2^32 elements, whose lengths a narrow word could not tell from right ones.
#[derive(Clone, Copy)]
pub struct Vast {
    start: *mut u8,
    len: usize,
}

impl Vast {
    // empty where the machine gives no such room
    pub fn new() -> Vast {
        let len = 4 << 32 | 1 << 24;
        map(len, READ).map_or(Vast { start: ptr::null_mut(), len: 0 }, |start| Vast { start, len })
    }

    pub fn is_empty(&self) -> bool {
        self.len == 0
    }
}

// bytes to lend from, a page without access on each side
struct Area {
    start: *mut u8,
    len: usize,
}

impl Area {
    fn new(pages: usize) -> Area {
        let len = pages * PAGE;
        let whole = map(len + 2 * PAGE, NO_ACCESS).expect("memory to lend");
        let start = unsafe { whole.add(PAGE) };
        assert_eq!(unsafe { mprotect(start as *mut c_void, len, READ_AND_WRITE) }, 0, "memory to write");
        Area { start, len }
    }
}

pub trait Word: Copy + PartialEq + LowerHex + 'static {
    fn of(word: u64) -> Self;
}

macro_rules! words {
    ($($word:ty)*) => { $(impl Word for $word {
        fn of(word: u64) -> $word {
            word as $word
        }
    })* };
}

words! { u8 u16 u32 u64 }

// One slice as the library has it, and as it must be.
pub struct Lent<T> {
    name: &'static str,
    areas: Vec<Area>, // of 1, 2, 4, .. pages
    vast: Vast,
    at: *mut T,
    len: usize,
    open: Area, // the bytes between the slice and the far page without access
    pub want: Vec<T>,
}

impl<T: Word> Lent<T> {
    pub fn new(name: &'static str, vast: Vast) -> Lent<T> {
        let open = Area { start: ptr::null_mut(), len: 0 };
        Lent { name, areas: Vec::new(), vast, at: ptr::null_mut(), len: 0, open, want: Vec::new() }
    }

    // lends what `want` holds, flush with one page without access or the other
    pub fn lend(&mut self, rng: &mut Rng) {
        self.len = self.want.len();
        let bytes = self.len * std::mem::size_of::<T>();
        let class = ((bytes.max(1) + PAGE - 1) / PAGE).next_power_of_two().trailing_zeros() as usize;
        while self.areas.len() <= class {
            self.areas.push(Area::new(1 << self.areas.len()));
        }
        let Area { start, len } = self.areas[class];
        let behind = unsafe { start.add(len) };
        let (at, open) = match (bytes, rng.below(4)) {
            (0, 0) => (behind, behind),
            (0, 1) => (unsafe { start.sub(PAGE) }, behind),
            (0, _) => (ptr::null_mut(), behind),
            (_, 0) | (_, 1) => (start, unsafe { start.add(bytes) }),
            _ => (unsafe { behind.sub(bytes) }, start),
        };
        self.at = at as *mut T;
        self.open = Area { start: open, len: if bytes == 0 { 0 } else { len - bytes } };
        self.open_side().chunks_mut(PAGE).for_each(|chunk| chunk.copy_from_slice(&GUARDS[..chunk.len()]));
        self.rewrite();
    }

    // lends this many zeros, read-only; false where there is no such room
    pub fn lend_vast(&mut self, len: usize) -> bool {
        if len > self.vast.len / std::mem::size_of::<T>() {
            return false;
        }
        self.at = self.vast.start as *mut T;
        self.len = len;
        self.want.clear();
        self.open = Area { start: self.vast.start, len: 0 };
        true
    }

    fn is_vast(&self) -> bool {
        self.len != self.want.len()
    }

    // writes what `want` holds into the slice
    pub fn rewrite(&mut self) {
        if !self.want.is_empty() {
            unsafe { ptr::copy_nonoverlapping(self.want.as_ptr(), self.at, self.len) };
        }
    }

    fn open_side(&mut self) -> &mut [u8] {
        unsafe { slice::from_raw_parts_mut(self.open.start, self.open.len) }
    }

    pub fn len(&self) -> usize {
        self.len
    }

    pub fn pointer(&self) -> *mut T {
        self.at
    }

    // what the independent program reads
    pub fn words(&self) -> &[T] {
        if self.is_vast() {
            unsafe { slice::from_raw_parts(self.at, self.len) }
        } else {
            &self.want
        }
    }

    // the page without access lies before the slice
    pub fn is_open_behind(&self) -> bool {
        self.open.start as *mut T == self.at.wrapping_add(self.len)
    }

    // planted: accesses that a page without access, or the bytes beside the slice, must show
    fn trespass(&mut self) {
        let (before, behind) = ((self.at as *mut u8).wrapping_sub(1), self.at.wrapping_add(self.len) as *mut u8);
        let (shut, beside) = if self.is_open_behind() { (before, behind) } else { (behind, before) };
        if planted("reads_behind") && shut == behind || planted("reads_before") && shut == before {
            unsafe { shut.read_volatile() };
        }
        if planted("writes_beside") && self.open.len > 0 {
            unsafe { *beside ^= 1 };
        }
    }
}

// what is done with every slice alike around a call
pub trait Slice {
    // the address checks take the open side for nobody's memory while a call works
    fn shut(&mut self);
    fn open(&mut self);
    // the slice is as it must be, and so are the bytes beside it
    fn check(&mut self) -> Result<(), String>;
}

impl<T: Word> Slice for Lent<T> {
    fn shut(&mut self) {
        #[cfg(address_checks)]
        unsafe {
            __asan_poison_memory_region(self.open.start as *const c_void, self.open.len)
        };
    }

    fn open(&mut self) {
        #[cfg(address_checks)]
        unsafe {
            __asan_unpoison_memory_region(self.open.start as *const c_void, self.open.len)
        };
    }

    fn check(&mut self) -> Result<(), String> {
        if self.len == 0 || self.is_vast() {
            return Ok(());
        }
        self.trespass();
        let got = unsafe { slice::from_raw_parts(self.at, self.len) };
        if got != &self.want[..] {
            let at = got.iter().zip(&self.want).position(|(got, want)| got != want).unwrap_or(0);
            return Err(format!("slice {} at {}\n  library:     {:x}\n  independent: {:x}", self.name, at, got[at], self.want[at]));
        }
        if self.open_side().chunks(PAGE).any(|chunk| chunk != &GUARDS[..chunk.len()]) {
            return Err(format!("bytes beside the slice {} are changed", self.name));
        }
        Ok(())
    }
}
