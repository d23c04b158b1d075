// A slice lent to the library: it lies between guard words that no call may change, and can be compared with a kept copy.
use std::fmt::Debug;

pub trait Word: Copy + PartialEq + Debug {
    fn guard(place: usize) -> Self;
}

// a pattern that differs from place to place: a start, and a step that reaches all bits of the word
macro_rules! guards {
    ($($word:ty: $start:expr, $step:expr;)*) => {
        $(impl Word for $word {
            fn guard(place: usize) -> $word {
                $start ^ (place as $word).wrapping_mul($step)
            }
        })*
    };
}

guards! {
    u8: 0xA7, 29;
    u16: 0xA5C3, 771;
    u32: 0xA5C3_0F69, 50_529_027;
    u64: 0xA5C3_0F69_7E81_24DB, 0x0101_0305_0709_0B0D;
}

const BEFORE: usize = 5; // odd, so that a slice starts at any place its type allows
const AFTER: usize = 7;

pub struct Lent<T> {
    memory: Vec<T>,
    len: usize,
    kept: Vec<T>,
}

impl<T: Word> Lent<T> {
    pub fn new(content: &[T]) -> Lent<T> {
        let mut memory = Vec::with_capacity(content.len() + BEFORE + AFTER);
        memory.extend((0..BEFORE).map(T::guard));
        memory.extend_from_slice(content);
        memory.extend((0..AFTER).map(|i| T::guard(BEFORE + i)));
        let kept = memory.clone();
        Lent { memory, len: content.len(), kept }
    }

    // a slice filled with what looks like guard words
    pub fn junk(len: usize) -> Lent<T> {
        let content: Vec<T> = (0..len).map(|i| T::guard(i + 100)).collect();
        Lent::new(&content)
    }

    pub fn len(&self) -> usize {
        self.len
    }

    // an empty slice goes with no pointer at all
    pub fn pointer(&mut self) -> *mut T {
        if self.len == 0 {
            std::ptr::null_mut()
        } else {
            unsafe { self.memory.as_mut_ptr().add(BEFORE) }
        }
    }

    pub fn part(&self) -> &[T] {
        &self.memory[BEFORE..BEFORE + self.len]
    }

    pub fn set(&mut self, place: usize, value: T) {
        assert!(place < self.len);
        self.memory[BEFORE + place] = value;
    }

    pub fn keep(&mut self) {
        self.kept.copy_from_slice(&self.memory);
    }

    pub fn is_kept(&self) -> bool {
        self.memory == self.kept
    }

    pub fn guards_hold(&self) -> bool {
        let front = (0..BEFORE).all(|i| self.memory[i] == T::guard(i));
        let back = (0..AFTER).all(|i| self.memory[BEFORE + self.len + i] == T::guard(BEFORE + i));
        front && back
    }
}
