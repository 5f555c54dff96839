//! Memory that is lent to a call, with means to see that nothing but its own part is touched.
use crate::pseudorandom::Pseudorandom;
use std::cell::RefCell;
use std::ffi::c_void;
use std::mem::{size_of, size_of_val};

const GUARD: usize = 16;
const PAGE: usize = 4096;
const PAGES: usize = 16;

extern "C" {
    fn mmap(at: *mut c_void, size: usize, may: i32, flags: i32, fd: i32, from: i64) -> *mut c_void;
    fn mprotect(at: *mut c_void, size: usize, may: i32) -> i32;
}

const READ_AND_WRITE: i32 = 3;
const PRIVATE_ANONYMOUS: i32 = 0x22;

/// Where lent memory stands: on the heap, between guards or without them (then memcheck sees its ends), or in pages, given by the
/// first, between pages that cannot be touched.
#[derive(Clone, Copy)]
enum Home {
    Heap,
    Pages(*mut u8),
}

/// The lent part of some memory, and the whole memory as it was filled.
pub struct Lent<T> {
    home: Home,
    memory: *mut T,
    front: usize,
    length: usize,
    filled: Vec<T>,
}

/// An item of lent memory, made of pseudorandom bits.
pub trait Item: Copy + PartialEq + Default {
    fn of_bits(bits: u64) -> Self;
}

impl Item for u8 {
    fn of_bits(bits: u64) -> u8 {
        bits as u8
    }
}

impl Item for u16 {
    fn of_bits(bits: u64) -> u16 {
        bits as u16
    }
}

impl Item for u32 {
    fn of_bits(bits: u64) -> u32 {
        bits as u32
    }
}

thread_local! {
    static FREE_PAGES: RefCell<Vec<*mut u8>> = const { RefCell::new(Vec::new()) };
}

/// The first of the pages that may be touched.
fn fenced_pages() -> *mut u8 {
    FREE_PAGES
        .with_borrow_mut(|free| free.pop())
        .unwrap_or_else(new_fenced_pages)
}

fn new_fenced_pages() -> *mut u8 {
    let size = (PAGES + 2) * PAGE;
    unsafe {
        let fence = mmap(std::ptr::null_mut(), size, 0, PRIVATE_ANONYMOUS, -1, 0);
        let inner = fence.cast::<u8>().wrapping_add(PAGE);
        assert_eq!(mprotect(inner.cast(), PAGES * PAGE, READ_AND_WRITE), 0);
        inner
    }
}

impl<T: Item> Lent<T> {
    /// So many items, filled with pseudorandom ones.
    pub fn blank(length: usize, random: &mut Pseudorandom) -> Lent<T> {
        let content: Vec<T> = (0..length).map(|_| T::of_bits(random.bits())).collect();
        Lent::holding(&content, random)
    }

    pub fn holding(content: &[T], random: &mut Pseudorandom) -> Lent<T> {
        // Memory that is too long for the pages stands on the heap with guards on both sides.
        let ways = if size_of_val(content) + GUARD * size_of::<T>() <= PAGES * PAGE { 6 } else { 2 };
        // A guard that is odd or absent, so that bytes also start where no word does.
        let (home, before, after) = match random.below(ways) {
            0 => (Home::Heap, GUARD, GUARD),
            1 => (Home::Heap, GUARD + 1, GUARD),
            2 => (Home::Heap, 1, 0),
            3 => (Home::Heap, 0, 0),
            4 => (Home::Pages(fenced_pages()), 0, GUARD),
            _ => (Home::Pages(fenced_pages()), GUARD, 0),
        };
        let mut guard =
            |items: usize| -> Vec<T> { (0..items).map(|_| T::of_bits(random.bits())).collect() };
        let filled = [guard(before), content.to_vec(), guard(after)].concat();
        let memory = match home {
            Home::Heap => heap(&filled),
            Home::Pages(first) => pages(first, &filled, before == 0),
        };
        Lent {
            home,
            memory,
            front: before,
            length: content.len(),
            filled,
        }
    }

    pub fn pointer(&self) -> *mut T {
        self.memory.wrapping_add(self.front)
    }

    pub fn length(&self) -> usize {
        self.length
    }

    fn whole(&self) -> &[T] {
        unsafe { std::slice::from_raw_parts(self.memory, self.filled.len()) }
    }

    pub fn part(&self) -> &[T] {
        &self.whole()[self.front..][..self.length]
    }

    /// Whether this stands at the front of the lent part and all else is as it was.
    pub fn holds(&self, written: &[T]) -> bool {
        let (before, rest) = self.whole().split_at(self.front);
        let (filled_before, filled_rest) = self.filled.split_at(self.front);
        let (part, later) = rest.split_at(written.len());
        before == filled_before && part == written && later == &filled_rest[written.len()..]
    }

    /// From now on, what stands there is what it was filled with.
    pub fn settle(&mut self) {
        self.filled = self.whole().to_vec();
    }
}

fn heap<T: Item>(filled: &[T]) -> *mut T {
    let boxed: Box<[T]> = filled.into();
    Box::into_raw(boxed).cast()
}

/// The items at the first of the pages, or up to the end of the last.
fn pages<T: Item>(first: *mut u8, filled: &[T], at_start: bool) -> *mut T {
    let room = PAGES * PAGE - std::mem::size_of_val(filled);
    let offset = if at_start { 0 } else { room };
    let memory: *mut T = first.wrapping_add(offset).cast();
    unsafe { memory.copy_from_nonoverlapping(filled.as_ptr(), filled.len()) };
    memory
}

impl<T> Drop for Lent<T> {
    fn drop(&mut self) {
        match self.home {
            Home::Heap => {
                let whole = std::ptr::slice_from_raw_parts_mut(self.memory, self.filled.len());
                drop(unsafe { Box::from_raw(whole) });
            }
            Home::Pages(first) => FREE_PAGES.with_borrow_mut(|free| free.push(first)),
        }
    }
}
