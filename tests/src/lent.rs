//! Memory lent to the library. Around the lent part lie zones that belong to the lender, so that a write outside the
//! part is seen; at the edge of a page a read outside is seen too, since it ends the run.

use crate::calls::Slice;
use crate::pages::Pages;
use std::fmt::Debug;

/// Elements before and behind a part that lies between zones.
const ZONE: usize = 64;

/// Cells as they are lent where nothing is said in them: each with a value of its own, so that moved cells are seen too.
pub fn untouched(cells: usize) -> Vec<u32> {
    (0..cells as u32).map(|cell| 0xC000_0000 + cell).collect()
}

/// What a lent slice is made of.
pub trait Element: Copy + PartialEq + Debug {
    /// What stands around a lent part. Not zero, so that a number read beyond the end is seen as wrong.
    const AROUND: Self;
}

impl Element for u8 {
    const AROUND: u8 = 0xA5;
}

impl Element for u32 {
    const AROUND: u32 = 0xA5A5_A5A5;
}

/// Where a lent part lies.
#[derive(Clone, Copy, Debug, PartialEq, Eq)]
pub enum Memory {
    /// On the heap, between zones.
    Zones,
    /// Before its first byte nothing may be read or written.
    PageStart,
    /// Behind its last byte nothing may be read or written.
    PageEnd,
    /// On the heap by itself, for a run under a memory checker, which would take zones for memory lent.
    Alone,
}

/// What the library may do with a lent part.
#[derive(Clone, Copy, Debug, PartialEq, Eq)]
pub enum Lease {
    ToRead,
    ToWrite,
}

enum Block<T> {
    Heap(Vec<T>),
    Paged(Pages),
}

impl<T: Element> Block<T> {
    fn all(&self) -> &[T] {
        match self {
            Block::Heap(all) => all,
            Block::Paged(pages) => {
                let length = pages.length() / size_of::<T>();
                unsafe { std::slice::from_raw_parts(pages.pointer() as *const T, length) }
            }
        }
    }

    fn pointer(&mut self) -> *mut T {
        match self {
            Block::Heap(all) => all.as_mut_ptr(),
            Block::Paged(pages) => pages.pointer() as *mut T,
        }
    }
}

/// A lent part and what lies around it.
pub struct Lent<T> {
    block: Block<T>,
    before_call: Vec<T>,
    start: usize,
    length: usize,
}

impl<T: Element> Lent<T> {
    /// Lends a copy of `contents` between zones.
    pub fn new(contents: &[T]) -> Lent<T> {
        Lent::shifted(contents, 0)
    }

    /// The same, `shift` elements further: so files come at odd addresses too.
    pub fn shifted(contents: &[T], shift: usize) -> Lent<T> {
        let start = ZONE + shift;
        let mut all = vec![T::AROUND; start + contents.len() + ZONE];
        all[start..start + contents.len()].copy_from_slice(contents);
        Lent {
            before_call: all.clone(),
            block: Block::Heap(all),
            start,
            length: contents.len(),
        }
    }

    pub fn in_memory(memory: Memory, contents: &[T], lease: Lease) -> Lent<T> {
        match memory {
            Memory::Zones => Lent::new(contents),
            Memory::PageStart => Lent::in_pages(contents, lease, |_| 0),
            Memory::PageEnd => Lent::in_pages(contents, lease, |all| all - contents.len()),
            Memory::Alone => Lent {
                block: Block::Heap(contents.to_vec()),
                before_call: contents.to_vec(),
                start: 0,
                length: contents.len(),
            },
        }
    }

    /// In pages of its own; `start` says from their number of elements where the part starts.
    fn in_pages(contents: &[T], lease: Lease, start: impl Fn(usize) -> usize) -> Lent<T> {
        let pages = Pages::new(size_of_val(contents));
        let all = pages.length() / size_of::<T>();
        let start = start(all);
        let mut before_call = vec![T::AROUND; all];
        before_call[start..start + contents.len()].copy_from_slice(contents);
        pages.open(pages.length());
        let first = pages.pointer() as *mut T;
        unsafe { std::ptr::copy_nonoverlapping(before_call.as_ptr(), first, all) };
        if lease == Lease::ToRead {
            pages.close();
        }
        Lent {
            block: Block::Paged(pages),
            before_call,
            start,
            length: contents.len(),
        }
    }

    /// Fills a part between zones anew, as if it were lent again.
    pub fn fill(&mut self, contents: &[T]) {
        let part = self.start..self.start + self.length;
        self.before_call[part.clone()].copy_from_slice(contents);
        match &mut self.block {
            Block::Heap(all) => all[part].copy_from_slice(contents),
            Block::Paged(_) => panic!("pages are lent once"),
        }
    }

    /// The part as the library takes it.
    pub fn slice(&mut self) -> Slice<T> {
        // No elements may lie at the very end of what there is.
        (self.block.pointer().wrapping_add(self.start), self.length)
    }

    /// The lent part as it is now.
    pub fn contents(&self) -> &[T] {
        &self.block.all()[self.start..self.start + self.length]
    }

    /// Fails if anything changed, in the part or around it.
    pub fn assert_as_it_came(&self) {
        assert!(
            self.block.all() == self.before_call,
            "lent memory was changed"
        );
    }

    /// Fails if anything changed around the part.
    pub fn assert_zones_as_they_came(&self) {
        let end = self.start + self.length;
        let all = self.block.all();
        let before = all[..self.start] == self.before_call[..self.start];
        let behind = all[end..] == self.before_call[end..];
        assert!(before && behind, "memory beside the lent part was changed");
    }
}

/// Bytes with very many zeros behind them, in pages that may only be read: a length cut to 32 bits would be that of the
/// bytes alone.
pub struct VastTail {
    pages: Pages,
    length: usize,
}

impl VastTail {
    pub fn new(bytes: &[u8], zeros: usize) -> VastTail {
        let length = bytes.len() + zeros;
        let pages = Pages::new(length);
        pages.open(bytes.len());
        unsafe { std::ptr::copy_nonoverlapping(bytes.as_ptr(), pages.pointer(), bytes.len()) };
        pages.close();
        VastTail { pages, length }
    }

    /// The same, and the first bytes may be written too: all others only read.
    pub fn opened(bytes: &[u8], zeros: usize) -> VastTail {
        let vast = VastTail::new(bytes, zeros);
        vast.pages.open(bytes.len());
        vast
    }

    /// The first so many elements as they are now.
    pub fn first<T: Element>(&self, count: usize) -> Vec<T> {
        assert!(count <= self.length / size_of::<T>());
        unsafe { std::slice::from_raw_parts(self.pages.pointer() as *const T, count).to_vec() }
    }

    /// The bytes and the zeros, as elements of any size: pages suit cells too.
    pub fn slice<T>(&self) -> Slice<T> {
        let length = self.length / size_of::<T>();
        (self.pages.pointer() as *mut T, length)
    }
}
