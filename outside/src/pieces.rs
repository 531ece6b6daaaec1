//! Memory for the long run: pieces of one size in a row for each size, which are kept when they come back. The independent program takes and gives back a great many
//! small ones, and a third of the time would go there.

use std::alloc::{GlobalAlloc, Layout, System};
use std::cell::UnsafeCell;
use std::ptr::null_mut;

/// Sizes are powers of two, from 16 bytes up to 4 KB; larger pieces are the system's.
const LEAST: usize = 4;
const MOST: usize = 12;

/// How much is taken from the system at once.
const ROW: usize = 1 << 20;

pub struct Pieces {
    /// By size: the last piece that came back, which begins with where the one before it is.
    back: UnsafeCell<[*mut u8; MOST + 1]>,
    /// What is left of the row that pieces are cut from.
    row: UnsafeCell<(*mut u8, usize)>,
}

// SAFETY: the long run has one thread.
unsafe impl Sync for Pieces {}

impl Pieces {
    pub const fn new() -> Pieces {
        Pieces { back: UnsafeCell::new([null_mut(); MOST + 1]), row: UnsafeCell::new((null_mut(), 0)) }
    }
}

/// The size of a piece as a power of two; none where the piece is the system's.
fn power(layout: Layout) -> Option<usize> {
    let power = layout.size().max(layout.align()).max(1 << LEAST).next_power_of_two().trailing_zeros() as usize;
    Some(power).filter(|&power| power <= MOST)
}

// SAFETY: a piece is at least as large as it is asked for and begins at a multiple of its size, as every row does and all that is cut from it: what is left of a row is cut
// from its end, and a piece that would not begin so has the bytes behind it left out. No piece is given out twice before it comes back.
unsafe impl GlobalAlloc for Pieces {
    unsafe fn alloc(&self, layout: Layout) -> *mut u8 {
        let Some(power) = power(layout) else { return System.alloc(layout) };
        let (last, (row, left)) = (&mut (*self.back.get())[power], &mut *self.row.get());
        let piece = *last;
        if !piece.is_null() {
            *last = *piece.cast();
            return piece;
        }
        let size = 1 << power;
        if *left < size {
            *row = System.alloc(Layout::from_size_align_unchecked(ROW, 1 << MOST));
            *left = if row.is_null() { return null_mut() } else { ROW };
        }
        *left = (*left - size) & !(size - 1);
        row.add(*left)
    }

    unsafe fn dealloc(&self, piece: *mut u8, layout: Layout) {
        let Some(power) = power(layout) else { return System.dealloc(piece, layout) };
        let last = &mut (*self.back.get())[power];
        *piece.cast() = *last;
        *last = piece;
    }

    unsafe fn realloc(&self, piece: *mut u8, layout: Layout, size: usize) -> *mut u8 {
        let new = Layout::from_size_align_unchecked(size, layout.align());
        match (power(layout), power(new)) {
            (None, None) => System.realloc(piece, layout, size),
            (old, other) if old == other => piece,
            _ => {
                let longer = self.alloc(new);
                if !longer.is_null() {
                    piece.copy_to_nonoverlapping(longer, layout.size().min(size));
                    self.dealloc(piece, layout);
                }
                longer
            }
        }
    }
}
