//! What sets the programs apart where they share code: how they hold buffers and cells, and how their orders are respaced. Plain and
//! marked have ordinary slices and vectors; tuned has arrays, whose length the compiler knows.

use crate::check::MOST_OPEN;
use crate::order::STRANDS;
use crate::state::RECORDS;
use std::ops::IndexMut;

/// A program's kind.
pub trait Kind: 'static {
    /// A part of the labels or links, 4,096 entries.
    type Part<T>: ?Sized + IndexMut<usize, Output = T> + AsMut<[T]>;
    /// The four parts of the places.
    type Places<'a>;
    /// A cell for each task that may be open.
    type Cells: IndexMut<usize, Output = usize>;
    /// Whether an order keeps the mark from which it is respaced.
    const MARKED: bool;
    /// Whether an order is respaced from both ends at once.
    const ENDS: bool;

    /// The first part of a buffer that has one, and the rest.
    fn split<T>(buffer: &mut [T]) -> (&mut Self::Part<T>, &mut [T]);

    /// The parts of the places, of which there are enough.
    fn places(places: &mut [u32]) -> Self::Places<'_>;

    /// Cells with one content.
    fn cells(content: usize) -> Self::Cells;
}

/// The kind of plain and marked.
pub struct Ordinary<const MARKED: bool>;
pub type Plain = Ordinary<false>;
pub type Marked = Ordinary<true>;

impl<const MARKED: bool> Kind for Ordinary<MARKED> {
    type Part<T> = [T];
    type Places<'a> = [&'a mut [u32]; 4];
    type Cells = Vec<usize>;
    const MARKED: bool = MARKED;
    const ENDS: bool = false;

    fn split<T>(buffer: &mut [T]) -> (&mut [T], &mut [T]) {
        buffer.split_at_mut(STRANDS)
    }

    fn places(places: &mut [u32]) -> [&mut [u32]; 4] {
        let mut parts = places.chunks_exact_mut(RECORDS);
        std::array::from_fn(|_| parts.next().expect("four parts"))
    }

    fn cells(content: usize) -> Vec<usize> {
        vec![content; MOST_OPEN]
    }
}

/// The kind of tuned.
pub struct Tuned;

impl Kind for Tuned {
    type Part<T> = [T; STRANDS];
    type Places<'a> = &'a mut [[u32; RECORDS]; 4];
    type Cells = [usize; MOST_OPEN];
    const MARKED: bool = true;
    const ENDS: bool = true;

    fn split<T>(buffer: &mut [T]) -> (&mut [T; STRANDS], &mut [T]) {
        buffer.split_first_chunk_mut().expect("a part")
    }

    fn places(places: &mut [u32]) -> &mut [[u32; RECORDS]; 4] {
        places.as_chunks_mut().0.first_chunk_mut().expect("four parts")
    }

    fn cells(content: usize) -> [usize; MOST_OPEN] {
        [content; MOST_OPEN]
    }
}
