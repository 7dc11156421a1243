//! The library's order alone (crate `growing`), behind its C call, wrapped in a safe function.

extern "C" {
    fn rz_grow(labels: *mut u64, labels_len: usize, links: *mut u16, links_len: usize, factor: u16) -> u64;
}

/// An order alone, grown to 4,096 strands by the rule of `factor`; how many labels that set or changed.
pub fn grow(labels: &mut [u64], links: &mut [u16], factor: u16) -> u64 {
    // SAFETY: both pointers and lengths, in elements, are those of slices that are borrowed by `&mut`: aligned, not null, and apart; the
    // call stores within them and keeps neither.
    unsafe { rz_grow(labels.as_mut_ptr(), labels.len(), links.as_mut_ptr(), links.len(), factor) }
}
