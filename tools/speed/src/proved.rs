//! The proved library, through its C functions (include/verdict.h and crate probe).

pub const SLIP_BYTES: usize = 53;

/// A leak line, as the library lays it out.
#[repr(C)]
#[derive(Clone, Copy, Default)]
pub struct Line {
    pub node: u32,
    pub mark: u32,
}

extern "C" {
    fn verdict(levels: *const u8, levels_length: usize, listing: *const u8, listing_length: usize, out: *mut u8, out_length: usize) -> u32;
    fn probe_load(listing: *const u8, listing_length: usize) -> u32;
    fn probe_clear(levels: *const u8, levels_length: usize, listing: *const u8, listing_length: usize) -> u32;
    fn probe_advance(listing: *const u8, listing_length: usize, lines: *mut Line, lines_length: usize) -> usize;
}

pub fn load(listing: &[u8]) -> u32 {
    // SAFETY: the pointer and the length are those of a slice.
    unsafe { probe_load(listing.as_ptr(), listing.len()) }
}

pub fn clear(levels: &[u8], listing: &[u8]) -> u32 {
    // SAFETY: the pointers and the lengths are those of slices.
    unsafe { probe_clear(levels.as_ptr(), levels.len(), listing.as_ptr(), listing.len()) }
}

pub fn slip(levels: &[u8], listing: &[u8]) -> [u8; SLIP_BYTES] {
    let mut out = [0; SLIP_BYTES];
    // SAFETY: the pointers and the lengths are those of slices, and the room overlaps none.
    let answer = unsafe { verdict(levels.as_ptr(), levels.len(), listing.as_ptr(), listing.len(), out.as_mut_ptr(), out.len()) };
    assert_eq!(answer, 0);
    out
}

pub fn verdict_text(levels: &[u8], listing: &[u8]) -> String {
    String::from_utf8_lossy(&slip(levels, listing)).into_owned()
}

pub fn advance(listing: &[u8], lines: &mut [Line]) -> usize {
    // SAFETY: the pointers and the lengths are those of slices, which do not overlap.
    unsafe { probe_advance(listing.as_ptr(), listing.len(), lines.as_mut_ptr(), lines.len()) }
}
