//! The library linked into this program. The only unsafe code is here.

use std::ptr;

#[link(name = "capi", kind = "static")]
extern "C" {
    fn ryb_read(file: *const u8, n: usize) -> u16;
    fn ryb_whole(file: *const u8, n: usize) -> u16;
    fn ryb_tasks(file: *const u8, n: usize) -> usize;
    fn ryb_judge(
        file: *const u8,
        n: usize,
        starts: *const u64,
        starts_n: usize,
        bounds: *mut u64,
        bounds_n: usize,
        rounds: *mut u64,
        rounds_n: usize,
        by: *mut u8,
        by_n: usize,
    ) -> u16;
    fn ryb_list(file: *const u8, n: usize, out: *mut u8, out_n: usize) -> usize;
    fn ryb_view(file: *const u8, n: usize, task: u8) -> u16;
    fn ryb_record(file: *const u8, n: usize, task: u8) -> usize;
    fn ryb_carry(
        older: *const u8,
        older_n: usize,
        newer: *const u8,
        newer_n: usize,
        bounds: *mut u64,
        bounds_n: usize,
        rounds: *mut u64,
        rounds_n: usize,
        by: *mut u8,
        by_n: usize,
    ) -> u32;
    fn ryb_worsens(older: *const u8, older_n: usize, newer: *const u8, newer_n: usize) -> u8;
    fn ryb_salvage(file: *const u8, n: usize, out: *mut u8, out_n: usize) -> u64;
    fn ryb_reason(number: u8, out: *mut u8, out_n: usize) -> usize;
}

/// A buffer of which the first `reach` places are lent. The places after them show a write behind the end.
pub struct Lent<'a, T> {
    pub all: &'a mut [T],
    pub reach: usize,
}

impl<'a, T> Lent<'a, T> {
    /// The first `reach` places of a buffer.
    pub fn new(all: &'a mut [T], reach: usize) -> Lent<'a, T> {
        assert!(reach <= all.len());
        Lent { all, reach }
    }
}

/// The functions of `include/ryeobadum.h`.
pub struct Linked;

impl Linked {
    pub fn read(&self, file: &[u8]) -> u16 {
        // SAFETY: the pointer and the length are those of a slice.
        unsafe { ryb_read(start(file), file.len()) }
    }

    pub fn whole(&self, file: &[u8]) -> u16 {
        // SAFETY: the pointer and the length are those of a slice.
        unsafe { ryb_whole(start(file), file.len()) }
    }

    pub fn tasks(&self, file: &[u8]) -> usize {
        // SAFETY: the pointer and the length are those of a slice.
        unsafe { ryb_tasks(start(file), file.len()) }
    }

    pub fn judge(&self, file: &[u8], starts: &[u64], bounds: Lent<u64>, rounds: Lent<u64>, by: Lent<u8>) -> u16 {
        // SAFETY: the pointers and the lengths are those of slices, and no two of the mutable ones overlap.
        unsafe {
            ryb_judge(
                start(file),
                file.len(),
                start(starts),
                starts.len(),
                lent_start(bounds.all, bounds.reach),
                bounds.reach,
                lent_start(rounds.all, rounds.reach),
                rounds.reach,
                lent_start(by.all, by.reach),
                by.reach,
            )
        }
    }

    pub fn list(&self, file: &[u8], out: Lent<u8>) -> usize {
        // SAFETY: the pointers and the lengths are those of slices.
        unsafe { ryb_list(start(file), file.len(), lent_start(out.all, out.reach), out.reach) }
    }

    pub fn view(&self, file: &[u8], number: u8) -> u16 {
        // SAFETY: the pointer and the length are those of a slice.
        unsafe { ryb_view(start(file), file.len(), number) }
    }

    pub fn record(&self, file: &[u8], number: u8) -> usize {
        // SAFETY: the pointer and the length are those of a slice.
        unsafe { ryb_record(start(file), file.len(), number) }
    }

    pub fn carry(&self, older: &[u8], newer: &[u8], bounds: Lent<u64>, rounds: Lent<u64>, by: Lent<u8>) -> u32 {
        // SAFETY: the pointers and the lengths are those of slices, and no two of the mutable ones overlap.
        unsafe {
            ryb_carry(
                start(older),
                older.len(),
                start(newer),
                newer.len(),
                lent_start(bounds.all, bounds.reach),
                bounds.reach,
                lent_start(rounds.all, rounds.reach),
                rounds.reach,
                lent_start(by.all, by.reach),
                by.reach,
            )
        }
    }

    pub fn worsens(&self, older: &[u8], newer: &[u8]) -> u8 {
        // SAFETY: the pointers and the lengths are those of slices.
        unsafe { ryb_worsens(start(older), older.len(), start(newer), newer.len()) }
    }

    pub fn salvage(&self, file: &[u8], out: Lent<u8>) -> u64 {
        // SAFETY: the pointers and the lengths are those of slices.
        unsafe { ryb_salvage(start(file), file.len(), lent_start(out.all, out.reach), out.reach) }
    }

    pub fn reason(&self, number: u8, out: Lent<u8>) -> usize {
        // SAFETY: the pointer and the length are those of a slice.
        unsafe { ryb_reason(number, lent_start(out.all, out.reach), out.reach) }
    }
}

/// A slice's first place; NULL where it has none, as the header allows.
fn start<T>(slice: &[T]) -> *const T {
    if slice.is_empty() {
        ptr::null()
    } else {
        slice.as_ptr()
    }
}

/// The same for a buffer of which the first `reach` places are lent.
fn lent_start<T>(all: &mut [T], reach: usize) -> *mut T {
    if reach == 0 {
        ptr::null_mut()
    } else {
        all.as_mut_ptr()
    }
}
