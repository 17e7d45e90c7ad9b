//! The library's functions as they are exported: plain numbers and byte slices in, a number out.
//!
//! A call may be given anything at all. It answers 0 for done or yes, and otherwise the number of
//! the [`Refusal`](crate::Refusal) that applies first in the call's order; [`run`] answers its
//! counts beside that number, [`cut`] a length, and [`records`] 255 for a no. A refused call changes
//! no byte. All unsafe code of the crate is in this file.
//!
//! A program uses [`Region`](crate::Region), [`check_records`](crate::check_records) and
//! [`cut`](crate::cut()). These functions are for those who keep schedules and answers as bytes, or
//! who want the refusal of bytes that are not readable from every call.
//!
//! ```
//! use mound::{calls, Refusal};
//!
//! let mut bytes = [0; 196];
//! assert_eq!(calls::layout(&mut bytes, 1, 1, 1, 1, &[3]), 0);
//! assert_eq!(calls::put(&mut bytes, 1, 5, 9), 0);
//! assert_eq!(calls::put(&mut bytes, 1, 6, 9), Refusal::Busy.number());
//! ```

#![allow(unsafe_code)]

/// The C interface, where a slice is its pointer and its length.
mod exported {
    extern "C" {
        pub fn mound_layout(
            region: *mut u8,
            region_len: usize,
            depth: u32,
            cells: u32,
            threads: u32,
            threshold: u32,
            permissions: *const u8,
            permissions_len: usize,
        ) -> u32;

        pub fn mound_put(
            region: *mut u8,
            region_len: usize,
            thread: u32,
            key: u32,
            tag: u32,
        ) -> u32;

        pub fn mound_take(region: *mut u8, region_len: usize, thread: u32) -> u32;

        pub fn mound_list(region: *mut u8, region_len: usize, thread: u32) -> u32;

        pub fn mound_permit(
            region: *mut u8,
            region_len: usize,
            thread: u32,
            permission: u32,
        ) -> u32;

        pub fn mound_run(
            region: *mut u8,
            region_len: usize,
            schedule: *const u8,
            schedule_len: usize,
            limit: u32,
            answers: *mut u8,
            answers_len: usize,
        ) -> u64;

        pub fn mound_check(region: *const u8, region_len: usize) -> u32;

        pub fn mound_convert(old: *const u8, old_len: usize, new: *mut u8, new_len: usize) -> u32;

        pub fn mound_records(records: *const u8, records_len: usize) -> u32;

        pub fn mound_cut(
            script: *const u8,
            script_len: usize,
            number: u32,
            out: *mut u8,
            out_len: usize,
        ) -> u64;
    }
}

/// Lays a region out for an empty queue: one permission byte for each thread, every other byte by
/// the shape.
///
/// Refusals, in order: 1 (shape or permission list), 2 (length of the slice). Cost: each byte of
/// the region is written; a refused call looks at the shape and the permissions alone.
#[must_use = "the number says whether the call was refused"]
pub fn layout(
    region: &mut [u8],
    depth: u32,
    cells: u32,
    threads: u32,
    threshold: u32,
    permissions: &[u8],
) -> u32 {
    // SAFETY: each pointer goes with the length of its own slice. Both slices are lent for the
    // call, the region exclusively; the library keeps neither pointer.
    unsafe {
        exported::mound_layout(
            region.as_mut_ptr(),
            region.len(),
            depth,
            cells,
            threads,
            threshold,
            permissions.as_ptr(),
            permissions.len(),
        )
    }
}

/// Begins a put of an item by a thread: the item gets the first free cell, and turns do the rest.
///
/// Refusals, in order: 7 (not readable), 3 (thread), 4 (key or tag), 8 (permission), 9 (busy),
/// 10 (no free cell). Cost: that of [`check`], then one record, one cell and one word.
#[must_use = "the number says whether the call was refused"]
pub fn put(region: &mut [u8], thread: u32, key: u32, tag: u32) -> u32 {
    // SAFETY: the pointer goes with the slice's own length. The slice is lent for the call,
    // exclusively; the library does not keep the pointer.
    unsafe { exported::mound_put(region.as_mut_ptr(), region.len(), thread, key, tag) }
}

/// Begins a take by a thread; turns do the rest. It removes the least item, by key and then by tag.
///
/// Refusals, in order: 7 (not readable), 3 (thread), 8 (permission), 9 (busy). Cost: that of
/// [`check`], then one record.
#[must_use = "the number says whether the call was refused"]
pub fn take(region: &mut [u8], thread: u32) -> u32 {
    // SAFETY: as in `put`.
    unsafe { exported::mound_take(region.as_mut_ptr(), region.len(), thread) }
}

/// Begins a list by a thread; turns do the rest. It removes all items of the root's list at once,
/// the least of all first among them, and hands them out in their order, one a turn. Those behind
/// the first may be greater than items that stay.
///
/// Refusals, in order: 7 (not readable), 3 (thread), 8 (permission, that of a take), 9 (busy).
/// Cost: that of [`check`], then one record.
#[must_use = "the number says whether the call was refused"]
pub fn list(region: &mut [u8], thread: u32) -> u32 {
    // SAFETY: as in `put`.
    unsafe { exported::mound_list(region.as_mut_ptr(), region.len(), thread) }
}

/// Sets a thread's permission, whether the thread is busy or idle: bit 0 grants puts, bit 1 takes
/// and lists. An operation under way that has not taken effect ends as withdrawn if the thread's
/// next turn at a place that needs the permission finds it lacking.
///
/// Refusals, in order: 7 (not readable), 3 (thread), 1 (a permission above 3). Cost: that of
/// [`check`], then one word.
#[must_use = "the number says whether the call was refused"]
pub fn permit(region: &mut [u8], thread: u32, permission: u32) -> u32 {
    // SAFETY: as in `put`.
    unsafe { exported::mound_permit(region.as_mut_ptr(), region.len(), thread, permission) }
}

/// Serves the turns of a schedule, two words each (thread, choice), in order until it ends or the
/// accesses made equal the limit, and writes three words (code, key, tag) for each served turn:
/// those of its [`Answer`](crate::Answer). Bytes past the last of these stay as they were. What a
/// choice is for is said at [`Turn`](crate::Turn).
///
/// Answers three numbers in one: bits 0 to 15 are the refusal or 0, bits 16 to 31 the turns served,
/// bits 32 to 63 the accesses made; a refused call has served and made none.
///
/// Refusals, in order: 7 (not readable), 6 (schedule), 5 (length of the answer slice). A turn may
/// be refused 3 or 7, withdrawn, or refused 11, looked at in this order; that is its answer, and
/// the run goes on. Cost: that of [`check`], then for each turn at most one access and its answer's
/// words, whatever the size of the region.
#[must_use = "the first 16 bits say whether the run was refused"]
pub fn run(region: &mut [u8], schedule: &[u8], limit: u32, answers: &mut [u8]) -> u64 {
    // SAFETY: each pointer goes with the length of its own slice. The slices are lent for the call,
    // region and answers exclusively, the schedule to be read; the library keeps no pointer.
    unsafe {
        exported::mound_run(
            region.as_mut_ptr(),
            region.len(),
            schedule.as_ptr(),
            schedule.len(),
            limit,
            answers.as_mut_ptr(),
            answers.len(),
        )
    }
}

/// Tells whether a region is readable: its length is that of its first words and every field is
/// in its range.
///
/// Refusal: 7 (not readable). Cost: the words that have a range are read in order, up to the first
/// that is out of it; the four words of the shape are looked at together, and a thread's tries and
/// waiting levels once more behind its record's last word.
#[must_use = "the number says whether the region is readable"]
pub fn check(region: &[u8]) -> u32 {
    // SAFETY: the pointer goes with the slice's own length. The slice is lent for the call, in
    // which the library only reads it; it does not keep the pointer.
    unsafe { exported::mound_check(region.as_ptr(), region.len()) }
}

/// Carries a region of the old form, whose counters have one word, over to `new`: each byte of it is
/// set, each value is the same, and the high words of the counters are 0. What may be expected of
/// `new` afterwards is said at [`Region::convert`](crate::Region::convert).
///
/// Refusals, in order: 7 (`old` is no readable region of the old form), 2 (length of `new`). Cost:
/// that of [`check`] for `old`, then each byte of `new` is written.
#[must_use = "the number says whether the call was refused"]
pub fn convert(old: &[u8], new: &mut [u8]) -> u32 {
    // SAFETY: each pointer goes with the length of its own slice. Both slices are lent for the
    // call, `old` to be read, `new` exclusively; the library keeps neither pointer.
    unsafe { exported::mound_convert(old.as_ptr(), old.len(), new.as_mut_ptr(), new.len()) }
}

/// Checks the records of a queue that runs on several cores, seven words each: kind, thread, begin
/// time, answer time, position, key, tag. Answers 0 for yes and 255 for no; what is accepted is
/// said at [`check_records`](crate::check_records).
///
/// Refusal: 12 (a part of a record, over 1,024 of them, or a kind, thread, key or tag out of its
/// range), found before anything is compared. Cost: as said there.
#[must_use = "the number says whether the records are accepted"]
pub fn records(records: &[u8]) -> u32 {
    // SAFETY: as in `check`.
    unsafe { exported::mound_records(records.as_ptr(), records.len()) }
}

/// Cuts a script down to lines that show the refusal of this number, any number, and writes them to
/// the start of `out`; what is kept is said at [`cut`](crate::cut()). Bytes past them stay as they
/// were.
///
/// Answers two numbers in one: bits 0 to 31 are the refusal or 0, bits 32 to 63 the bytes written; a
/// refused call has written none.
///
/// Refusals, in order: 2 (`out` is shorter than the script), 16 (a line cannot be read, or the
/// number is not shown). Cost: as said there.
#[must_use = "the first 32 bits say whether the call was refused"]
pub fn cut(script: &[u8], number: u32, out: &mut [u8]) -> u64 {
    // SAFETY: each pointer goes with the length of its own slice. Both slices are lent for the
    // call, the script to be read, `out` exclusively; the library keeps neither pointer.
    unsafe {
        exported::mound_cut(script.as_ptr(), script.len(), number, out.as_mut_ptr(), out.len())
    }
}
