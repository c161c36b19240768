//! The boundary's functions, declared by hand as in `include/plumethrift.h`. All `unsafe` of the
//! crate is here.
//!
//! The caller owes them that each pointer is good for its length, aligned, and null only where the
//! length is 0; and that a part lent for writing overlaps no other part of the call. Slices give
//! all of it: their pointers are aligned and never null, and while a `&mut` slice is borrowed no
//! other slice overlaps it. Any contents, lengths and numbers are allowed.

use crate::lent::ReceiverRecord;
use crate::lent::{ListReply, ReadReply, ReadingsReply, SettingNumbers, Sizes, WriteReply};

/// A refusal's name: ASCII, padded with zeros.
#[repr(C)]
struct Name {
    text: [u8; 16],
}

extern "C" {
    fn plumethrift_read(
        settings: SettingNumbers,
        stream: *const u8,
        stream_octets: usize,
        events: *mut u32,
        event_cells: usize,
        text: *mut u32,
        text_cells: usize,
        work: *mut u32,
        work_cells: usize,
    ) -> ReadReply;

    fn plumethrift_write(
        settings: SettingNumbers,
        stream: *mut u8,
        stream_octets: usize,
        events: *const u32,
        event_cells: usize,
        text: *const u32,
        text_cells: usize,
        work: *mut u32,
        work_cells: usize,
    ) -> WriteReply;

    fn plumethrift_readings_of_list(
        events: *const u32,
        event_cells: usize,
        text: *const u32,
        text_cells: usize,
        stamps: *mut u64,
        stamp_cells: usize,
        movements: *mut i32,
        movement_cells: usize,
    ) -> ReadingsReply;

    fn plumethrift_list_of_readings(
        stamps: *const u64,
        stamp_cells: usize,
        movements: *const i32,
        movement_cells: usize,
        events: *mut u32,
        event_cells: usize,
        text: *mut u32,
        text_cells: usize,
    ) -> ListReply;

    fn plumethrift_read_readings(
        settings: SettingNumbers,
        stream: *const u8,
        stream_octets: usize,
        stamps: *mut u64,
        stamp_cells: usize,
        movements: *mut i32,
        movement_cells: usize,
        events: *mut u32,
        event_cells: usize,
        text: *mut u32,
        text_cells: usize,
        work: *mut u32,
        work_cells: usize,
    ) -> ReadingsReply;

    fn plumethrift_write_readings(
        settings: SettingNumbers,
        stream: *mut u8,
        stream_octets: usize,
        stamps: *const u64,
        stamp_cells: usize,
        movements: *const i32,
        movement_cells: usize,
        events: *mut u32,
        event_cells: usize,
        text: *mut u32,
        text_cells: usize,
        work: *mut u32,
        work_cells: usize,
    ) -> WriteReply;

    fn plumethrift_start(settings: SettingNumbers) -> ReceiverRecord;

    fn plumethrift_feed(
        receiver: *mut ReceiverRecord,
        piece: *const u8,
        piece_octets: usize,
        held: *mut u8,
        held_octets: usize,
        events: *mut u32,
        event_cells: usize,
        text: *mut u32,
        text_cells: usize,
        work: *mut u32,
        work_cells: usize,
    ) -> ReadReply;

    fn plumethrift_close(
        receiver: *mut ReceiverRecord,
        held: *mut u8,
        held_octets: usize,
        events: *mut u32,
        event_cells: usize,
        text: *mut u32,
        text_cells: usize,
        work: *mut u32,
        work_cells: usize,
    ) -> ReadReply;

    fn plumethrift_sizes() -> Sizes;

    fn plumethrift_refusal_name(number: u32) -> Name;
}

pub(crate) fn read(
    settings: SettingNumbers,
    stream: &[u8],
    events: &mut [u32],
    text: &mut [u32],
    work: &mut [u32],
) -> ReadReply {
    // SAFETY: each pointer and length is a slice's own, borrowed for the whole call, as `&mut`
    // where the library writes; it keeps no pointer after the call.
    unsafe {
        plumethrift_read(
            settings,
            stream.as_ptr(),
            stream.len(),
            events.as_mut_ptr(),
            events.len(),
            text.as_mut_ptr(),
            text.len(),
            work.as_mut_ptr(),
            work.len(),
        )
    }
}

pub(crate) fn write(
    settings: SettingNumbers,
    octets: &mut [u8],
    events: &[u32],
    text: &[u32],
    work: &mut [u32],
) -> WriteReply {
    // SAFETY: as in `read`. `events` and `text`, which are only read, may overlap each other.
    unsafe {
        plumethrift_write(
            settings,
            octets.as_mut_ptr(),
            octets.len(),
            events.as_ptr(),
            events.len(),
            text.as_ptr(),
            text.len(),
            work.as_mut_ptr(),
            work.len(),
        )
    }
}

pub(crate) fn readings_of_list(
    events: &[u32],
    text: &[u32],
    stamps: &mut [u64],
    movements: &mut [i32],
) -> ReadingsReply {
    // SAFETY: as in `write`.
    unsafe {
        plumethrift_readings_of_list(
            events.as_ptr(),
            events.len(),
            text.as_ptr(),
            text.len(),
            stamps.as_mut_ptr(),
            stamps.len(),
            movements.as_mut_ptr(),
            movements.len(),
        )
    }
}

pub(crate) fn list_of_readings(
    stamps: &[u64],
    movements: &[i32],
    events: &mut [u32],
    text: &mut [u32],
) -> ListReply {
    // SAFETY: as in `read`.
    unsafe {
        plumethrift_list_of_readings(
            stamps.as_ptr(),
            stamps.len(),
            movements.as_ptr(),
            movements.len(),
            events.as_mut_ptr(),
            events.len(),
            text.as_mut_ptr(),
            text.len(),
        )
    }
}

pub(crate) fn read_readings(
    settings: SettingNumbers,
    stream: &[u8],
    stamps: &mut [u64],
    movements: &mut [i32],
    events: &mut [u32],
    text: &mut [u32],
    work: &mut [u32],
) -> ReadingsReply {
    // SAFETY: as in `read`.
    unsafe {
        plumethrift_read_readings(
            settings,
            stream.as_ptr(),
            stream.len(),
            stamps.as_mut_ptr(),
            stamps.len(),
            movements.as_mut_ptr(),
            movements.len(),
            events.as_mut_ptr(),
            events.len(),
            text.as_mut_ptr(),
            text.len(),
            work.as_mut_ptr(),
            work.len(),
        )
    }
}

pub(crate) fn write_readings(
    settings: SettingNumbers,
    octets: &mut [u8],
    stamps: &[u64],
    movements: &[i32],
    events: &mut [u32],
    text: &mut [u32],
    work: &mut [u32],
) -> WriteReply {
    // SAFETY: as in `read`.
    unsafe {
        plumethrift_write_readings(
            settings,
            octets.as_mut_ptr(),
            octets.len(),
            stamps.as_ptr(),
            stamps.len(),
            movements.as_ptr(),
            movements.len(),
            events.as_mut_ptr(),
            events.len(),
            text.as_mut_ptr(),
            text.len(),
            work.as_mut_ptr(),
            work.len(),
        )
    }
}

pub(crate) fn start(settings: SettingNumbers) -> ReceiverRecord {
    // SAFETY: the function takes any numbers, and touches no memory but its answer, which is of the
    // record's size: a test holds that.
    unsafe { plumethrift_start(settings) }
}

pub(crate) fn feed(
    receiver: &mut ReceiverRecord,
    piece: &[u8],
    held: &mut [u8],
    events: &mut [u32],
    text: &mut [u32],
    work: &mut [u32],
) -> ReadReply {
    // SAFETY: as in `read`; the record is borrowed like a slice, and may have any contents.
    unsafe {
        plumethrift_feed(
            receiver,
            piece.as_ptr(),
            piece.len(),
            held.as_mut_ptr(),
            held.len(),
            events.as_mut_ptr(),
            events.len(),
            text.as_mut_ptr(),
            text.len(),
            work.as_mut_ptr(),
            work.len(),
        )
    }
}

pub(crate) fn close(
    receiver: &mut ReceiverRecord,
    held: &mut [u8],
    events: &mut [u32],
    text: &mut [u32],
    work: &mut [u32],
) -> ReadReply {
    // SAFETY: as in `feed`.
    unsafe {
        plumethrift_close(
            receiver,
            held.as_mut_ptr(),
            held.len(),
            events.as_mut_ptr(),
            events.len(),
            text.as_mut_ptr(),
            text.len(),
            work.as_mut_ptr(),
            work.len(),
        )
    }
}

pub(crate) fn sizes() -> Sizes {
    // SAFETY: the function takes nothing, and touches no memory.
    unsafe { plumethrift_sizes() }
}

pub(crate) fn refusal_name(number: u32) -> [u8; 16] {
    // SAFETY: the function takes any number, and touches no memory.
    unsafe { plumethrift_refusal_name(number) }.text
}
