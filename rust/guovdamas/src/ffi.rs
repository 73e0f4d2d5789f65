//! The boundary to the static library: the only unsafe code of this crate.
//!
//! A slice passes as a pointer and a length. What the library does with them is proved: it reads and writes within them
//! alone, keeps no pointer, never unwinds, and requires nothing of what they hold. What is left to this side is that
//! they are what they say they are, and that what may be written overlaps nothing else; Rust's references say both.

use crate::lists::{Buffers, Lists, ReportLists, Table};

#[repr(C)]
pub(crate) struct Settings {
    pub(crate) minimum: u64,
    pub(crate) clockwise: bool,
    pub(crate) drop_straight: bool,
}

#[repr(C)]
pub(crate) struct Extraction {
    pub(crate) number: u32,
    pub(crate) place: usize,
    pub(crate) contours: usize,
    pub(crate) points: usize,
    pub(crate) rejected: usize,
    pub(crate) walked: usize,
    pub(crate) left_out: usize,
    pub(crate) kept_area: i64,
    pub(crate) rejected_area: i64,
}

#[repr(C)]
pub(crate) struct Binding {
    pub(crate) number: u32,
    pub(crate) place: u32,
    pub(crate) shapes: u32,
    pub(crate) dropped: u32,
}

#[repr(C)]
pub(crate) struct Record {
    pub(crate) found: u32,
    pub(crate) role: u32,
    pub(crate) owner: u32,
    pub(crate) first: u32,
    pub(crate) len: u32,
}

#[repr(C)]
pub(crate) struct Report {
    pub(crate) found: u32,
    pub(crate) area: f64,
    pub(crate) left: f64,
    pub(crate) bottom: f64,
    pub(crate) right: f64,
    pub(crate) top: f64,
}

#[repr(C)]
pub(crate) struct Reports {
    pub(crate) number: u32,
    pub(crate) place: usize,
    pub(crate) contours: usize,
    pub(crate) missing: usize,
}

#[rustfmt::skip]
unsafe extern "C" {
    fn guovdamas_extract(
        ax: *const i32, ax_len: usize, ay: *const i32, ay_len: usize,
        bx: *const i32, bx_len: usize, by: *const i32, by_len: usize,
        a_id: *const u32, a_id_len: usize, b_id: *const u32, b_id_len: usize,
        top: *const u8, top_len: usize,
        start: *const u32, start_len: usize, list: *const u32, list_len: usize,
        settings: Settings,
        state: *mut u8, state_len: usize,
        points: *mut i32, points_len: usize,
        first: *mut u32, first_len: usize, len: *mut u32, len_len: usize, kind: *mut u8, kind_len: usize,
    ) -> Extraction;

    fn guovdamas_bind(
        points: *const i32, points_len: usize,
        first: *const u32, first_len: usize, len: *const u32, len_len: usize, kind: *const u8, kind_len: usize,
        clockwise: bool,
        owner: *mut u16, owner_len: usize,
    ) -> Binding;

    fn guovdamas_lookup(
        points: *const i32, points_len: usize,
        first: *const u32, first_len: usize, len: *const u32, len_len: usize, kind: *const u8, kind_len: usize,
        owner: *const u16, owner_len: usize,
        contour: usize,
    ) -> Record;

    fn guovdamas_report(
        points: *const i32, points_len: usize,
        first: *const u32, first_len: usize, len: *const u32, len_len: usize, kind: *const u8, kind_len: usize,
        owner: *const u16, owner_len: usize,
        contour: usize,
    ) -> Report;

    fn guovdamas_report_all(
        points: *const i32, points_len: usize,
        first: *const u32, first_len: usize, len: *const u32, len_len: usize, kind: *const u8, kind_len: usize,
        owner: *const u16, owner_len: usize,
        area: *mut f64, area_len: usize,
        left: *mut f64, left_len: usize, bottom: *mut f64, bottom_len: usize,
        right: *mut f64, right_len: usize, top: *mut f64, top_len: usize,
    ) -> Reports;
}

#[rustfmt::skip]
pub(crate) fn extract(lists: Lists<'_>, settings: Settings, lent: &mut Buffers<'_>) -> Extraction {
    let Lists { ax, ay, bx, by, a_id, b_id, top, start, list } = lists;
    let Buffers { state, points, first, len, kind } = lent;
    // SAFETY: each pointer comes with its own slice's length and is valid for the call; the five that are written
    // through are exclusive references, so they overlap nothing that is passed.
    unsafe {
        guovdamas_extract(
            ax.as_ptr(), ax.len(), ay.as_ptr(), ay.len(),
            bx.as_ptr(), bx.len(), by.as_ptr(), by.len(),
            a_id.as_ptr(), a_id.len(), b_id.as_ptr(), b_id.len(),
            top.as_ptr(), top.len(),
            start.as_ptr(), start.len(), list.as_ptr(), list.len(),
            settings,
            state.as_mut_ptr(), state.len(),
            points.as_mut_ptr(), points.len(),
            first.as_mut_ptr(), first.len(), len.as_mut_ptr(), len.len(), kind.as_mut_ptr(), kind.len(),
        )
    }
}

#[rustfmt::skip]
pub(crate) fn bind(table: Table<'_>, clockwise: bool, owner: &mut [u16]) -> Binding {
    let Table { points, first, len, kind } = table;
    // SAFETY: as above; `owner` is the exclusive reference.
    unsafe {
        guovdamas_bind(
            points.as_ptr(), points.len(),
            first.as_ptr(), first.len(), len.as_ptr(), len.len(), kind.as_ptr(), kind.len(),
            clockwise,
            owner.as_mut_ptr(), owner.len(),
        )
    }
}

#[rustfmt::skip]
pub(crate) fn lookup(table: Table<'_>, owner: &[u16], contour: usize) -> Record {
    let Table { points, first, len, kind } = table;
    // SAFETY: each pointer comes with its own slice's length and is valid for the call; nothing is written.
    unsafe {
        guovdamas_lookup(
            points.as_ptr(), points.len(),
            first.as_ptr(), first.len(), len.as_ptr(), len.len(), kind.as_ptr(), kind.len(),
            owner.as_ptr(), owner.len(),
            contour,
        )
    }
}

#[rustfmt::skip]
pub(crate) fn report(table: Table<'_>, owner: &[u16], contour: usize) -> Report {
    let Table { points, first, len, kind } = table;
    // SAFETY: as of a lookup.
    unsafe {
        guovdamas_report(
            points.as_ptr(), points.len(),
            first.as_ptr(), first.len(), len.as_ptr(), len.len(), kind.as_ptr(), kind.len(),
            owner.as_ptr(), owner.len(),
            contour,
        )
    }
}

#[rustfmt::skip]
pub(crate) fn report_all(table: Table<'_>, owner: &[u16], lent: &mut ReportLists<'_>) -> Reports {
    let Table { points, first, len, kind } = table;
    let ReportLists { area, left, bottom, right, top } = lent;
    // SAFETY: as of extraction; the five lists are the exclusive references.
    unsafe {
        guovdamas_report_all(
            points.as_ptr(), points.len(),
            first.as_ptr(), first.len(), len.as_ptr(), len.len(), kind.as_ptr(), kind.len(),
            owner.as_ptr(), owner.len(),
            area.as_mut_ptr(), area.len(),
            left.as_mut_ptr(), left.len(), bottom.as_mut_ptr(), bottom.len(),
            right.as_mut_ptr(), right.len(), top.as_mut_ptr(), top.len(),
        )
    }
}
