//! A safe wrapper over the static library. A slice crosses as its pointer and then its length; the
//! answers come back by value. The library writes only through the two (or one) `&mut` slices of a
//! call, within their lengths, and keeps no pointer: so it is proved, and so the slices here allow.

use outside::calls::{Calls, Checked, Found, Read, Written};

#[link(name = "exports", kind = "static")]
extern "C" {
    fn gelquorist_find(
        figure: *const u8,
        figure_length: usize,
        patch: *const u8,
        patch_length: usize,
        memory: *mut u16,
        memory_length: usize,
        list: *mut u16,
        list_length: usize,
        allowance: u32,
    ) -> Found;
    fn gelquorist_read(
        sheet: *const u8,
        sheet_length: usize,
        kinds: *mut u16,
        kinds_length: usize,
        lines: *mut u16,
        lines_length: usize,
    ) -> Read;
    fn gelquorist_write(
        kinds: *const u16,
        kinds_length: usize,
        lines: *const u16,
        lines_length: usize,
        bytes: *mut u8,
        bytes_length: usize,
    ) -> Written;
    fn gelquorist_check_rows(
        figure: *const u8,
        figure_length: usize,
        patch: *const u8,
        patch_length: usize,
        rows: *const u16,
        rows_length: usize,
    ) -> Checked;
}

/// The search: every place of the figure in the patch, as rows in the list.
pub fn find(figure: &[u8], patch: &[u8], memory: &mut [u16], list: &mut [u16], allowance: u32) -> Found {
    // Each pointer is valid for its length, and the two `&mut` slices overlap nothing.
    unsafe {
        gelquorist_find(
            figure.as_ptr(),
            figure.len(),
            patch.as_ptr(),
            patch.len(),
            memory.as_mut_ptr(),
            memory.len(),
            list.as_mut_ptr(),
            list.len(),
            allowance,
        )
    }
}

/// The reader: a sheet's kinds and lines.
pub fn read(sheet: &[u8], kinds: &mut [u16], lines: &mut [u16]) -> Read {
    // As for `find`.
    unsafe { gelquorist_read(sheet.as_ptr(), sheet.len(), kinds.as_mut_ptr(), kinds.len(), lines.as_mut_ptr(), lines.len()) }
}

/// The writer: the sheet of kinds and lines.
pub fn write(kinds: &[u16], lines: &[u16], bytes: &mut [u8]) -> Written {
    // As for `find`.
    unsafe { gelquorist_write(kinds.as_ptr(), kinds.len(), lines.as_ptr(), lines.len(), bytes.as_mut_ptr(), bytes.len()) }
}

/// The check of rows that someone else made: whether each is a place and no two are equal. It writes
/// nothing.
pub fn check_rows(figure: &[u8], patch: &[u8], rows: &[u16]) -> Checked {
    // Each pointer is valid for its length, and the call only reads.
    unsafe { gelquorist_check_rows(figure.as_ptr(), figure.len(), patch.as_ptr(), patch.len(), rows.as_ptr(), rows.len()) }
}

/// The library as an implementation.
pub struct Library;

impl Calls for Library {
    fn name(&self) -> &'static str {
        "library"
    }

    fn find(&self, figure: &[u8], patch: &[u8], memory: &mut [u16], list: &mut [u16], allowance: u32) -> Found {
        find(figure, patch, memory, list, allowance)
    }

    fn read(&self, sheet: &[u8], kinds: &mut [u16], lines: &mut [u16]) -> Read {
        read(sheet, kinds, lines)
    }

    fn write(&self, kinds: &[u16], lines: &[u16], bytes: &mut [u8]) -> Written {
        write(kinds, lines, bytes)
    }

    fn check_rows(&self, figure: &[u8], patch: &[u8], rows: &[u16]) -> Checked {
        check_rows(figure, patch, rows)
    }
}
