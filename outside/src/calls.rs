//! The four calls, as every implementation here offers them. The answers are laid out as in C,
//! since the library returns them by value across the C calling convention.

/// What the search returns: the number, the line it is about, the rows written, the tries spent.
#[repr(C)]
#[derive(Clone, Copy, Debug, PartialEq, Eq)]
pub struct Found {
    pub number: u16,
    pub line: u16,
    pub rows: usize,
    pub tries: u32,
}

/// What the reader returns: the number, the line it is about, n and m.
#[repr(C)]
#[derive(Clone, Copy, Debug, PartialEq, Eq)]
pub struct Read {
    pub number: u16,
    pub line: u16,
    pub vertices: u16,
    pub lines: u16,
}

/// What the writer returns: the number, the line it is about and the byte count.
#[repr(C)]
#[derive(Clone, Copy, Debug, PartialEq, Eq)]
pub struct Written {
    pub number: u16,
    pub line: u16,
    pub count: usize,
}

/// What the check of rows returns: the number, the line it is about, and the first bad row or 0.
#[repr(C)]
#[derive(Clone, Copy, Debug, PartialEq, Eq)]
pub struct Checked {
    pub number: u16,
    pub line: u16,
    pub row: usize,
}

/// The least length of the working memory, in 16-bit numbers.
pub const MEMORY: usize = 22_528;

/// The line of every answer that is about no line.
pub const NO_LINE: u16 = 65_535;

/// Why a call is refused: the number, and the offending line, counted from 0, or `NO_LINE`.
#[derive(Clone, Copy, Debug, PartialEq, Eq)]
pub struct Refusal {
    pub number: u16,
    pub line: u16,
}

/// A refusal that is about no line.
pub fn lineless(number: u16) -> Refusal {
    Refusal { number, line: NO_LINE }
}

impl Found {
    pub fn refused(why: Refusal) -> Found {
        Found { number: why.number, line: why.line, rows: 0, tries: 0 }
    }
}

impl Read {
    pub fn refused(why: Refusal) -> Read {
        Read { number: why.number, line: why.line, vertices: 0, lines: 0 }
    }
}

impl Written {
    pub fn refused(why: Refusal) -> Written {
        Written { number: why.number, line: why.line, count: 0 }
    }
}

impl Checked {
    pub fn refused(why: Refusal) -> Checked {
        Checked { number: why.number, line: why.line, row: 0 }
    }

    pub fn accepted() -> Checked {
        Checked { number: 0, line: NO_LINE, row: 0 }
    }

    pub fn bad_row(number: u16, row: usize) -> Checked {
        Checked { number, line: NO_LINE, row }
    }
}

/// An implementation of document 01's calls, and of document 02's check of rows and offending lines.
pub trait Calls {
    fn name(&self) -> &'static str;
    fn find(&self, figure: &[u8], patch: &[u8], memory: &mut [u16], list: &mut [u16], allowance: u32) -> Found;
    fn read(&self, sheet: &[u8], kinds: &mut [u16], lines: &mut [u16]) -> Read;
    fn write(&self, kinds: &[u16], lines: &[u16], bytes: &mut [u8]) -> Written;
    fn check_rows(&self, figure: &[u8], patch: &[u8], rows: &[u16]) -> Checked;
}
