// page.rs: the journal page of a disk, by the library, and held against the model's. Disk and buffer go as pointer and length;
// references give all that is asked of a caller.

use card_tests::page::{line_at, page, Line};

extern "C" {
    fn rev_d_page_line(d: *const u8, dn: usize, i: usize, out: *mut u8, on: usize) -> u8;
    fn rev_d_page_lines(d: *const u8, dn: usize) -> usize;
}

/// How many lines the page of a disk has.
pub fn line_count(disk: &[u8]) -> usize {
    unsafe { rev_d_page_lines(disk.as_ptr(), disk.len()) }
}

/// Lays line `i` of a disk's page into a lent buffer of 65 bytes; a buffer of another length gives 1 and stays as it was.
pub fn lay_line(disk: &[u8], i: usize, out: &mut [u8]) -> u8 {
    unsafe { rev_d_page_line(disk.as_ptr(), disk.len(), i, out.as_mut_ptr(), out.len()) }
}

/// The model's page of a disk, held against every line that the library lays, two past the last, and the farthest.
pub fn compared(disk: &[u8]) -> Vec<Line> {
    let right = page(disk);
    assert_eq!(line_count(disk), right.len());
    for i in (0..right.len() + 2).chain([usize::MAX]) {
        let (mut out, line) = ([0xA5; 65], line_at(&right, i));
        assert_eq!(lay_line(disk, i, &mut out), 0);
        assert!(out == line, "line {i} is '{}', the model's '{}'", out.escape_ascii(), line.escape_ascii());
    }
    right
}
