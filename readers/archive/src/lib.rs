//! The entries of include/vuolmaset.h, as linked. A list goes over as a pointer and a length; what an entry tells beside its number it writes to
//! words that are lent for it.
use twin::protocol::{Entries, Read, Refused};

extern "C" {
    fn vuolmaset_read(k: *const u8, kn: usize, f: *const u8, fn_: usize, r: *mut u32, rn: usize, c: *mut u32, cn: usize, a: *mut usize, b: *mut usize, d: *mut usize) -> u32;
    fn vuolmaset_pattern(k: *const u8, kn: usize, f: *const u8, fn_: usize, r: *mut u32, rn: usize, c: *mut u32, cn: usize, a: *mut usize, b: *mut usize, d: *mut usize) -> u32;
    fn vuolmaset_convert(tree: *mut u32, tn: usize, row: usize, c: *mut u32, cn: usize, a: *mut usize, b: *mut usize, d: *mut usize) -> u32;
    fn vuolmaset_three_way(k: *const u8, kn: usize, f: *const u8, fn_: usize, ts: bool, jsx: bool, place: usize, told: *mut usize) -> u32;
    fn vuolmaset_subtree(tree: *const u32, tn: usize, row: usize) -> usize;
    fn vuolmaset_precedence(kind: u8) -> u8;
    fn vuolmaset_expression_precedence(kind: u8) -> u8;
}

/// The two functions that read.
pub type Reads = unsafe extern "C" fn(*const u8, usize, *const u8, usize, *mut u32, usize, *mut u32, usize, *mut usize, *mut usize, *mut usize) -> u32;
pub const READ: Reads = vuolmaset_read;
pub const PATTERN: Reads = vuolmaset_pattern;
/// The function that converts.
pub type Converts = unsafe extern "C" fn(*mut u32, usize, usize, *mut u32, usize, *mut usize, *mut usize, *mut usize) -> u32;
pub const CONVERT: Converts = vuolmaset_convert;

pub struct Archive;

/// An answer, from what an entry returned and told.
fn answer(number: u32, told: Read) -> Result<Read, Refused> {
    match number {
        0 => Ok(told),
        _ => Err((number, told[0] as u32)),
    }
}

impl Entries for Archive {
    fn read(k: &[u8], f: &[u8], r: &mut [u32], c: &mut [u32]) -> Result<Read, Refused> {
        let [mut x, mut y, mut z] = [0; 3];
        let number = unsafe {
            vuolmaset_read(k.as_ptr(), k.len(), f.as_ptr(), f.len(), r.as_mut_ptr(), r.len(), c.as_mut_ptr(), c.len(), &mut x, &mut y, &mut z)
        };
        answer(number, [x, y, z])
    }
    fn pattern(k: &[u8], f: &[u8], r: &mut [u32], c: &mut [u32]) -> Result<Read, Refused> {
        let [mut x, mut y, mut z] = [0; 3];
        let number = unsafe {
            vuolmaset_pattern(k.as_ptr(), k.len(), f.as_ptr(), f.len(), r.as_mut_ptr(), r.len(), c.as_mut_ptr(), c.len(), &mut x, &mut y, &mut z)
        };
        answer(number, [x, y, z])
    }
    fn convert(tree: &mut [u32], row: usize, c: &mut [u32]) -> Result<Read, Refused> {
        let [mut x, mut y, mut z] = [0; 3];
        let number = unsafe { vuolmaset_convert(tree.as_mut_ptr(), tree.len(), row, c.as_mut_ptr(), c.len(), &mut x, &mut y, &mut z) };
        answer(number, [x, y, z])
    }
    fn subtree(tree: &[u32], row: usize) -> (usize, usize) {
        match unsafe { vuolmaset_subtree(tree.as_ptr(), tree.len(), row) } {
            0 => (0, 0),
            words => (6 * (row + 1) - words, words),
        }
    }
    fn three_way(k: &[u8], f: &[u8], ts: bool, jsx: bool, place: usize) -> Result<u8, Refused> {
        let mut told = 0;
        match unsafe { vuolmaset_three_way(k.as_ptr(), k.len(), f.as_ptr(), f.len(), ts, jsx, place, &mut told) } {
            0 => Ok(told as u8),
            number => Err((number, told as u32)),
        }
    }
    fn precedence(kind: u8) -> u8 {
        unsafe { vuolmaset_precedence(kind) }
    }
    fn expression_precedence(kind: u8) -> u8 {
        unsafe { vuolmaset_expression_precedence(kind) }
    }
}
