//! The library for Rust: the functions of include/yeldozhym.h over slices. A program takes this file as a module and is linked with
//! `-L native=crates/yeldozhym/out`.

// a program may use some of the functions and not the others
#![allow(dead_code)]

#[link(name = "yeldozhym", kind = "static")]
extern "C" {
    fn yeldozhym_day(input: *const u8, input_len: usize, out: *mut u8, out_len: usize) -> usize;
    fn yeldozhym_call_line(
        kind: u32,
        fields: *const u32,
        count: usize,
        out: *mut u8,
        out_len: usize,
        place: usize,
    ) -> usize;
    fn yeldozhym_put_call(
        kind: u32,
        fields: *const u32,
        count: usize,
        out: *mut u8,
        out_len: usize,
        place: usize,
    ) -> Put;
}

/// How many bytes the day's text takes. It is at the start of `out` where it fits; else `out` is as it was.
pub fn work_day(input: &[u8], out: &mut [u8]) -> usize {
    // SAFETY: two slices are not null, have as many bytes as they say, and do not overlap, since one of them is `&mut`.
    unsafe { yeldozhym_day(input.as_ptr(), input.len(), out.as_mut_ptr(), out.len()) }
}

/// The day's text.
pub fn day(input: &[u8]) -> Vec<u8> {
    let mut out = vec![0; work_day(input, &mut [])];
    work_day(input, &mut out);
    out
}

/// No line of a call is longer, its byte 10 included. It is YELDOZHYM_LONGEST_CALL of yeldozhym.h.
pub const LONGEST_CALL: usize = 68;

/// How many bytes the line of the call takes, which is in `out` from the place on. It is 0, and `out` is as it was, where that has too few
/// bytes or no kind has this number with so many fields.
pub fn write_line(kind: u32, fields: &[u32], out: &mut [u8], place: usize) -> usize {
    // SAFETY: two slices are not null, have as many elements as they say, and do not overlap, since one of them is `&mut`.
    unsafe {
        yeldozhym_call_line(
            kind,
            fields.as_ptr(),
            fields.len(),
            out.as_mut_ptr(),
            out.len(),
            place,
        )
    }
}

/// What is told of a call's line: a code, and how many bytes were written. It is yeldozhym_put of yeldozhym.h.
#[repr(C)]
#[derive(Clone, Copy, Debug, PartialEq, Eq)]
pub struct Put {
    pub code: u32,
    pub length: usize,
}

/// The same with a code: 0 and the bytes that the line takes; 20 and 0 where no kind has this number with so many fields, whatever room there
/// is; 21 and 0 where `out` has too few bytes from the place on.
pub fn put_line(kind: u32, fields: &[u32], out: &mut [u8], place: usize) -> Put {
    // SAFETY: as above, and `Put` has the layout of C.
    unsafe {
        yeldozhym_put_call(
            kind,
            fields.as_ptr(),
            fields.len(),
            out.as_mut_ptr(),
            out.len(),
            place,
        )
    }
}
