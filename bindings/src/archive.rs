//! The archive's functions, as include/paneglove.h declares them, and the only unsafe code.
//!
//! Each call is sound for the same reason: a Rust slice's pointer is good for its length, `&mut` is the only way to its bytes while the call
//! runs, and the proved functions touch nothing but the slices that they are lent. The archive's functions are called as C calls them on
//! x86-64 Linux, and build.rs refuses every other target.

#[repr(C)]
pub struct Payload {
    pub bytes: [u8; 8],
}

#[repr(C)]
pub struct Taken {
    pub number: u32,
    pub slot: u32,
    pub serial: u32,
    pub left: u32,
}

#[repr(C)]
pub struct Moved {
    pub number: u32,
    pub slot: u32,
    pub packet: [u8; 16],
    pub left: u32,
}

#[repr(C)]
pub struct Read {
    pub number: u32,
    pub payload: [u8; 8],
}

#[repr(C)]
pub struct Checked {
    pub number: u32,
    pub place: u32,
}

#[repr(C)]
pub struct Found {
    pub number: u32,
    pub slot: u32,
    pub code: u32,
}

#[repr(C)]
pub struct Copied {
    pub number: u32,
    pub place: u32,
}

#[repr(C)]
pub struct Listed {
    pub number: u32,
    pub length: usize,
}

extern "C" {
    fn paneglove_clear(
        s: *mut u8,
        length: usize,
        width: u32,
        height: u32,
        depth: u32,
        profile: u32,
    ) -> u32;
    fn paneglove_take_in(
        s: *mut u8,
        length: usize,
        source: u8,
        destination: u8,
        payload: Payload,
    ) -> Taken;
    fn paneglove_make_move(s: *mut u8, length: usize, slot: u32, code: u32) -> Moved;
    fn paneglove_read_payload(s: *const u8, length: usize, slot: u32) -> Read;
    fn paneglove_full_check(s: *const u8, length: usize) -> Checked;
    fn paneglove_find(s: *const u8, length: usize) -> Found;
    fn paneglove_copy_outward(
        s: *const u8,
        length: usize,
        out: *mut u8,
        out_length: usize,
    ) -> Copied;
    fn paneglove_list(s: *const u8, length: usize, out: *mut u8, out_length: usize) -> Listed;
}

pub fn clear(s: &mut [u8], width: u32, height: u32, depth: u32, profile: u32) -> u32 {
    unsafe { paneglove_clear(s.as_mut_ptr(), s.len(), width, height, depth, profile) }
}

pub fn take_in(s: &mut [u8], source: u8, destination: u8, bytes: [u8; 8]) -> Taken {
    unsafe {
        paneglove_take_in(
            s.as_mut_ptr(),
            s.len(),
            source,
            destination,
            Payload { bytes },
        )
    }
}

pub fn make_move(s: &mut [u8], slot: u32, code: u32) -> Moved {
    unsafe { paneglove_make_move(s.as_mut_ptr(), s.len(), slot, code) }
}

pub fn read_payload(s: &[u8], slot: u32) -> Read {
    unsafe { paneglove_read_payload(s.as_ptr(), s.len(), slot) }
}

pub fn full_check(s: &[u8]) -> Checked {
    unsafe { paneglove_full_check(s.as_ptr(), s.len()) }
}

pub fn find(s: &[u8]) -> Found {
    unsafe { paneglove_find(s.as_ptr(), s.len()) }
}

pub fn copy_outward(s: &[u8], out: &mut [u8]) -> Copied {
    unsafe { paneglove_copy_outward(s.as_ptr(), s.len(), out.as_mut_ptr(), out.len()) }
}

pub fn list(s: &[u8], out: &mut [u8]) -> Listed {
    unsafe { paneglove_list(s.as_ptr(), s.len(), out.as_mut_ptr(), out.len()) }
}
