//! The library of the scoring daemon and the collector, through its C
//! interface.

use crate::foreign::foreign;

/// Where a list begins: nowhere, if it is empty. C may hand one in so.
fn first(list: &[u8]) -> *const u8 {
    match list {
        [] => std::ptr::null(),
        _ => list.as_ptr(),
    }
}

/// The same of a list to write.
fn first_mut(list: &mut [u8]) -> *mut u8 {
    match list {
        [] => std::ptr::null_mut(),
        _ => list.as_mut_ptr(),
    }
}

foreign! { first, first_mut, returned:
    sallowknot_kreyvium_encipher => pub fn kreyvium_encipher(
        m: u32, key: &[u8], record: &[u8], iv: &[u8], result: &mut [u8]
    ) -> u64;
    sallowknot_check_file => pub fn check_file(source: &[u8]) -> u64;
    sallowknot_frames_append => pub fn frames_append(
        key: &[u8], record: &[u8], iv: &[u8], file: &[u8], frame: &mut [u8]
    ) -> u64;
    sallowknot_frames_append_after => pub fn frames_append_after(
        key: &[u8], record: &[u8], iv: &[u8], last: &[u8], frame: &mut [u8]
    ) -> u64;
    sallowknot_frames_read => pub fn frames_read(key: &[u8], file: &[u8], records: &mut [u8]) -> u64;
    sallowknot_frames_check => pub fn frames_check(file: &[u8]) -> u64;
}
