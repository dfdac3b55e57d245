//! The four calls of the collector on the file of port records. Their answer is
//! one number, packed as the daemon's.

#![forbid(unsafe_code)]

use crate::daemon::packed;
use crate::frames;

/// Writes the frame of `record` to the front of `frame`. The lists: key 1,
/// record 2, IV 3, file 4, frame 5.
pub fn append(key: &[u8], record: &[u8], iv: &[u8], file: &[u8], frame: &mut [u8]) -> u64 {
    packed(frames::append(key, record, iv, file, frame))
}

/// The same, list 4 being the file's last frame, or empty.
pub fn append_after(key: &[u8], record: &[u8], iv: &[u8], last: &[u8], frame: &mut [u8]) -> u64 {
    packed(frames::append_after(key, record, iv, last, frame))
}

/// Writes all records of the file to the front of `records`. The lists: key 1,
/// file 2, records 3.
pub fn read(key: &[u8], file: &[u8], records: &mut [u8]) -> u64 {
    packed(frames::read(key, file, records))
}

/// Whether `file` (list 1) is one.
pub fn check(file: &[u8]) -> u64 {
    packed(frames::check(file))
}
