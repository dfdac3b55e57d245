//! The library under test, with every call, through its C interface.

use crate::emission::Size;
use crate::foreign::foreign;
use crate::frames::{Fields, Put, Taken};
use crate::netlist::{Answer, Level, Metering};
use crate::path::{Read, Rooms};
use crate::printing::Printing;

foreign! { <[_]>::as_ptr, <[_]>::as_mut_ptr, returned:
    probe_check => pub fn check(net: &[u32]) -> Answer;
    probe_evaluate => pub fn evaluate(
        net: &[u32], inputs: &[u8], values: &mut [u8], outputs: &mut [u8]
    ) -> Answer;
    probe_glue => pub fn glue(first: &[u32], second: &[u32], out: &mut [u32]) -> Answer;

    probe_keystream => pub fn keystream(
        instance: u32, m: u32,
        key: &[u8], indices: &[u32], whitening: &[u8], result: &mut [u8]
    ) -> Answer;
    probe_encipher => pub fn encipher(
        instance: u32, m: u32,
        key: &[u8], record: &[u8], indices: &[u32], whitening: &[u8], result: &mut [u8]
    ) -> Answer;
    probe_decipher => pub fn decipher(
        instance: u32, m: u32,
        key: &[u8], record: &[u8], indices: &[u32], whitening: &[u8], result: &mut [u8]
    ) -> Answer;
    probe_choose => pub fn choose(instance: u32, draws: &[u32], row: &mut [u32]) -> Answer;

    probe_emit_one_hot => pub fn emit_one_hot(n: u32, result: &mut [u32]) -> Answer;
    probe_emit_threshold => pub fn emit_threshold(d: u32, n: u32, result: &mut [u32]) -> Answer;
    probe_emit_decipher => pub fn emit_decipher(
        instance: u32, m: u32, indices: &[u32], whitening: &[u8], result: &mut [u32]
    ) -> Answer;
    probe_score => fn score_lists(
        instance: u32, m: u32,
        key: &[u8], record: &[u8], indices: &[u32], whitening: &[u8], scoring: &[u32],
        enciphered: &mut [u8], deciphering: &mut [u32], glued: &mut [u32],
        inputs: &mut [u8], wires: &mut [u8], scores: &mut [u8]
    ) -> Answer;

    probe_read_file => pub fn read_file(source: &[u8], result: &mut [u32]) -> Answer;
    probe_write_file => pub fn write_file(net: &[u32], result: &mut [u8]) -> Answer;
    probe_check_file => pub fn check_file(source: &[u8]) -> Answer;

    probe_append => pub fn append(
        key: &[u8], record: &[u8], iv: &[u8], file: &[u8], frame: &mut [u8]
    ) -> Answer;
    probe_append_after => pub fn append_after(
        key: &[u8], record: &[u8], iv: &[u8], last: &[u8], frame: &mut [u8]
    ) -> Answer;
    probe_read_frames => pub fn read_frames(key: &[u8], file: &[u8], records: &mut [u8]) -> Answer;
    probe_check_frames => pub fn check_frames(file: &[u8]) -> Answer;
}

foreign! { <[_]>::as_ptr, <[_]>::as_mut_ptr, returned through a pointer:
    probe_meter => pub fn meter(net: &[u32], depths: &mut [u32], levels: &mut [Level]) -> Metering;
    probe_decipher_size => pub fn decipher_size(
        instance: u32, m: u32, indices: &[u32], whitening: &[u8]
    ) -> Size;
    probe_print => pub fn print(input: &[u8], result: &mut [u8]) -> Printing;
    probe_fields => pub fn fields(bits: &[u8]) -> Taken;
    probe_bits => fn bits_of_fields(
        port: u32, admin_up: u32, link_up: u32, errors: u32, load: u32, result: &mut [u8]
    ) -> Put;
}

pub fn score(instance: u32, m: u32, read: &Read, rooms: Rooms) -> Answer {
    score_lists(
        instance,
        m,
        read.key,
        read.record,
        read.indices,
        read.whitening,
        read.scoring,
        rooms.enciphered,
        rooms.deciphering,
        rooms.glued,
        rooms.inputs,
        rooms.wires,
        rooms.scores,
    )
}

pub fn bits(fields: &Fields, result: &mut [u8]) -> Put {
    let [port, admin_up, link_up, errors, load] = *fields;
    bits_of_fields(port, admin_up, link_up, errors, load, result)
}
