//! A text of the library, put into room that grows to what it needs.
use crate::ffi;

/// The status of a call, and the text that it answers where it is `DONE` or `BAD_LINE`. The call is made with this room
/// first, and with as much as the text needs where that is more.
pub(crate) fn text_of(room: usize, mut call: impl FnMut(&mut [u8], &mut usize) -> u8) -> (u8, Vec<u8>) {
    let mut output = vec![0; room];
    loop {
        let mut needed = 0;
        let status = call(&mut output, &mut needed);
        if status == ffi::NO_ROOM {
            output = vec![0; needed];
        } else {
            output.truncate(needed);
            return (status, output);
        }
    }
}
