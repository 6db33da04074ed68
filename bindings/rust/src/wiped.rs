//! Secrets that leave no bytes behind in memory that is given back.
use std::sync::atomic::{Ordering, compiler_fence};

/// Writes zeros over the bytes, also where nobody reads them again.
pub(crate) fn wipe(bytes: &mut [u8]) {
    for byte in bytes {
        // SAFETY: the place is one byte that is lent to this function alone.
        unsafe { std::ptr::write_volatile(byte, 0) };
    }
    compiler_fence(Ordering::SeqCst);
}

/// Writes zeros over a text, and leaves it empty.
pub(crate) fn wipe_text(text: &mut String) {
    let mut bytes = std::mem::take(text).into_bytes();
    wipe(&mut bytes);
}

#[cfg(test)]
mod tests {
    use super::{wipe, wipe_text};

    #[test]
    fn bytes_become_zeros_and_texts_empty() {
        let mut bytes = [1, 2, 3];
        wipe(&mut bytes);
        assert_eq!(bytes, [0, 0, 0]);
        let mut text = String::from("secret");
        wipe_text(&mut text);
        assert_eq!(text, "");
    }
}
