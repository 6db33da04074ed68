//! Which library this crate is linked with.
use crate::ffi;
use std::ffi::CStr;
use std::sync::Once;

/// The ABI that this crate declares. The library's own has to be the same.
const ABI: u32 = 1;

/// The library's version, a sum over its sources, and `proved` or `not-proved`, as three words.
///
/// ```
/// let words: Vec<_> = domreth::version().split(' ').collect();
/// assert_eq!(words.len(), 3);
/// assert_eq!(words[2] == "proved", domreth::is_proved());
/// ```
#[must_use]
pub fn version() -> &'static str {
    // SAFETY: the export hands over a text that ends in a zero and stays where it is.
    unsafe { CStr::from_ptr(ffi::domreth_version()) }.to_str().unwrap_or_default()
}

/// Whether each function of the library was proved before it was compiled. It is the word of the script that built it.
#[must_use]
pub fn is_proved() -> bool {
    // SAFETY: the export takes nothing.
    unsafe { ffi::domreth_is_proved() != 0 }
}

/// Says once, on standard error, that the library was not proved. Each way into the library calls this first.
///
/// # Panics
///
/// Where the library has another ABI: no call of it could be relied on.
pub(crate) fn look() {
    static ONCE: Once = Once::new();
    ONCE.call_once(|| {
        // SAFETY: the export takes nothing.
        let abi = unsafe { ffi::domreth_abi() };
        assert!(abi == ABI, "libdomreth has the ABI {abi}, and this crate is for {ABI}: build both from one checkout");
        if !is_proved() {
            eprintln!("domreth: this library is not proved ({}); scripts/build-domreth proves it", version());
        }
    });
}
