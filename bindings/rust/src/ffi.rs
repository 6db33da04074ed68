//! What `crates/domreth_c/src/lib.rt` exports, declared by hand. Nothing checks these declarations against it.
use std::marker::PhantomData;

pub(crate) const DONE: u8 = 0;
pub(crate) const BAD_LINE: u8 = 3;
pub(crate) const NO_ROOM: u8 = 5;
pub(crate) const OUT_OF_MEMORY: u8 = 6;

/// Bytes that are lent.
#[repr(C)]
pub(crate) struct Bytes<'a> {
    at: *const u8,
    len: usize,
    lent: PhantomData<&'a [u8]>,
}

impl<'a> From<&'a [u8]> for Bytes<'a> {
    fn from(bytes: &'a [u8]) -> Self {
        Bytes { at: bytes.as_ptr(), len: bytes.len(), lent: PhantomData }
    }
}

impl<'a> From<&'a str> for Bytes<'a> {
    fn from(text: &'a str) -> Self {
        text.as_bytes().into()
    }
}

/// A header.
#[repr(C)]
pub(crate) struct Field<'a> {
    pub(crate) name: Bytes<'a>,
    pub(crate) value: Bytes<'a>,
}

/// A request head.
#[repr(C)]
pub(crate) struct Head<'a> {
    method: Bytes<'a>,
    uri: Bytes<'a>,
    headers: *const Field<'a>,
    headers_len: usize,
    version: u8,
    lent: PhantomData<&'a [Field<'a>]>,
}

impl<'a> Head<'a> {
    pub(crate) fn new(method: &'a str, uri: &'a str, headers: &'a [Field<'a>], version: u8) -> Self {
        Head {
            method: method.into(),
            uri: uri.into(),
            headers: headers.as_ptr(),
            headers_len: headers.len(),
            version,
            lent: PhantomData,
        }
    }
}

/// An access key with its secret, and what to sign for.
#[repr(C)]
pub(crate) struct Key<'a> {
    pub(crate) access: Bytes<'a>,
    pub(crate) secret: Bytes<'a>,
    pub(crate) region: Bytes<'a>,
    pub(crate) service: Bytes<'a>,
}

/// A signing key that was derived before, and what it is for.
#[repr(C)]
pub(crate) struct DerivedKey<'a> {
    pub(crate) access: Bytes<'a>,
    pub(crate) key: Bytes<'a>,
    pub(crate) region: Bytes<'a>,
    pub(crate) service: Bytes<'a>,
}

// No pointer is null. Each is to as many bytes, or headers, as the length behind it, which are lent for the call; `output`
// is to so many bytes that nothing else reads or writes meanwhile, and so is `needed`.
unsafe extern "C" {
    pub(crate) fn domreth_abi() -> u32;

    pub(crate) fn domreth_is_proved() -> std::ffi::c_int;

    pub(crate) fn domreth_version() -> *const std::ffi::c_char;

    pub(crate) fn domreth_run(
        command: *const u8,
        command_len: usize,
        input: *const u8,
        input_len: usize,
        output: *mut u8,
        output_len: usize,
        needed: *mut usize,
    ) -> u8;

    pub(crate) fn domreth_sign(
        head: *const Head<'_>,
        key: *const Key<'_>,
        payload: *const u8,
        payload_len: usize,
        second: i64,
        output: *mut u8,
        output_len: usize,
        needed: *mut usize,
    ) -> u8;

    pub(crate) fn domreth_derive_key(
        key: *const Key<'_>,
        second: i64,
        output: *mut u8,
        output_len: usize,
        needed: *mut usize,
    ) -> u8;

    pub(crate) fn domreth_sign_with(
        head: *const Head<'_>,
        derived: *const DerivedKey<'_>,
        payload: *const u8,
        payload_len: usize,
        second: i64,
        output: *mut u8,
        output_len: usize,
        needed: *mut usize,
    ) -> u8;

    pub(crate) fn domreth_presign(
        head: *const Head<'_>,
        key: *const Key<'_>,
        expires: u32,
        second: i64,
        output: *mut u8,
        output_len: usize,
        needed: *mut usize,
    ) -> u8;

    pub(crate) fn domreth_verify(head: *const Head<'_>, key: *const Key<'_>, second: i64) -> u8;
}
