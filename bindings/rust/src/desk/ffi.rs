//! What `crates/domreth_c` exports of a desk, declared by hand. Nothing checks these declarations against it.

pub(super) const DONE: u8 = 0;
pub(super) const OUT_OF_MEMORY: u8 = 6;
pub(super) const NO_MOMENT: u8 = 11;
pub(super) const FULL: u8 = 41;
pub(super) const LATE: u8 = 42;
pub(super) const NO_CACHE: u8 = 43;
pub(super) const NO_RULE: u8 = 44;
pub(super) const NOTHING_CACHED: u8 = 46;

/// A desk, which the library fills in and empties.
#[repr(C)]
pub(super) struct Desk {
    at: *mut u8,
}

impl Desk {
    /// One that is not open.
    pub(super) const CLOSED: Desk = Desk { at: std::ptr::null_mut() };
}

/// So many seconds after the start of 1970, and so many nanoseconds.
#[repr(C)]
#[derive(Clone, Copy, Default)]
pub(super) struct Moment {
    pub(super) second: i64,
    pub(super) nanos: i32,
}

/// A credential.
#[repr(C)]
#[derive(Clone, Copy, Default)]
pub(super) struct Ticket {
    pub(super) number: u64,
    pub(super) fresh: Moment,
    pub(super) lasts: Moment,
}

/// A reply. What its kind does not speak of is 0.
#[repr(C)]
#[derive(Clone, Copy, Default)]
pub(super) struct Reply {
    pub(super) kind: u8,
    pub(super) cause: u8,
    pub(super) wakes: bool,
    pub(super) provider: u32,
    pub(super) wake_handle: u32,
    pub(super) wake_number: u64,
    pub(super) number: u64,
    pub(super) deadline: Moment,
}

// SAFETY: the declarations fit the exports. These ask nothing of the values that they are handed, and of a desk that it
// is closed or one that they opened: its field is private, and nothing but the exports writes it. They write to what is
// lent for writing alone, and keep none of it.
unsafe extern "C" {
    pub(super) safe fn domreth_desk_open(desk: &mut Desk) -> u8;
    pub(super) safe fn domreth_desk_add_cache(desk: &mut Desk, providers: u32, number: &mut u32) -> u8;
    pub(super) safe fn domreth_desk_add_rule(desk: &mut Desk, seconds: u64, nanos: u32, number: &mut u32) -> u8;
    pub(super) safe fn domreth_desk_add_handle(desk: &mut Desk, cache: u32, rule: u32, number: &mut u32) -> u8;
    pub(super) safe fn domreth_desk_begin(
        desk: &mut Desk,
        handle: u32,
        number: u64,
        lasts: bool,
        seconds: u64,
        nanos: u32,
        reply: &mut Reply,
    ) -> u8;
    pub(super) safe fn domreth_desk_poll(
        desk: &mut Desk,
        handle: u32,
        number: u64,
        now: &Moment,
        reply: &mut Reply,
    ) -> u8;
    pub(super) safe fn domreth_desk_found(
        desk: &mut Desk,
        handle: u32,
        number: u64,
        now: &Moment,
        ticket: &Ticket,
        reply: &mut Reply,
    ) -> u8;
    pub(super) safe fn domreth_desk_missing(
        desk: &mut Desk,
        handle: u32,
        number: u64,
        now: &Moment,
        reply: &mut Reply,
    ) -> u8;
    pub(super) safe fn domreth_desk_failed(
        desk: &mut Desk,
        handle: u32,
        number: u64,
        now: &Moment,
        failure: u64,
        reply: &mut Reply,
    ) -> u8;
    pub(super) safe fn domreth_desk_accept(desk: &mut Desk, handle: u32, number: u64, reply: &mut Reply) -> u8;
    pub(super) safe fn domreth_desk_reject(
        desk: &mut Desk,
        handle: u32,
        number: u64,
        failure: u64,
        reply: &mut Reply,
    ) -> u8;
    pub(super) safe fn domreth_desk_cancel(desk: &mut Desk, handle: u32, number: u64, reply: &mut Reply) -> u8;
    pub(super) safe fn domreth_desk_cached(desk: &mut Desk, cache: u32, ticket: &mut Ticket) -> u8;
    pub(super) safe fn domreth_desk_close(desk: &mut Desk);
}
