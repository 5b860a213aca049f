//! The proved engine, through the C interface of its static library.

#![warn(missing_docs)]

/// The five functions, as `include/gwezhelin.h` declares them.
///
/// A caller of these keeps what the header asks for: pointers that aren't
/// null, lengths that are true, areas that don't overlap.
pub mod c {
    #![allow(missing_docs)]

    extern "C" {
        pub fn gwz_store_size() -> usize;
        pub fn gwz_power_on(store: *mut u8, store_len: usize, product: u8) -> u8;
        pub fn gwz_handle(
            store: *mut u8,
            store_len: usize,
            message: *const u8,
            message_len: usize,
            reply: *mut u8,
            reply_len: usize,
        ) -> u8;
        pub fn gwz_report_attribute(
            store: *mut u8,
            store_len: usize,
            class_id: u16,
            instance: u16,
            attribute: u8,
            content: *const u8,
            content_len: usize,
            reply: *mut u8,
            reply_len: usize,
        ) -> u8;
        pub fn gwz_report_alarm(
            store: *mut u8,
            store_len: usize,
            class_id: u16,
            instance: u16,
            alarm: u8,
            on: u8,
            reply: *mut u8,
            reply_len: usize,
        ) -> u8;
    }
}

// A slice is never null, its length is true, and what is borrowed for writing
// overlaps nothing: so these are safe for every argument.

/// The length of a store.
pub fn store_size() -> usize {
    // SAFETY: the function takes nothing and only returns a number.
    unsafe { c::gwz_store_size() }
}

/// Writes the fresh state of a product (1 Small, 2 Large, 3 Meter) into the
/// store.
pub fn power_on(store: &mut [u8], product: u8) -> u8 {
    // SAFETY: the pointer and the length are a slice's.
    unsafe { c::gwz_power_on(store.as_mut_ptr(), store.len(), product) }
}

/// Answers one message from the exchange.
pub fn handle(store: &mut [u8], message: &[u8], reply: &mut [u8]) -> u8 {
    // SAFETY: each pointer and the length behind it are a slice's.
    unsafe {
        c::gwz_handle(
            store.as_mut_ptr(),
            store.len(),
            message.as_ptr(),
            message.len(),
            reply.as_mut_ptr(),
            reply.len(),
        )
    }
}

/// Writes one attribute that local reports may write.
pub fn report_attribute(
    store: &mut [u8],
    class_id: u16,
    instance: u16,
    attribute: u8,
    content: &[u8],
    reply: &mut [u8],
) -> u8 {
    // SAFETY: each pointer and the length behind it are a slice's.
    unsafe {
        c::gwz_report_attribute(
            store.as_mut_ptr(),
            store.len(),
            class_id,
            instance,
            attribute,
            content.as_ptr(),
            content.len(),
            reply.as_mut_ptr(),
            reply.len(),
        )
    }
}

/// Raises or clears one alarm.
pub fn report_alarm(
    store: &mut [u8],
    class_id: u16,
    instance: u16,
    alarm: u8,
    on: bool,
    reply: &mut [u8],
) -> u8 {
    // SAFETY: each pointer and the length behind it are a slice's.
    unsafe {
        c::gwz_report_alarm(
            store.as_mut_ptr(),
            store.len(),
            class_id,
            instance,
            alarm,
            u8::from(on),
            reply.as_mut_ptr(),
            reply.len(),
        )
    }
}
