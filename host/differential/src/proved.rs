//! The proved engine, called by its C interface: the lent bytes stand between
//! guard bytes, which no slice could say. This is the only place with unsafe
//! code.

use proved_engine::c;

use crate::guarded::Guarded;
use crate::step::Call;

/// What a call left behind.
pub struct Left {
    pub number: u8,
    pub store: Vec<u8>,
    pub reply: Vec<u8>,
}

/// Makes a call with copies of these bytes. An error says what was touched
/// that wasn't lent, or lent for reading only.
pub fn call(call: &Call, store: &[u8], reply: &[u8]) -> Result<Left, String> {
    let mut store = Guarded::new(store);
    let mut reply = Guarded::new(reply);
    let mut input = Guarded::new(call.input());
    let number = make(call, &mut store, &mut input, &mut reply);
    for (name, buffer) in [("store", &store), ("reply", &reply), ("input", &input)] {
        if !buffer.is_intact() {
            return Err(format!("guard bytes around the {name} buffer were overwritten"));
        }
    }
    if input.content() != call.input() {
        return Err("the bytes of the message or content were overwritten".into());
    }
    Ok(Left { number, store: store.content().to_vec(), reply: reply.content().to_vec() })
}

fn make(call: &Call, store: &mut Guarded, input: &mut Guarded, reply: &mut Guarded) -> u8 {
    let (store_at, store_len) = (store.pointer(), store.len());
    let (input_at, input_len) = (input.pointer().cast_const(), input.len());
    let (reply_at, reply_len) = (reply.pointer(), reply.len());
    // SAFETY: the three buffers are alive, apart from each other and at least
    // as long as is said, and no pointer is null.
    unsafe {
        match *call {
            Call::PowerOn { product, .. } => c::gwz_power_on(store_at, store_len, product),
            Call::Handle { .. } => {
                c::gwz_handle(store_at, store_len, input_at, input_len, reply_at, reply_len)
            }
            Call::ReportAttribute { class, instance, attribute, .. } => c::gwz_report_attribute(
                store_at, store_len, class, instance, attribute, input_at, input_len, reply_at,
                reply_len,
            ),
            Call::ReportAlarm { class, instance, alarm, on, .. } => c::gwz_report_alarm(
                store_at,
                store_len,
                class,
                instance,
                alarm,
                u8::from(on),
                reply_at,
                reply_len,
            ),
        }
    }
}
