//! The steps of a run, and how they are written down: as lines that can be
//! read back, each with its meaning in words behind a `#`.

use std::fmt::{self, Write};

/// How long a lent store is, beside the length that the engine asks for. The
/// two engines ask for different lengths.
#[derive(Clone, Copy, Debug, PartialEq, Eq)]
pub enum Lent {
    /// As long, and so many bytes longer.
    Longer(usize),
    /// So many bytes shorter, down to none.
    Shorter(usize),
}

impl Lent {
    pub const EXACTLY: Lent = Lent::Longer(0);

    pub fn length(self, size: usize) -> usize {
        match self {
            Lent::Longer(by) => size + by,
            Lent::Shorter(by) => size.saturating_sub(by),
        }
    }
}

/// One call of an entry.
#[derive(Clone, Debug, PartialEq, Eq)]
pub enum Call {
    PowerOn {
        store: Lent,
        product: u8,
    },
    Handle {
        store: Lent,
        reply: usize,
        message: Vec<u8>,
    },
    ReportAttribute {
        store: Lent,
        reply: usize,
        class: u16,
        instance: u16,
        attribute: u8,
        content: Vec<u8>,
    },
    ReportAlarm {
        store: Lent,
        reply: usize,
        class: u16,
        instance: u16,
        alarm: u8,
        on: bool,
    },
}

impl Call {
    pub fn power_on(product: u8) -> Call {
        Call::PowerOn { store: Lent::EXACTLY, product }
    }

    pub fn handle(message: &[u8]) -> Call {
        Call::Handle { store: Lent::EXACTLY, reply: 48, message: message.to_vec() }
    }

    pub fn report_attribute(class: u16, instance: u16, attribute: u8, content: &[u8]) -> Call {
        Call::ReportAttribute {
            store: Lent::EXACTLY,
            reply: 48,
            class,
            instance,
            attribute,
            content: content.to_vec(),
        }
    }

    pub fn report_alarm(class: u16, instance: u16, alarm: u8, on: bool) -> Call {
        Call::ReportAlarm { store: Lent::EXACTLY, reply: 48, class, instance, alarm, on }
    }

    /// The same call with other lent sizes.
    pub fn lending(mut self, lent: Lent, room: usize) -> Call {
        match &mut self {
            Call::PowerOn { store, .. } => *store = lent,
            Call::Handle { store, reply, .. }
            | Call::ReportAttribute { store, reply, .. }
            | Call::ReportAlarm { store, reply, .. } => {
                *store = lent;
                *reply = room;
            }
        }
        self
    }

    pub fn store(&self) -> Lent {
        match *self {
            Call::PowerOn { store, .. }
            | Call::Handle { store, .. }
            | Call::ReportAttribute { store, .. }
            | Call::ReportAlarm { store, .. } => store,
        }
    }

    /// The length of the reply buffer; power-on is lent none.
    pub fn reply(&self) -> usize {
        match *self {
            Call::PowerOn { .. } => 0,
            Call::Handle { reply, .. }
            | Call::ReportAttribute { reply, .. }
            | Call::ReportAlarm { reply, .. } => reply,
        }
    }

    /// The bytes that are lent for reading.
    pub fn input(&self) -> &[u8] {
        match self {
            Call::Handle { message, .. } => message,
            Call::ReportAttribute { content, .. } => content,
            Call::PowerOn { .. } | Call::ReportAlarm { .. } => &[],
        }
    }
}

/// One step of a run.
#[derive(Clone, Debug, PartialEq, Eq)]
pub enum Step {
    /// A call of both engines.
    Call(Call),
    /// A byte of the proved engine's store is changed. From here on only the
    /// proved engine is called, each time with two copies of its store.
    Damage { at: usize, xor: u8 },
    /// The proved engine's store is changed as a whole; else as `Damage`.
    Replace { bytes: Vec<u8> },
    /// A second run begins. If it ends in the same state as the first one, the
    /// stores must have the same bytes.
    Other,
}

impl From<Call> for Step {
    fn from(call: Call) -> Step {
        Step::Call(call)
    }
}

impl fmt::Display for Step {
    fn fmt(&self, out: &mut fmt::Formatter) -> fmt::Result {
        match self {
            Step::Call(call) => write!(out, "{call}"),
            Step::Damage { at, xor } => write!(out, "damage {at} {xor:02X}"),
            Step::Replace { bytes } => write!(out, "replace {}", hex(bytes)),
            Step::Other => write!(out, "other"),
        }
    }
}

impl fmt::Display for Call {
    fn fmt(&self, out: &mut fmt::Formatter) -> fmt::Result {
        match self {
            Call::PowerOn { store, product } => write!(out, "power-on {store} {product}"),
            Call::Handle { store, reply, message } => {
                write!(out, "handle {store} {reply} {}", hex(message))
            }
            Call::ReportAttribute { store, reply, class, instance, attribute, content } => write!(
                out,
                "report-attribute {store} {reply} {class} {instance} {attribute} {}",
                hex(content)
            ),
            Call::ReportAlarm { store, reply, class, instance, alarm, on } => write!(
                out,
                "report-alarm {store} {reply} {class} {instance} {alarm} {}",
                u8::from(*on)
            ),
        }
    }
}

impl fmt::Display for Lent {
    fn fmt(&self, out: &mut fmt::Formatter) -> fmt::Result {
        match self {
            Lent::Longer(by) => write!(out, "+{by}"),
            Lent::Shorter(by) => write!(out, "-{by}"),
        }
    }
}

/// Bytes in hex, a dash for none.
pub fn hex(bytes: &[u8]) -> String {
    if bytes.is_empty() {
        return "-".into();
    }
    let mut text = String::with_capacity(2 * bytes.len());
    for byte in bytes {
        write!(text, "{byte:02X}").expect("writing to a string doesn't fail");
    }
    text
}

fn from_hex(text: &str) -> Option<Vec<u8>> {
    if text == "-" {
        return Some(Vec::new());
    }
    if text.len() & 1 == 1 || !text.is_ascii() {
        return None;
    }
    (0..text.len()).step_by(2).map(|at| u8::from_str_radix(&text[at..at + 2], 16).ok()).collect()
}

fn parse_lent(text: &str) -> Option<Lent> {
    let by = text.get(1..)?.parse().ok()?;
    match text.as_bytes()[0] {
        b'+' => Some(Lent::Longer(by)),
        b'-' => Some(Lent::Shorter(by)),
        _ => None,
    }
}

/// Reads a line back; `None` if it isn't a step.
pub fn parse(line: &str) -> Option<Step> {
    let words: Vec<&str> = line.split('#').next()?.split_whitespace().collect();
    Some(match words[..] {
        ["power-on", store, product] => {
            Call::PowerOn { store: parse_lent(store)?, product: product.parse().ok()? }.into()
        }
        ["handle", store, reply, message] => Call::Handle {
            store: parse_lent(store)?,
            reply: reply.parse().ok()?,
            message: from_hex(message)?,
        }
        .into(),
        ["report-attribute", store, reply, class, instance, attribute, content] => {
            Call::ReportAttribute {
                store: parse_lent(store)?,
                reply: reply.parse().ok()?,
                class: class.parse().ok()?,
                instance: instance.parse().ok()?,
                attribute: attribute.parse().ok()?,
                content: from_hex(content)?,
            }
            .into()
        }
        ["report-alarm", store, reply, class, instance, alarm, on] => Call::ReportAlarm {
            store: parse_lent(store)?,
            reply: reply.parse().ok()?,
            class: class.parse().ok()?,
            instance: instance.parse().ok()?,
            alarm: alarm.parse().ok()?,
            on: on == "1",
        }
        .into(),
        ["damage", at, xor] => {
            Step::Damage { at: at.parse().ok()?, xor: u8::from_str_radix(xor, 16).ok()? }
        }
        ["replace", bytes] => Step::Replace { bytes: from_hex(bytes)? },
        ["other"] => Step::Other,
        _ => return None,
    })
}

/// The step in words.
pub fn in_words(step: &Step) -> String {
    match step {
        Step::Call(Call::PowerOn { product, .. }) => {
            let name = match product {
                1 => "Small",
                2 => "Large",
                3 => "Meter",
                _ => "no product",
            };
            format!("power on {name}")
        }
        Step::Call(Call::Handle { message, .. }) => message_in_words(message),
        Step::Call(Call::ReportAttribute { class, instance, attribute, .. }) => {
            format!("report of class {class}, instance {instance:#06X}, attribute {attribute}")
        }
        Step::Call(Call::ReportAlarm { class, instance, alarm, on, .. }) => {
            let what = if *on { "raised" } else { "cleared" };
            format!("report of class {class}, instance {instance:#06X}, alarm {alarm} {what}")
        }
        Step::Damage { .. } => "a byte of the proved engine's store is changed".into(),
        Step::Replace { .. } => "the proved engine's store is replaced".into(),
        Step::Other => "the second run begins, from new stores".into(),
    }
}

fn message_in_words(message: &[u8]) -> String {
    if message.len() < 8 {
        return format!("{} bytes of a message", message.len());
    }
    let class = u16::from_be_bytes([message[4], message[5]]);
    let instance = u16::from_be_bytes([message[6], message[7]]);
    format!("{}, class {class}, instance {instance:#06X}", message_name(message[2]))
}

/// The name of a message by its type byte.
pub fn message_name(kind: u8) -> String {
    if kind & 0xE0 != 0x40 {
        return format!("no command (type {kind:#04X})");
    }
    match kind & 0x1F {
        4 => "Create".into(),
        6 => "Delete".into(),
        8 => "Set".into(),
        9 => "Get".into(),
        11 => "Get all alarms".into(),
        12 => "Get all alarms next".into(),
        13 => "MIB upload".into(),
        14 => "MIB upload next".into(),
        15 => "MIB reset".into(),
        number => format!("message {number}"),
    }
}

/// What an entry returned, in words.
pub fn outcome_in_words(number: u8) -> String {
    match number {
        0 => "answered".into(),
        255 => "quiet".into(),
        number => format!("drop {number}"),
    }
}
