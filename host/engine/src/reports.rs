//! Local reports: one attribute is written, or one alarm raised or cleared.

use crate::catalogue::{alarm_bit, Attribute, Class};
use crate::drops::Drop;
use crate::message::{
    notification, put_number, Contents, ALARM_TYPE, CHANGE_TYPE, CONTENTS_SIZE, MESSAGE_SIZE,
};
use crate::store::Store;

/// Writes an attribute. Gives the notification to send, if any.
pub fn attribute(
    store: &mut Store,
    class_id: u16,
    instance: u16,
    number: u8,
    content: &[u8],
) -> Result<Option<[u8; MESSAGE_SIZE]>, Drop> {
    let (class, index) = find(store, class_id, instance)?;
    let attribute = class
        .attributes(store.product())
        .iter()
        .find(|attribute| attribute.number == number && attribute.rights.local)
        .ok_or(Drop::NotReportable)?;
    check_content(store, class, index, attribute, content)?;
    let changed = write(store, class, index, attribute, content);
    Ok((changed && attribute.rights.notified)
        .then(|| change_notification(class, instance, attribute, content)))
}

/// Raises or clears an alarm. Gives the notification to send, if any.
pub fn alarm(
    store: &mut Store,
    class_id: u16,
    instance: u16,
    alarm: u8,
    on: bool,
) -> Result<Option<[u8; MESSAGE_SIZE]>, Drop> {
    let (class, index) = find(store, class_id, instance)?;
    let bit = alarm_bit(alarm) & class.declared_alarms();
    if bit == 0 {
        return Err(Drop::NotReportable);
    }
    // Only Ethernet UNIs declare alarms, so the index is that of a UNI.
    let bitmap = &mut store.alarms_mut()[index];
    let before = *bitmap;
    *bitmap = if on { before | bit } else { before & !bit };
    let after = *bitmap;
    if after == before {
        return Ok(None);
    }
    let mut contents = [0; CONTENTS_SIZE];
    contents[0] = after;
    contents[31] = store.next_alarm_number();
    Ok(Some(notification(ALARM_TYPE, class.number(), instance, &contents)))
}

fn find(store: &Store, class_id: u16, instance: u16) -> Result<(Class, usize), Drop> {
    let class = store.product().class(class_id).ok_or(Drop::NoSuchInstance)?;
    let index = store.table().find(class, instance).ok_or(Drop::NoSuchInstance)?;
    Ok((class, index))
}

fn check_content(
    store: &Store,
    class: Class,
    index: usize,
    attribute: &Attribute,
    content: &[u8],
) -> Result<(), Drop> {
    let table = store.table();
    let exists = |class, instance| table.has(class, instance);
    let legal = content.len() == attribute.size
        && attribute.is_legal(content, table.record(class, index), &exists);
    if legal {
        Ok(())
    } else {
        Err(Drop::BadContent)
    }
}

/// Stores the content and says whether it differs from what was there.
fn write(
    store: &mut Store,
    class: Class,
    index: usize,
    attribute: &Attribute,
    content: &[u8],
) -> bool {
    let mut table = store.table_mut();
    match attribute.stored_in_mut(table.record_mut(class, index)) {
        Some(stored) if stored != content => {
            stored.copy_from_slice(content);
            true
        }
        _ => false,
    }
}

fn change_notification(
    class: Class,
    instance: u16,
    attribute: &Attribute,
    content: &[u8],
) -> [u8; MESSAGE_SIZE] {
    let mut contents: Contents = [0; CONTENTS_SIZE];
    put_number(&mut contents, 0, attribute.bit());
    contents[2..2 + content.len()].copy_from_slice(content);
    notification(CHANGE_TYPE, class.number(), instance, &contents)
}
