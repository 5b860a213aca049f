//! Create, Delete, Set, Get and MIB reset.

use super::{with_result, Outcome};
use crate::catalogue::{
    bad_contents, mask_of, Attribute, Class, Product, BRIDGE_SIZE, CONFIGURATION_DELAYS_OFFSET,
    DELAYS_SIZE, PROFILE_DELAYS_OFFSET,
};
use crate::message::{number_at, put_number, Command, Contents};
use crate::store::Store;
use crate::table::{self, PLACES};

/// The most bytes of values that a Set carries.
const SET_ROOM: usize = 30;
/// The most bytes of values that the reply to a Get shows.
const GET_ROOM: usize = 25;
/// A created instance's record begins with its number.
const NUMBER_SIZE: usize = 2;

/// A refused Create: the result and the mask of bad values.
struct CreateRefused(Outcome, u16);

/// Create: the new instance is stored whole or not at all.
pub fn create(store: &mut Store, command: &Command) -> Contents {
    match try_create(store, command) {
        Ok(()) => with_result(Outcome::Done),
        Err(CreateRefused(outcome, bad)) => {
            let mut contents = with_result(outcome);
            put_number(&mut contents, 1, bad);
            contents
        }
    }
}

fn try_create(store: &mut Store, command: &Command) -> Result<(), CreateRefused> {
    let refused = |outcome| CreateRefused(outcome, 0);
    let class = class_of(store, command, Class::is_created).map_err(refused)?;
    let table = store.table();
    if table.has(class, command.instance()) {
        return Err(refused(Outcome::Exists));
    }
    let mut record = [0; BRIDGE_SIZE];
    let record = &mut record[..table::record_size(class)];
    fill_record(record, class, command);
    let exists = |class, instance| table.has(class, instance);
    let bad = bad_contents(store.product(), class, record, &exists);
    if bad != 0 {
        return Err(CreateRefused(Outcome::BadParameter, bad));
    }
    if table.places_in_use() == PLACES {
        return Err(refused(Outcome::NoPlace));
    }
    if class == Class::BridgeProfile {
        fill_configuration(record, store.product());
    }
    store.table_mut().insert(class, command.instance(), record);
    store.count_change();
    Ok(())
}

/// The number of the instance and the values that the Create carries. All
/// attributes of created classes are set by create, so the values lie in the
/// record as they lie in the message.
fn fill_record(record: &mut [u8], class: Class, command: &Command) {
    put_number(record, 0, command.instance());
    let carried: usize =
        class.attributes_of_any_product().iter().map(|attribute| attribute.size).sum();
    record[NUMBER_SIZE..NUMBER_SIZE + carried].copy_from_slice(&command.contents()[..carried]);
}

/// The first contents of the configuration that comes with a bridge: zeros,
/// but Large copies the two delays that the Create carries.
fn fill_configuration(record: &mut [u8], product: Product) {
    if product == Product::Large {
        let delays = PROFILE_DELAYS_OFFSET..PROFILE_DELAYS_OFFSET + DELAYS_SIZE;
        record.copy_within(delays, CONFIGURATION_DELAYS_OFFSET);
    }
}

/// Delete. Ports that name a deleted bridge stay.
pub fn delete(store: &mut Store, command: &Command) -> Contents {
    with_result(try_delete(store, command).err().unwrap_or(Outcome::Done))
}

fn try_delete(store: &mut Store, command: &Command) -> Result<(), Outcome> {
    let class = class_of(store, command, Class::is_created)?;
    let index = find(store, class, command)?;
    store.table_mut().remove(class, index);
    store.count_change();
    Ok(())
}

/// A refused Set: the result, the unsupported mask and the failed mask. The
/// masks are zero unless the result is 9.
struct SetRefused {
    outcome: Outcome,
    unsupported: u16,
    failed: u16,
}

impl From<Outcome> for SetRefused {
    fn from(outcome: Outcome) -> SetRefused {
        SetRefused { outcome, unsupported: 0, failed: 0 }
    }
}

/// Set: all of the values are stored or none.
pub fn set(store: &mut Store, command: &Command) -> Contents {
    match try_set(store, command) {
        Ok(()) => with_result(Outcome::Done),
        Err(refused) => {
            let mut contents = with_result(refused.outcome);
            put_number(&mut contents, 1, refused.unsupported);
            put_number(&mut contents, 3, refused.failed);
            contents
        }
    }
}

fn try_set(store: &mut Store, command: &Command) -> Result<(), SetRefused> {
    let class = class_of(store, command, |_| store.product().takes_sets())?;
    let index = find(store, class, command)?;
    let mask = asked_mask(command)?;
    let attributes = class.attributes(store.product());
    check_writable(attributes, mask)?;
    if size_of(attributes, mask) > SET_ROOM {
        return Err(Outcome::BadParameter.into());
    }
    let values = &command.contents()[2..];
    check_values(store, class, index, mask, values)?;
    let mut table = store.table_mut();
    let record = table.record_mut(class, index);
    for (attribute, value) in named(attributes, mask, values) {
        if let Some(content) = attribute.stored_in_mut(record) {
            content.copy_from_slice(value);
        }
    }
    // A Set of the counter stores what it carries and doesn't move it further.
    if class != Class::OntData {
        store.count_change();
    }
    Ok(())
}

/// Every bit of the mask must be of an attribute that a Set may write. This is
/// asked before the values are looked at: those of unsupported attributes have
/// no known size, so what lies behind them can't be found.
fn check_writable(attributes: &[Attribute], mask: u16) -> Result<(), SetRefused> {
    let supported = mask_of(attributes);
    let writable = attributes
        .iter()
        .filter(|attribute| attribute.rights.write)
        .fold(0, |mask, attribute| mask | attribute.bit());
    if mask & !writable == 0 {
        return Ok(());
    }
    Err(SetRefused {
        outcome: Outcome::AttributeFailed,
        unsupported: mask & !supported,
        failed: mask & supported & !writable,
    })
}

/// Every value must be legal. The failed mask names all that aren't; it comes
/// with result 9, since exchanges read it with no other.
fn check_values(
    store: &Store,
    class: Class,
    index: usize,
    mask: u16,
    values: &[u8],
) -> Result<(), SetRefused> {
    let table = store.table();
    let record = table.record(class, index);
    let exists = |class, instance| table.has(class, instance);
    let bad = named(class.attributes(store.product()), mask, values)
        .filter(|(attribute, value)| !attribute.is_legal(value, record, &exists))
        .fold(0, |mask, (attribute, _)| mask | attribute.bit());
    if bad == 0 {
        return Ok(());
    }
    Err(SetRefused { outcome: Outcome::AttributeFailed, unsupported: 0, failed: bad })
}

/// Get. A refused one shows no values and its own mask as zero.
pub fn get(store: &Store, command: &Command) -> Contents {
    match try_get(store, command) {
        Ok(contents) => contents,
        Err((outcome, unsupported)) => {
            let mut contents = with_result(outcome);
            put_number(&mut contents, 28, unsupported);
            contents
        }
    }
}

fn try_get(store: &Store, command: &Command) -> Result<Contents, (Outcome, u16)> {
    let refused = |outcome| (outcome, 0);
    let class = class_of(store, command, |_| true).map_err(refused)?;
    let index = find(store, class, command).map_err(refused)?;
    let mask = asked_mask(command).map_err(refused)?;
    let attributes = class.attributes(store.product());
    let unsupported = mask & !mask_of(attributes);
    if unsupported != 0 {
        return Err((Outcome::AttributeFailed, unsupported));
    }
    if size_of(attributes, mask) > GET_ROOM {
        return Err(refused(Outcome::BadParameter));
    }
    let mut contents = with_result(Outcome::Done);
    put_number(&mut contents, 1, mask);
    let mut room = &mut contents[3..];
    for attribute in attributes.iter().filter(|attribute| mask & attribute.bit() != 0) {
        let (value, rest) = room.split_at_mut(attribute.size);
        store.table().read(class, index, attribute, value);
        room = rest;
    }
    Ok(contents)
}

/// MIB reset.
pub fn reset(store: &mut Store, command: &Command) -> Contents {
    with_result(try_reset(store, command).err().unwrap_or(Outcome::Done))
}

fn try_reset(store: &mut Store, command: &Command) -> Result<(), Outcome> {
    let class = class_of(store, command, |class| class == Class::OntData)?;
    find(store, class, command)?;
    store.reset();
    Ok(())
}

/// The class that the command names, if the product has it and the command is
/// for it.
fn class_of(
    store: &Store,
    command: &Command,
    is_for: impl Fn(Class) -> bool,
) -> Result<Class, Outcome> {
    let class = store.product().class(command.class_id()).ok_or(Outcome::UnknownClass)?;
    if is_for(class) {
        Ok(class)
    } else {
        Err(Outcome::NotSupported)
    }
}

/// The index of the instance that the command names.
fn find(store: &Store, class: Class, command: &Command) -> Result<usize, Outcome> {
    store.table().find(class, command.instance()).ok_or(Outcome::UnknownInstance)
}

/// The mask that a Set or Get carries; zero is refused.
fn asked_mask(command: &Command) -> Result<u16, Outcome> {
    match number_at(command.contents(), 0) {
        0 => Err(Outcome::BadParameter),
        mask => Ok(mask),
    }
}

/// The bytes of the values of the attributes that the mask names.
fn size_of(attributes: &[Attribute], mask: u16) -> usize {
    attributes
        .iter()
        .filter(|attribute| mask & attribute.bit() != 0)
        .map(|attribute| attribute.size)
        .sum()
}

/// The attributes that the mask names, each with its value. The values are
/// packed; there must be enough of them.
fn named<'a>(
    attributes: &'static [Attribute],
    mask: u16,
    mut values: &'a [u8],
) -> impl Iterator<Item = (&'static Attribute, &'a [u8])> {
    attributes.iter().filter(move |attribute| mask & attribute.bit() != 0).map(move |attribute| {
        let (value, rest) = values.split_at(attribute.size);
        values = rest;
        (attribute, value)
    })
}
