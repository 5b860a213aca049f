//! The soundness test: does a store encode a state, and as this engine would?

use crate::catalogue::{Class, Product, MOST_UNIS, PORT_SIZE};
use crate::legal::{are_unis_legal, is_configuration_legal, is_port_legal, is_profile_legal};
use crate::message::{check_head, number_at};
use crate::store::{Bitmaps, View};
use crate::table::{Table, PLACES, PLACE_SIZE};

/// Whether the store encodes a state. The product and length are tested before.
pub fn is_sound(store: &View) -> bool {
    is_memory_sound(store)
        && is_table_sound(&store.table())
        && is_upload_sound(store)
        && are_alarms_sound(store.product(), store.alarms())
        && is_alarm_walk_sound(store)
}

/// A command that passes drops 4 to 6 with any reply, or nothing.
fn is_memory_sound(store: &View) -> bool {
    check_head(store.remembered_head()).is_ok()
        || (is_zero(store.remembered_head()) && is_zero(store.remembered_reply()))
}

/// The table was tested before, so a frozen one with the same bytes needs no
/// test of its own.
fn is_upload_sound(store: &View) -> bool {
    let frozen = store.frozen_table();
    match store.upload_mark() {
        0 => is_zero(frozen.bytes()),
        1 => {
            frozen.counter() == 0
                && (frozen.is_same_but_for_counter(&store.table()) || is_table_sound(&frozen))
        }
        _ => false,
    }
}

fn is_alarm_walk_sound(store: &View) -> bool {
    match store.alarm_walk_mark() {
        0 => is_zero(store.frozen_alarms()),
        1 => are_alarms_sound(store.product(), store.frozen_alarms()),
        _ => false,
    }
}

/// Declared alarms, of UNIs that the product has.
fn are_alarms_sound(product: Product, bitmaps: &Bitmaps) -> bool {
    let (there, absent): (&[u8], &[u8]) = bitmaps.split_at(product.unis().min(MOST_UNIS));
    let undeclared = !Class::EthernetUni.declared_alarms();
    there.iter().all(|bitmap| bitmap & undeclared == 0) && is_zero(absent)
}

fn is_table_sound(table: &Table) -> bool {
    table.places_in_use() <= PLACES
        && is_zero(table.unused_places())
        && is_zero(table.unused_unis())
        && are_unis_legal(table.product(), table.unis())
        && are_bridges_sound(table)
        && are_ports_sound(table)
        && has_only_known_classes(table)
}

/// Meter has as many places as the others, but no class to use them.
fn has_only_known_classes(table: &Table) -> bool {
    table.product() != Product::Meter || table.places_in_use() == 0
}

/// Legal contents, by ascending numbers: the lowest that may follow is one
/// above the last, which may be more than a number of two bytes.
fn are_bridges_sound(table: &Table) -> bool {
    let product = table.product();
    let mut lowest = 0;
    for bridge in table.bridges() {
        let number = u32::from(number_at(bridge, 0));
        if number < lowest || !is_profile_legal(bridge) || !is_configuration_legal(product, bridge)
        {
            return false;
        }
        lowest = number + 1;
    }
    true
}

/// Legal contents, by ascending numbers, and zeros in what a port, which is
/// shorter than its place, leaves of it.
fn are_ports_sound(table: &Table) -> bool {
    const FILLER: usize = PLACE_SIZE - PORT_SIZE;
    let product = table.product();
    let mut lowest = 0;
    let mut filled = [0; FILLER];
    for place in table.ports() {
        let (port, filler) = place.split_first_chunk().expect("a port is shorter than its place");
        let number = u32::from(number_at(port, 0));
        if number < lowest || !is_port_legal(product, port) {
            return false;
        }
        lowest = number + 1;
        for (all, byte) in filled.iter_mut().zip(filler) {
            *all |= byte;
        }
    }
    filled == [0; FILLER]
}

/// Most of a store that isn't full is zero, so this takes many bytes at a time
/// and looks only at the end of each piece whether there was another one.
fn is_zero(bytes: &[u8]) -> bool {
    const PIECE: usize = 128;
    bytes.chunks(PIECE).all(|piece| piece.iter().fold(0, |all, &byte| all | byte) == 0)
}

#[cfg(test)]
mod tests {
    use super::*;
    use crate::catalogue::bad_contents;
    use crate::store::{Store, SIZE};
    use crate::table;
    use crate::Test::Soundness;
    use exchange::{Maker, DELETE, GET_ALL_ALARMS, SET, UPLOAD};

    const TABLE_AT: usize = SIZE - 2 * table::SIZE;

    /// The same without short cuts: by the catalogue's lists, one thing after
    /// another, and the frozen table in any case.
    fn is_sound_by_the_lists(store: &View) -> bool {
        let frozen = store.frozen_table();
        is_memory_sound(store)
            && is_table_sound_by_the_lists(&store.table())
            && match store.upload_mark() {
                0 => is_zero(frozen.bytes()),
                1 => frozen.counter() == 0 && is_table_sound_by_the_lists(&frozen),
                _ => false,
            }
            && are_alarms_sound(store.product(), store.alarms())
            && is_alarm_walk_sound(store)
    }

    fn is_table_sound_by_the_lists(table: &Table) -> bool {
        table.places_in_use() <= PLACES
            && is_zero(table.unused_places())
            && is_zero(table.unused_unis())
            && Class::UPLOADED.into_iter().all(|class| {
                let is_known = table.product().has(class) || table.count(class) == 0;
                is_known && are_instances_sound(table, class)
            })
            && table.ports().iter().all(|place| is_zero(&place[PORT_SIZE..]))
    }

    fn are_instances_sound(table: &Table, class: Class) -> bool {
        let may_have_been =
            |class: Class, instance| class.is_created() || table.has(class, instance);
        (0..table.count(class)).all(|index| {
            let record = table.record(class, index);
            let is_above =
                index == 0 || table.instance(class, index - 1) < table.instance(class, index);
            is_above && bad_contents(table.product(), class, record, &may_have_been) == 0
        })
    }

    /// A store after these commands on a fresh product.
    fn store_after(product: u8, commands: &[[u8; 48]]) -> Vec<u8> {
        let mut store = vec![0; SIZE];
        assert_eq!(crate::power_on(&mut store, product), 0);
        send(&mut store, commands);
        store
    }

    fn send(store: &mut [u8], commands: &[[u8; 48]]) {
        for command in commands {
            let mut reply = [0; 48];
            assert_eq!(crate::handle(Soundness, store, command, &mut reply), 0);
        }
    }

    fn report(store: &mut [u8], attribute: u8, content: u8) {
        let mut reply = [0; 48];
        let content = [content];
        let number =
            crate::report_attribute(Soundness, store, 11, 0x0101, attribute, &content, &mut reply);
        assert_eq!(number, 0);
    }

    /// Fresh, with a few instances, with these frozen, and with a frozen table
    /// that has become another one. The numbers of instances are neighbours, so
    /// that a changed one can be equal to another.
    fn stores(product: u8) -> [Vec<u8>; 4] {
        let mut maker = Maker::new(0);
        let mut commands = vec![];
        commands.extend((0..4).map(|index| maker.bridge(6 + index)));
        commands.extend((0..5).map(|index| maker.port(3 + index, 7)));
        let some = store_after(product, &commands);
        commands.push(maker.command(UPLOAD, 2, 0, &[]));
        let frozen = store_after(product, &commands);
        commands.push(maker.command(SET, 11, 0x0101, &[0x80, 0, 9]));
        commands.push(maker.command(DELETE, 45, 7, &[]));
        commands.push(maker.command(DELETE, 47, 6, &[]));
        [store_after(product, &[]), some, frozen, store_after(product, &commands)]
    }

    /// The same of a Meter, where only reports and walks change anything.
    fn meter_stores() -> [Vec<u8>; 4] {
        let mut maker = Maker::new(0);
        let fresh = store_after(3, &[]);
        let mut some = fresh.clone();
        report(&mut some, 2, 0x31);
        let mut frozen = some.clone();
        let walks = [UPLOAD, GET_ALL_ALARMS].map(|number| maker.command(number, 2, 0, &[]));
        send(&mut frozen, &walks);
        let mut changed = frozen.clone();
        report(&mut changed, 2, 0x32);
        report(&mut changed, 6, 1);
        [fresh, some, frozen, changed]
    }

    fn all_stores() -> impl Iterator<Item = Vec<u8>> {
        stores(1).into_iter().chain(stores(2)).chain(meter_stores())
    }

    fn judge(store: &mut [u8]) -> bool {
        let store = Store::trust(store).expect("a store with a product");
        let sound = is_sound(&store.view());
        assert_eq!(sound, is_sound_by_the_lists(&store.view()));
        sound
    }

    #[test]
    fn changed_stores_are_judged_as_by_the_lists() {
        let mut judged = [0; 2];
        for mut store in all_stores() {
            assert!(judge(&mut store));
            // The product stays. A byte of the table is also changed in both.
            for at in 1..SIZE {
                for change in [0x01, 0x02, 0x80, 0xFF] {
                    store[at] ^= change;
                    judged[usize::from(judge(&mut store))] += 1;
                    if (TABLE_AT..TABLE_AT + table::SIZE).contains(&at) {
                        store[at + table::SIZE] ^= change;
                        judged[usize::from(judge(&mut store))] += 1;
                        store[at + table::SIZE] ^= change;
                    }
                    store[at] ^= change;
                }
            }
        }
        assert!(judged.iter().all(|&count| count > 1000));
    }

    #[test]
    fn stores_of_another_product_are_judged_as_by_the_lists() {
        // Once the product is changed, a Small that has nothing but what a
        // Meter has is a Meter, and any Meter a Small. A Large is neither: its
        // UNIs begin with contents that the others don't have.
        let mut sound = vec![];
        for mut store in all_stores() {
            let product = store[0];
            for other in [1, 2, 3] {
                store[0] = other;
                if judge(&mut store) && other != product {
                    sound.push((product, other));
                }
            }
        }
        let count = |pair| sound.iter().filter(|&&other| other == pair).count();
        assert_eq!([count((1, 3)), count((3, 1))], [1, 4]);
        assert_eq!([count((2, 1)), count((2, 3))], [0, 0]);
    }

    /// How many of these values a byte of a fresh Meter's store may have.
    fn legal_values(at: usize, values: impl Iterator<Item = u8>) -> usize {
        let mut store = store_after(3, &[]);
        let legal = values.filter(|&value| {
            store[at] = value;
            judge(&mut store)
        });
        legal.count()
    }

    #[test]
    fn a_meter_has_four_attributes_of_a_uni_and_uses_no_place() {
        // The counter, the numbers of bridges and ports, the UNI, all the rest.
        let first: [usize; 9] = std::array::from_fn(|at| legal_values(TABLE_AT + at, 0..=255));
        assert_eq!(first, [256, 1, 1, 256, 256, 1, 1, 2, 2]);
        for at in first.len()..table::SIZE {
            assert_eq!(legal_values(TABLE_AT + at, [0, 1, 2, 0x80, 0xFF].into_iter()), 1);
        }
    }
}
