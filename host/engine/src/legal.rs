//! The legal contents of one instance, judged in a straight line.
//!
//! Every call tests a whole store, and the catalogue's lists are a slow way
//! through it. So their rules stand here once more, written out for each class;
//! the tests below hold one form against the other.
//!
//! A byte is 0 or 1 if it has no bit but the lowest, so the bytes with that
//! rule are judged by one comparison of all their bits.

use crate::catalogue::{Product, BRIDGE_SIZE, FIRST_UNI, PORT_SIZE, TP_TYPE_UNI, UNI_SIZE};

/// The TPType of a port whose TPPointer isn't judged.
const TP_TYPE_ANY: u8 = 2;

/// Whether the contents of a product's Ethernet UNIs are legal. The product is
/// asked for once, not for each of them.
pub fn are_unis_legal(product: Product, records: &[[u8; UNI_SIZE]]) -> bool {
    match product {
        Product::Small => records.iter().all(is_small_uni_legal),
        Product::Large => records.iter().all(is_large_uni_legal),
        Product::Meter => records.iter().all(is_meter_uni_legal),
    }
}

fn is_small_uni_legal(record: &[u8; UNI_SIZE]) -> bool {
    let [_, _, _, loopback, admin, operational, large_only @ ..] = *record;
    matches!(loopback, 0 | 3) && admin | operational <= 1 && large_only == [0; 9]
}

fn is_large_uni_legal(record: &[u8; UNI_SIZE]) -> bool {
    let [_, _, _, loopback, admin, operational, large_only @ ..] = *record;
    let [_, _, _, dte_dce, _, _, bridged_or_ip, arc, _] = large_only;
    matches!(loopback, 0 | 3)
        && admin | operational <= 1
        && dte_dce <= 2
        && bridged_or_ip <= 2
        && arc <= 1
}

fn is_meter_uni_legal(record: &[u8; UNI_SIZE]) -> bool {
    let [_, _, detection, loopback, admin, operational, large_only @ ..] = *record;
    detection | loopback == 0 && admin | operational <= 1 && large_only == [0; 9]
}

/// Whether the contents of a bridge's profile are legal.
pub fn is_profile_legal(record: &[u8; BRIDGE_SIZE]) -> bool {
    let [_, _, tree, learning, atm, _, _, delays @ ..] = *record;
    let [age_high, age_low, hello_high, hello_low, forward_high, forward_low, ..] = delays;
    tree | learning | atm <= 1
        && matches!(u16::from_be_bytes([age_high, age_low]), 0x0600..=0x2800)
        && matches!(u16::from_be_bytes([hello_high, hello_low]), 0x0100..=0x0A00)
        && matches!(u16::from_be_bytes([forward_high, forward_low]), 0x0400..=0x1E00)
}

/// Whether the contents of a bridge's configuration are legal: they have no
/// rule, but only Large has all of them.
pub fn is_configuration_legal(product: Product, record: &[u8; BRIDGE_SIZE]) -> bool {
    let [.., hello_high, hello_low, forward_high, forward_low] = *record;
    product == Product::Large || [hello_high, hello_low, forward_high, forward_low] == [0; 4]
}

/// Whether the contents of a port are legal. The bridge that it names may have
/// been deleted since, so that number may be any.
pub fn is_port_legal(product: Product, record: &[u8; PORT_SIZE]) -> bool {
    let [_, _, _, _, _, tp_type, tp_high, tp_low, settings @ ..] = *record;
    let [priority_high, _, cost_high, cost_low, tree, encapsulation, lan_fcs] = settings;
    let uni_index = u16::from_be_bytes([tp_high, tp_low]).wrapping_sub(FIRST_UNI);
    let is_point_legal = match tp_type {
        TP_TYPE_UNI => usize::from(uni_index) < product.unis(),
        TP_TYPE_ANY => true,
        _ => false,
    };
    let highest_lan_fcs = match product {
        Product::Small | Product::Meter => 0,
        Product::Large => 1,
    };
    is_point_legal
        && priority_high == 0
        && cost_high | cost_low != 0
        && tree | encapsulation <= 1
        && lan_fcs <= highest_lan_fcs
}

#[cfg(test)]
mod tests {
    use super::*;
    use crate::catalogue::{bad_contents, mask_of, Class, Rule, Source};

    /// Records whose contents are legal in every product that has the class.
    fn legal_records(class: Class) -> Vec<Vec<u8>> {
        let mut bridge = vec![0; BRIDGE_SIZE];
        bridge[..13].copy_from_slice(&[0, 9, 1, 1, 0, 0x80, 0, 0x14, 0, 2, 0, 0x0F, 0]);
        match class {
            Class::EthernetUni => vec![vec![0x16, 0, 0, 0, 1, 0, 0, 0, 0, 0, 0, 0, 0, 0, 0]],
            Class::PortConfiguration => vec![
                vec![0, 4, 0, 9, 1, TP_TYPE_UNI, 1, 1, 0, 128, 0, 1, 0, 1, 0],
                vec![0, 4, 0, 9, 1, TP_TYPE_ANY, 7, 7, 0, 128, 0, 1, 0, 1, 0],
            ],
            _ => vec![bridge],
        }
    }

    fn is_legal(product: Product, class: Class, record: &[u8]) -> bool {
        match class {
            Class::OntData => unreachable!("the counter has no rule"),
            Class::EthernetUni => are_unis_legal(product, &[record.try_into().unwrap()]),
            Class::BridgeProfile => is_profile_legal(record.try_into().unwrap()),
            Class::BridgeConfiguration => {
                is_configuration_legal(product, record.try_into().unwrap())
            }
            Class::PortConfiguration => is_port_legal(product, record.try_into().unwrap()),
        }
    }

    fn is_legal_by_the_lists(product: Product, class: Class, record: &[u8]) -> bool {
        let may_have_been =
            |class: Class, instance| class.is_created() || product.uni_index(instance).is_some();
        bad_contents(product, class, record, &may_have_been) == 0
    }

    /// How many records were legal, and how many weren't.
    #[derive(Default)]
    struct Tally {
        legal: usize,
        illegal: usize,
    }

    impl Tally {
        fn judge(&mut self, product: Product, class: Class, record: &[u8]) {
            let legal = is_legal(product, class, record);
            let expected = is_legal_by_the_lists(product, class, record);
            assert_eq!(legal, expected, "{product:?} {class:?} {record:?}");
            *(if legal { &mut self.legal } else { &mut self.illegal }) += 1;
        }
    }

    /// Judges a legal record with every value of these bytes in turn.
    fn judge_all(product: Product, class: Class, legal: &[u8], at: usize, size: usize) -> Tally {
        let mut tally = Tally::default();
        let mut record = legal.to_vec();
        for number in 0..=u16::MAX >> (16 - 8 * size) {
            record[at..at + size].copy_from_slice(&number.to_be_bytes()[2 - size..]);
            tally.judge(product, class, &record);
        }
        tally
    }

    #[test]
    fn every_short_content_is_judged_as_by_the_lists() {
        for (product, class) in pairs() {
            let supported = mask_of(class.attributes(product));
            for attribute in class.attributes_of_any_product() {
                let Source::Stored(offset) = attribute.source else { continue };
                if attribute.size > 2 {
                    continue;
                }
                let refuses = matches!(attribute.rule, Rule::Range(..) | Rule::Listed(_));
                for legal in legal_records(class) {
                    let tally = judge_all(product, class, &legal, offset, attribute.size);
                    assert!(tally.legal > 0);
                    let is_there = supported & attribute.bit() != 0;
                    assert!(tally.illegal > 0 || (is_there && !refuses));
                }
            }
        }
    }

    #[test]
    fn only_a_port_on_a_uni_names_one_of_the_product() {
        for product in Product::ALL.into_iter().filter(|it| it.has(Class::PortConfiguration)) {
            let [on_uni, on_any] = &legal_records(Class::PortConfiguration)[..] else { panic!() };
            let judge = |legal| judge_all(product, Class::PortConfiguration, legal, 6, 2);
            assert_eq!(judge(on_uni).legal, product.unis());
            assert_eq!(judge(on_any).illegal, 0);
        }
    }

    #[test]
    fn random_records_are_judged_as_by_the_lists() {
        let mut random = Random(1);
        for (product, class) in pairs() {
            let mut tally = Tally::default();
            for legal in legal_records(class).iter().cycle().take(4000) {
                let mut record = legal.clone();
                for _ in 0..random.below(4) {
                    let at = random.below(record.len());
                    record[at] = [0, 1, 2, 3, 0xFF, random.below(256) as u8][random.below(6)];
                }
                tally.judge(product, class, &record);
            }
            // In Large a configuration may have any contents.
            let refuses = (product, class) != (Product::Large, Class::BridgeConfiguration);
            assert!(tally.legal > 100);
            assert!(if refuses { tally.illegal > 100 } else { tally.illegal == 0 });
        }
    }

    /// The products, each with the classes that it has and uploads show.
    fn pairs() -> impl Iterator<Item = (Product, Class)> {
        Product::ALL
            .into_iter()
            .flat_map(|product| Class::UPLOADED.map(|class| (product, class)))
            .filter(|&(product, class)| product.has(class))
    }

    /// Numbers that look random and are the same in every run.
    struct Random(u64);

    impl Random {
        fn below(&mut self, bound: usize) -> usize {
            self.0 ^= self.0 << 13;
            self.0 ^= self.0 >> 7;
            self.0 ^= self.0 << 17;
            (self.0 >> 32) as usize % bound
        }
    }
}
