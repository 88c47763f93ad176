//! Sets of object numbers: "held as 64 bits, bit n for number n, bit 0 least significant".

use captable::Set;

#[test]
fn bit_n_is_number_n() {
    for n in 0..64 {
        let one = Set::of(&[n]);
        assert_eq!(one.bits(), 2_u64.pow(u32::from(n)));
        assert_eq!(Set::from_bits(one.bits()), one);
        assert_eq!(one.iter().collect::<Vec<u8>>(), [n]);
        for other in 0..=255 {
            assert_eq!(one.contains(other), other == n);
        }
    }
    assert_eq!(Set::of(&[10, 11]).bits(), 1024 + 2048);
}

#[test]
fn numbers_come_ascending_and_once() {
    let mut set = Set::of(&[63, 5, 0, 5]);
    assert_eq!(set.iter().collect::<Vec<u8>>(), [0, 5, 63]);
    assert_eq!((set.len(), set.iter().len()), (3, 3));
    set.remove(5);
    set.remove(6);
    set.remove(200);
    set.insert(1);
    assert_eq!(set, [0, 1, 63].into_iter().collect());
    assert_eq!(set.union(Set::of(&[1, 2])), Set::of(&[0, 1, 2, 63]));
    let all = Set::from_bits(u64::MAX);
    assert!(all.into_iter().eq(0..64));
    assert_eq!(all.len(), 64);
}

#[test]
fn an_empty_set_has_nothing() {
    assert!(Set::EMPTY.is_empty() && Set::default().is_empty());
    assert_eq!((Set::EMPTY.bits(), Set::EMPTY.len()), (0, 0));
    assert_eq!(Set::EMPTY.iter().next(), None);
    assert!(!Set::of(&[0]).is_empty());
}

#[test]
fn a_set_prints_its_numbers() {
    assert_eq!(Set::EMPTY.to_string(), "{}");
    assert_eq!(Set::of(&[2, 1, 0]).to_string(), "{0, 1, 2}");
    assert_eq!(format!("{:?}", Set::of(&[63])), "{63}");
}

#[test]
#[should_panic(expected = "numbers from 0 to 63")]
fn there_is_no_number_64() {
    let _ = Set::of(&[64]);
}
