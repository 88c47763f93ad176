//! The random generator, on known values.

use yavrinks_tools::rng::Rng;

#[test]
fn generator_gives_the_published_splitmix64_values() {
    let mut rng = Rng::new(1234567);
    let expected: [u64; 5] = [
        6457827717110365317,
        3203168211198807973,
        9817491932198370423,
        4593380528125082431,
        16408922859458223821,
    ];
    for value in expected {
        assert_eq!(rng.bits(), value);
    }
}

#[test]
fn spans_include_both_ends() {
    let mut rng = Rng::new(5);
    let mut seen = [false; 4];
    for _ in 0..200 {
        seen[rng.between(0, 3) as usize] = true;
    }
    assert_eq!(seen, [true; 4]);
    assert_eq!(rng.byte(255, 255), 255);
}
