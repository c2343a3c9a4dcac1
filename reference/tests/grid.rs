//! The grid: whole sixty-fourths and floats agree on every value of it.

use reference::grid::{bits_of, scaled, FARTHEST};

#[test]
fn every_value_of_the_grid_comes_back() {
    for number in -FARTHEST..=FARTHEST {
        assert_eq!(scaled(bits_of(number)), Some(number));
    }
    assert_eq!(scaled(0x8000_0000), Some(0));
    assert_eq!(bits_of(0), 0);
}

#[test]
fn floats_beside_the_grid_are_off_it() {
    for number in -FARTHEST..=FARTHEST {
        let value = f32::from_bits(bits_of(number));
        for beside in [value.next_up(), value.next_down()] {
            let whole = (f64::from(beside) * 64.0).fract() == 0.0;
            assert!(!whole && scaled(beside.to_bits()).is_none());
        }
    }
    for bits in [
        0x7F80_0000,
        0xFF80_0000,
        0x7FC0_0000,
        0x7F7F_FFFF,
        1,
        0x8000_0001,
    ] {
        assert_eq!(scaled(bits), None);
    }
    assert_eq!(scaled(bits_of(FARTHEST + 1)), None);
    assert_eq!(scaled(bits_of(-FARTHEST - 1)), None);
}

#[test]
fn whole_numbers_add_as_floats_do() {
    for number in (-FARTHEST..=FARTHEST).step_by(97) {
        for step in (-640..=640).step_by(13) {
            let sum = f32::from_bits(bits_of(number)) + step as f32 / 64.0;
            if (number + step).abs() <= FARTHEST && sum != 0.0 {
                assert_eq!(bits_of(number + step), sum.to_bits());
            }
        }
    }
}
