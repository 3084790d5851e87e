//! The model's short cuts against the plain meaning: try every allowed value and keep the nearest.

use tollgutter_tests::model::control::Control;
use tollgutter_tests::model::crop::Rectangle;
use tollgutter_tests::model::format::Sizes;
use tollgutter_tests::random::Random;

/// The first of the values with the least distance; values come in the order in which a tie is decided.
fn search(values: impl Iterator<Item = i64>, wanted: i64) -> i64 {
    values.min_by_key(|value| (value - wanted).abs()).expect("there is a value")
}

#[test]
fn sizes_are_nearest() {
    let mut random = Random::new(1);
    for _ in 0..300 {
        let least = 2 * random.between(1, 60) as u32;
        let step = 2 * random.between(1, 40) as u32;
        let greatest = least + step * random.below(12) as u32;
        let sizes = Sizes { least, greatest, step };
        for wanted in (0..greatest + 100).chain([u32::MAX, 1 << 31]) {
            let allowed = (least..=greatest).step_by(step as usize).map(i64::from);
            assert_eq!(sizes.nearest(wanted) as i64, search(allowed, wanted as i64));
        }
    }
}

#[test]
fn control_values_are_nearest() {
    let mut random = Random::new(2);
    for _ in 0..500 {
        let minimum = random.pick(&[i32::MIN, -10, 0, -1000, 77]);
        let step = random.between(1, 50) as i32;
        let maximum = minimum + step * random.below(20) as i32;
        let mut record = [0; 68];
        for (at, number) in [(40, minimum), (44, maximum), (48, step)] {
            record[at..at + 4].copy_from_slice(&number.to_le_bytes());
        }
        let control = Control::read(&record);
        for wanted in minimum..=maximum {
            let grid = (minimum as i64..=maximum as i64).step_by(step as usize);
            assert_eq!(control.nearest(wanted) as i64, search(grid, wanted as i64));
        }
    }
}

/// The widest grids, where sums would not fit 32 bits.
#[test]
fn wide_grids_are_nearest() {
    for (minimum, maximum, step) in
        [(i32::MIN, i32::MAX, 65_537), (i32::MIN, i32::MAX - 1, i32::MAX), (0, i32::MAX, i32::MAX)]
    {
        let mut record = [0; 68];
        for (at, number) in [(40, minimum), (44, maximum), (48, step)] {
            record[at..at + 4].copy_from_slice(&number.to_le_bytes());
        }
        let control = Control::read(&record);
        let ends = [minimum, maximum, 0, 1, -1, 1 << 30, (1 << 30) - 1, (1 << 30) + 1, -(1 << 30), i32::MAX - 1];
        for wanted in ends.into_iter().filter(|value| (minimum..=maximum).contains(value)) {
            let grid = (minimum as i64..=maximum as i64).step_by(step as usize);
            assert_eq!(control.nearest(wanted) as i64, search(grid, wanted as i64), "{minimum} {step} {wanted}");
        }
    }
}

#[test]
fn crops_are_nearest() {
    let mut random = Random::new(3);
    for _ in 0..20_000 {
        let mut number = |low: i64, high: i64| random.between(low, high) as i32;
        let bounds =
            Rectangle { left: number(-40, 40), top: number(-40, 40), width: number(1, 40), height: number(1, 40) };
        let wish =
            Rectangle { left: number(-99, 99), top: number(-99, 99), width: number(-5, 60), height: number(-5, 60) };
        let kept = wish.taken(&bounds);
        assert_eq!(kept.width as i64, search(1..=bounds.width as i64, wish.width as i64));
        assert_eq!(kept.height as i64, search(1..=bounds.height as i64, wish.height as i64));
        let places = |start: i32, size: i32, part: i32| start as i64..=(start + size - part) as i64;
        assert_eq!(kept.left as i64, search(places(bounds.left, bounds.width, kept.width), wish.left as i64));
        let nearest = search(places(bounds.top, bounds.height, kept.height), wish.top as i64);
        let even = (bounds.top as i64..=nearest).filter(|top| (top - bounds.top as i64) % 2 == 0);
        assert_eq!(Some(kept.top as i64), even.last());
        assert!(kept.lies_inside(&bounds));
    }
}
