//! Charges: the edges of a metre, the limits, the order of refusals.

use hemokatu::{Charge, ChargeRefusal, RoadOnPath, Tariff};

const RISING: Tariff = Tariff {
    cents: [1, 2, 3, 4, 5, 6, 7, 8],
};

fn total(tariff: Tariff, frc: u8, length_m: f64) -> Result<u64, ChargeRefusal> {
    let charged = tariff.charge(&[RoadOnPath { frc, length_m }]);
    charged.map(|charge: Charge| charge.total)
}

#[test]
fn a_length_is_rounded_up_to_the_metre() {
    let started = [
        (0.0, 0),
        (f64::from_bits(1), 1),
        (f64::MIN_POSITIVE, 1),
        (1.0, 1),
        (f64::from_bits(1f64.to_bits() + 1), 2),
        (9_999_999.5, 10_000_000),
        (10_000_000.0, 10_000_000),
    ];
    for (length_m, metres) in started {
        assert_eq!(total(RISING, 0, length_m), Ok(metres), "{length_m}");
        assert_eq!(total(RISING, 7, length_m), Ok(8 * metres), "{length_m}");
    }
}

#[test]
fn values_out_of_range_are_refused() {
    let above = f64::from_bits(10_000_000f64.to_bits() + 1);
    for length_m in [-0.0, -1.0, above, f64::INFINITY, f64::NAN, -f64::NAN] {
        assert_eq!(total(RISING, 0, length_m), Err(ChargeRefusal::Value));
    }
    assert_eq!(total(RISING, 8, 1.0), Err(ChargeRefusal::Value));
    for class in 0..8 {
        let mut tariff = RISING;
        tariff.cents[class] = 1_000_000;
        assert!(tariff.charge(&[]).is_ok());
        tariff.cents[class] = 1_000_001;
        assert_eq!(tariff.charge(&[]), Err(ChargeRefusal::Value));
    }
}

#[test]
fn the_largest_charge_fits() {
    let tariff = Tariff {
        cents: [1_000_000; 8],
    };
    let classes: Vec<u8> = (0..300_000).map(|i| (i % 8) as u8).collect();
    let charge = tariff.charge_lists(&classes, &vec![1e7; 300_000]).unwrap();
    assert_eq!(charge.total, 3_000_000_000_000_000_000);
    assert_eq!(charge.amounts, [charge.total / 8; 8]);
}

#[test]
fn counts_are_looked_at_first() {
    let too_dear = Tariff {
        cents: [1_000_001; 8],
    };
    let counts = Err(ChargeRefusal::Counts);
    assert_eq!(too_dear.charge_lists(&[9], &[]), counts);
    assert_eq!(too_dear.charge_lists(&[], &[-1.0]), counts);
    let classes = vec![8; 300_001];
    let lengths_m = vec![1.0; 300_001];
    assert_eq!(too_dear.charge_lists(&classes, &lengths_m), counts);
    assert_eq!(
        RISING.charge_lists(&classes[1..], &lengths_m[1..]),
        Err(ChargeRefusal::Value)
    );
    assert_eq!(ChargeRefusal::Counts.number(), 2);
    assert_eq!(ChargeRefusal::Value.number(), 4);
}
