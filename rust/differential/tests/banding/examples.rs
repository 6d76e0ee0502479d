//! The measured examples of document 01 that banding reaches, with three pieces, and the like with others and of
//! degrees 4 and 5.

use differential::banding::Answer::{self, Accepted, Refused};
use differential::banding::Comparison;

const CURVE_A: [i32; 9] = [3, 0, 0, 10, 30, 20, 30, 30, 0];
const STEEP: [i32; 9] = [3, 0, 0, 0, 1_048_576, 0, 1_048_576, 0, 0];

/// Of degrees 4 and 5, with second differences 0 in x and −20 in y.
const CURVE_B: [i32; 11] = [4, 0, 0, 210, 30, 420, 40, 630, 30, 840, 0];
const CURVE_C: [i32; 13] = [5, 0, 0, 168, 40, 336, 60, 504, 60, 672, 40, 840, 0];
const STEEP_QUARTIC: [i32; 11] = [4, 0, 0, 0, 1_048_576, 0, 1_048_576, 0, 1_048_576, 0, 0];

/// An outline, a tolerance, m, the answer, and the records' first numbers.
type Example<'a> = (&'a [i32], i32, u32, Answer, &'a [i32]);

#[rustfmt::skip]
const EXAMPLES: [Example; 54] = [
    (&CURVE_A, 44, 3, Accepted { curves: 1, leaves: 1, nodes: 1 },
        &[0, 1, 0, 0, 0, 38, 160, 160, 319, 363, 320, 320, 319, 363, 480, 480, 0, 38]),
    (&CURVE_A, 43, 3, Accepted { curves: 1, leaves: 2, nodes: 3 },
        &[0, 2, 0, 0, 0, 10, 80, 80, 199, 211, 160, 160, 319, 331, 240, 240, 360, 370, 0, 3]),
    (&[3, 0, 0, 10, -30, 20, -30, 30, 0], 44, 3, Accepted { curves: 1, leaves: 1, nodes: 1 },
        &[0, 1, 0, 0, -38, 0, 160, 160, -363, -319, 320, 320, -363, -319, 480, 480, -38, 0]),
    (&[2, 0, 0, 0, 18, 0, 0], 44, 3, Accepted { curves: 1, leaves: 1, nodes: 1 },
        &[0, 1, 0, 0, 0, 17, 0, 0, 127, 144, 0, 0, 127, 144, 0, 0, 0, 17]),
    (&[1, 0, 0, 0, 1], 2, 3, Accepted { curves: 1, leaves: 1, nodes: 1 },
        &[0, 1, 0, 0, 0, 0, 0, 0, 5, 6, 0, 0, 10, 11, 0, 0, 16, 16]),
    (&[1, 0, 0, 0, 1], 1, 3, Refused(1, 0), &[]),
    (&CURVE_A, 1, 3, Refused(1, 0), &[]),
    (&[], 1, 3, Refused(1, 0), &[]),
    (&[1, 0, 0, 0, 1_048_576], 2, 3, Accepted { curves: 1, leaves: 1, nodes: 1 },
        &[0, 1, 0, 0, 0, 0, 0, 0, 5_592_405, 5_592_406, 0, 0, 11_184_810, 11_184_811, 0, 0, 16_777_216, 16_777_216]),
    (&[1, 0, 0, 0, 1_048_577], 2, 3, Refused(4, 4), &[]),
    (&[1, 0, -1_048_577, 0, 0], 2, 3, Refused(4, 2), &[]),
    (&[], 44, 3, Refused(6, 0), &[]),
    (&[6, 0, 0, 0, 0, 0, 0, 0, 0, 0, 0, 0, 0, 0, 0], 44, 3, Refused(2, 0), &[]),
    (&STEEP, 2, 3, Refused(7, 256), &[]),
    (&STEEP, 1_048_576, 3, Accepted { curves: 1, leaves: 2, nodes: 3 }, &[0, 2]),
    (&CURVE_A, 360, 1, Accepted { curves: 1, leaves: 1, nodes: 1 }, &[0, 1, 0, 0, 0, 360, 480, 480, 0, 360]),
    (&CURVE_A, 359, 1, Accepted { curves: 1, leaves: 2, nodes: 3 }, &[0, 2]),
    (&CURVE_A, 94, 2, Accepted { curves: 1, leaves: 1, nodes: 1 },
        &[0, 1, 0, 0, 0, 94, 240, 240, 360, 454, 480, 480, 0, 94]),
    (&CURVE_A, 93, 2, Accepted { curves: 1, leaves: 2, nodes: 3 }, &[0, 2]),
    (&CURVE_A, 24, 4, Accepted { curves: 1, leaves: 1, nodes: 1 },
        &[0, 1, 0, 0, 0, 23, 120, 120, 269, 293, 240, 240, 360, 383, 360, 360, 269, 293, 480, 480, 0, 23]),
    (&CURVE_A, 23, 4, Accepted { curves: 1, leaves: 2, nodes: 3 }, &[0, 2]),
    (&[2, 0, 0, 0, 18, 0, 0], 6, 5, Accepted { curves: 1, leaves: 1, nodes: 1 },
        &[0, 1, 0, 0, 0, 6, 0, 0, 92, 98, 0, 0, 138, 144, 0, 0, 138, 144, 0, 0, 92, 98, 0, 0, 0, 6]),
    (&CURVE_A, 12, 6, Accepted { curves: 1, leaves: 1, nodes: 1 }, &[0, 1]),
    (&CURVE_A, 10, 7, Accepted { curves: 1, leaves: 1, nodes: 1 }, &[0, 1]),
    (&CURVE_A, 7, 8, Accepted { curves: 1, leaves: 1, nodes: 1 },
        &[0, 1, 0, 0, 0, 6, 60, 60, 157, 164, 120, 120, 269, 276, 180, 180, 337, 344, 240, 240, 360, 366,
            300, 300, 337, 344, 360, 360, 269, 276, 420, 420, 157, 164, 480, 480, 0, 6]),
    (&CURVE_A, 6, 8, Accepted { curves: 1, leaves: 2, nodes: 3 }, &[0, 2]),
    (&CURVE_A, 44, 0, Refused(18, 0), &[]),
    (&CURVE_A, 44, 9, Refused(18, 0), &[]),
    (&CURVE_A, 1, u32::MAX, Refused(18, 0), &[]),
    (&[], 44, 9, Refused(18, 0), &[]),
    (&CURVE_B, 56, 3, Accepted { curves: 1, leaves: 1, nodes: 1 },
        &[0, 1, 0, 0, 0, 56, 4480, 4480, 426, 482, 8960, 8960, 426, 482, 13440, 13440, 0, 56]),
    (&CURVE_B, 55, 3, Accepted { curves: 1, leaves: 2, nodes: 3 }, &[0, 2]),
    (&CURVE_B, 32, 4, Accepted { curves: 1, leaves: 1, nodes: 1 },
        &[0, 1, 0, 0, 0, 31, 3360, 3360, 359, 391, 6720, 6720, 480, 511, 10080, 10080, 359, 391]),
    (&CURVE_B, 21, 5, Accepted { curves: 1, leaves: 1, nodes: 1 },
        &[0, 1, 0, 0, 0, 20, 2688, 2688, 307, 327, 5376, 5376, 460, 481]),
    (&CURVE_B, 15, 6, Accepted { curves: 1, leaves: 1, nodes: 1 },
        &[0, 1, 0, 0, 0, 14, 2240, 2240, 266, 281, 4480, 4480, 426, 441, 6720, 6720, 480, 494]),
    (&CURVE_B, 11, 7, Accepted { curves: 1, leaves: 1, nodes: 1 },
        &[0, 1, 0, 0, 0, 10, 1920, 1920, 235, 246, 3840, 3840, 391, 402, 5760, 5760, 470, 481]),
    (&CURVE_B, 9, 8, Accepted { curves: 1, leaves: 1, nodes: 1 },
        &[0, 1, 0, 0, 0, 8, 1680, 1680, 209, 218, 3360, 3360, 359, 368, 5040, 5040, 449, 458, 6720, 6720, 480, 488]),
    (&CURVE_B, 8, 8, Accepted { curves: 1, leaves: 2, nodes: 3 }, &[0, 2]),
    (&CURVE_C, 95, 3, Accepted { curves: 1, leaves: 1, nodes: 1 },
        &[0, 1, 0, 0, 0, 95, 4480, 4480, 711, 806, 8960, 8960, 711, 806, 13440, 13440, 0, 95]),
    (&CURVE_C, 94, 3, Accepted { curves: 1, leaves: 2, nodes: 3 }, &[0, 2]),
    (&CURVE_C, 53, 4, Accepted { curves: 1, leaves: 1, nodes: 1 },
        &[0, 1, 0, 0, 0, 52, 3360, 3360, 599, 652, 6720, 6720, 799, 852, 10080, 10080, 599, 652]),
    (&CURVE_C, 34, 5, Accepted { curves: 1, leaves: 1, nodes: 1 },
        &[0, 1, 0, 0, 0, 33, 2688, 2688, 511, 545, 5376, 5376, 767, 801]),
    (&CURVE_C, 24, 6, Accepted { curves: 1, leaves: 1, nodes: 1 },
        &[0, 1, 0, 0, 0, 23, 2240, 2240, 444, 468, 4480, 4480, 711, 734, 6720, 6720, 799, 823]),
    (&CURVE_C, 18, 7, Accepted { curves: 1, leaves: 1, nodes: 1 },
        &[0, 1, 0, 0, 0, 17, 1920, 1920, 391, 409, 3840, 3840, 653, 670, 5760, 5760, 783, 801]),
    (&CURVE_C, 14, 8, Accepted { curves: 1, leaves: 1, nodes: 1 },
        &[0, 1, 0, 0, 0, 13, 1680, 1680, 349, 363, 3360, 3360, 599, 613, 5040, 5040, 749, 763, 6720, 6720, 799, 813]),
    (&CURVE_C, 13, 8, Accepted { curves: 1, leaves: 2, nodes: 3 }, &[0, 2]),
    (&STEEP_QUARTIC, 2, 3, Refused(7, 16), &[]),
    (&STEEP_QUARTIC, 2, 8, Refused(7, 16), &[]),
    (&CURVE_B, 56, 2, Refused(20, 0), &[]),
    (&CURVE_C, 95, 1, Refused(20, 0), &[]),
    (&CURVE_C, 1, 1, Refused(1, 0), &[]),
    (&CURVE_B, 56, 9, Refused(18, 0), &[]),
    (&[4], 44, 2, Refused(20, 0), &[]),
    (&[4], 44, 3, Refused(3, 1), &[]),
];

#[test]
fn examples() {
    let mut comparison = Comparison::new("banding, examples", 1);
    for (outline, tolerance, m, answer, records) in EXAMPLES {
        comparison.tally.outlines += 1;
        assert_eq!(comparison.band_into_every_length(outline, tolerance, m), answer);
        if let Accepted { .. } = answer {
            assert_eq!(comparison.records()[..records.len()], *records);
        }
    }
    comparison.report();
}

#[test]
fn curve_a_at_every_tolerance() {
    at_every_tolerance("banding, curve A at every tolerance to 2,000", 2, &CURVE_A);
}

#[test]
fn curve_b_at_every_tolerance() {
    at_every_tolerance("banding, curve B at every tolerance to 2,000", 3, &CURVE_B);
}

#[test]
fn curve_c_at_every_tolerance() {
    at_every_tolerance("banding, curve C at every tolerance to 2,000", 4, &CURVE_C);
}

fn at_every_tolerance(name: &'static str, seed: u64, outline: &[i32]) {
    let mut comparison = Comparison::new(name, seed);
    comparison.tally.outlines += 1;
    for tolerance in -3..=2_000 {
        for m in 0..=9 {
            comparison.band_into_every_length(outline, tolerance, m);
        }
    }
    comparison.report();
}
