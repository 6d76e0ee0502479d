//! Exchanges worked out by hand, the same from both engines.

use differential::banding::Answer::{Accepted, Refused};
use differential::exchanging::{records_of, Comparison, Exchange};

/// Curve A of document 01, its chord, and a line on from there.
const OUTLINE: [i32; 19] = [3, 0, 0, 10, 30, 20, 30, 30, 0, 1, 30, 0, 0, 0, 1, 0, 0, 5, 5];

/// At T 44 each has one leaf.
const T: i32 = 44;

fn exchange(number: usize, curve: [i32; 13]) -> Exchange {
    Exchange { outline: OUTLINE.to_vec(), tolerance: T, m: 3, number, curve, given: 54 }
}

#[test]
fn curve_a_its_chord_and_a_line() {
    let mut comparison = Comparison::new("exchanging, examples");
    let mut list = records_of(&OUTLINE, T, 3).expect("it is accepted");
    assert_eq!(list.len(), 54);
    list.extend([-1; 40]);
    let done = |leaves| Accepted { curves: 3, leaves, nodes: 2 * leaves - 3 };
    let min = i32::MIN;
    // A chord that swings out as far as curve A has one leaf, and one twice as far has two.
    let bow = |y| [3, 30, 0, 20, y, 10, y, 0, 0, min, min, min, min];
    assert_eq!(comparison.exchange(&exchange(1, bow(-30)), &list), done(3));
    assert_eq!(comparison.exchange(&exchange(1, bow(-60)), &list), done(4));
    assert_eq!(comparison.exchange(&exchange(1, bow(-60)), &list[..72]), done(4));
    assert_eq!(comparison.exchange(&exchange(1, bow(-60)), &list[..71]), Refused(8, 4));
    // 17 of the new curve, and of the one after it, whose degree stands at 18 where it stood at 14.
    let gap = [3, 30, 1, 20, 0, 10, 0, 0, 0, min, min, min, min];
    assert_eq!(comparison.exchange(&exchange(1, gap), &list), Refused(17, 9));
    let gap = [3, 30, 0, 20, 0, 10, 0, 0, 1, min, min, min, min];
    assert_eq!(comparison.exchange(&exchange(1, gap), &list), Refused(17, 18));
    let gap = [1, 0, 0, 30, 1, min, min, min, min, min, min, min, min];
    assert_eq!(comparison.exchange(&exchange(0, gap), &list), Refused(17, 5));
    // The last curve may end anywhere.
    let last = [1, 0, 0, 9, 9, min, min, min, min, min, min, min, min];
    assert_eq!(comparison.exchange(&exchange(2, last), &list), done(3));
    assert_eq!(comparison.exchange(&exchange(3, last), &list), Refused(22, 3));
    // A degree that is none, a coordinate out of range, and a curve that stays too wide.
    assert_eq!(comparison.exchange(&exchange(1, [6; 13]), &list), Refused(2, 9));
    assert_eq!(comparison.exchange(&exchange(1, bow(1_048_577)), &list), Refused(4, 13));
    let swinging = [3, 30, 0, 20, 1_048_576, 10, -1_048_576, 0, 0, min, min, min, min];
    assert_eq!(comparison.exchange(&exchange(1, swinging), &list), Refused(7, 512 + 256));
}

/// A curve exchanged for itself changes nothing.
#[test]
fn for_itself() {
    let mut comparison = Comparison::new("exchanging a curve for itself");
    let list = records_of(&OUTLINE, T, 3).expect("it is accepted");
    for (number, at, length) in [(0, 0, 9), (1, 9, 5), (2, 14, 5)] {
        let mut curve = [i32::MAX; 13];
        curve[..length].copy_from_slice(&OUTLINE[at..at + length]);
        let answer = comparison.exchange(&exchange(number, curve), &list);
        assert_eq!(answer, Accepted { curves: 3, leaves: 3, nodes: 3 });
    }
}
