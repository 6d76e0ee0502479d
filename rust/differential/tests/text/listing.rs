//! The listing of document 01, damaged at every byte.

use differential::text::Comparison;
use differential::texts::LISTING;

/// Bytes to put in every place.
const BYTES: &[u8] = b"() -09+at\t\n\r\0\x80\xff";

#[test]
fn every_prefix_and_every_suffix() {
    let mut comparison = Comparison::new("texts, parts of the listing");
    for cut in 0..=LISTING.len() {
        comparison.compare(&LISTING[..cut]);
        comparison.compare(&LISTING[cut..]);
    }
    comparison.report();
}

#[test]
fn every_byte_left_out_doubled_and_changed() {
    let mut comparison = Comparison::new("texts, every byte of the listing");
    for at in 0..LISTING.len() {
        let (before, after) = (&LISTING[..at], &LISTING[at + 1..]);
        comparison.compare(&[before, after].concat());
        for byte in BYTES.iter().chain([&LISTING[at]]) {
            comparison.compare(&[before, &[*byte], after].concat());
            comparison.compare(&[before, &[*byte], &LISTING[at..]].concat());
        }
    }
    comparison.report();
}

#[test]
fn every_order_of_its_lines() {
    let mut comparison = Comparison::new("texts, lines of the listing");
    let lines: Vec<&[u8]> = LISTING.split_inclusive(|&byte| byte == b'\n').collect();
    // Up to five lines out of a tolerance, a curve, a point and no form, in every order.
    let lines = [lines[0], lines[1], lines[2], b"(point)\n"];
    for count in 0..=5 {
        for code in 0..lines.len().pow(count) {
            let chosen: Vec<&[u8]> =
                (0..count).map(|i| lines[code / lines.len().pow(i) % lines.len()]).collect();
            comparison.compare(&chosen.concat());
        }
    }
    comparison.report();
}
