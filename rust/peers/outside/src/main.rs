//! kurbo and lyon_geom beside the proved engine.

mod libraries;

use peers::{answer, Peers};

fn main() {
    answer(&Peers {
        flatten: &[("kurbo", libraries::kurbo_flatten), ("lyon", libraries::lyon_flatten)],
        nearest: &[("nearest", libraries::nearest::<false>), ("boxed", libraries::nearest::<true>)],
    });
}
