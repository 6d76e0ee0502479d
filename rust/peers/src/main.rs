//! The rules of `baseline` beside the proved engine.

use peers::{answer, baseline, Peers};

fn main() {
    answer(&Peers {
        flatten: &[("even", baseline::even), ("parabola", baseline::parabola)],
        nearest: &[("newton", baseline::nearest::<false>), ("boxed", baseline::nearest::<true>)],
    });
}
