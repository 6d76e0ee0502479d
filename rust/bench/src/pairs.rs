//! The pairs of boxes that the engines draw.

/// How many pairs are drawn at once.
pub const PAIRS: usize = 4_096;

/// Two boxes, each x low, x high, y low, y high.
pub type Pair = [[i32; 4]; 2];

fn pairs(shape: fn(i32, i32) -> Pair) -> Vec<Pair> {
    (0..PAIRS as i32).map(|i| shape(i % 64, i / 64)).collect()
}

/// One box to the right of the other and above it, as on a curve: six vertices.
pub fn neighbours() -> Vec<Pair> {
    pairs(|i, j| [[i, i + 9, j, j + 7], [i + 80, i + 89, j + 40, j + 47]])
}

/// One box across the other: eight vertices.
pub fn crossing() -> Vec<Pair> {
    pairs(|i, j| [[-90 - i, 90, -5, 5 + j], [-5, 5 + i, -90, 90 + j]])
}

/// One box inside the other: four vertices.
pub fn nested() -> Vec<Pair> {
    pairs(|i, j| [[-90 - i, 90, -90, 90 + j], [-5, 5, -5, 5]])
}

/// Boxes that are single points: one or two vertices.
pub fn single() -> Vec<Pair> {
    pairs(|i, j| [[i, i, j, j], [j, j, i, i]])
}
