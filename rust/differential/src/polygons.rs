//! The drawn polygons of the covers of a leaf list, and whether a polygon holds a point, decided by its
//! edges alone.

use crate::drawing::Comparison;
use plain::record_length;

/// A polygon: x and y of each vertex, counter-clockwise, as drawing writes them.
#[derive(Debug, Clone, PartialEq, Eq)]
pub struct Polygon {
    /// The vertices.
    pub vertices: Vec<[i32; 2]>,
}

impl Polygon {
    /// The polygon that both engines draw round two boxes.
    pub fn new(drawing: &mut Comparison, first: &[i32], second: &[i32]) -> Polygon {
        let numbers = |four: &[i32]| [four[0], four[1], four[2], four[3]];
        let (count, list) = drawing.draw_into(numbers(first), numbers(second), 16);
        let count = count.expect("the boxes pass the checks");
        let vertices = list[..2 * count].chunks_exact(2).map(|point| [point[0], point[1]]).collect();
        Polygon { vertices }
    }

    /// Whether it holds the point, edges included: one vertex is that point, two are the segment between
    /// them, and more have the point to the left of every edge or on it.
    pub fn holds(&self, x: i32, y: i32) -> bool {
        let point = [x, y];
        match self.vertices[..] {
            [] => false,
            [only] => point == only,
            [u, v] => {
                let between = |i: usize| (u[i].min(v[i])..=u[i].max(v[i])).contains(&point[i]);
                turn(u, v, point) == 0 && between(0) && between(1)
            }
            _ => self.edges().all(|(u, v)| turn(u, v, point) >= 0),
        }
    }

    /// Whether the point lies on the line of an edge.
    pub fn in_line(&self, x: i32, y: i32) -> bool {
        self.edges().any(|(u, v)| turn(u, v, [x, y]) == 0)
    }

    /// The edges, each from a vertex to the next, the last to the first.
    fn edges(&self) -> impl Iterator<Item = ([i32; 2], [i32; 2])> + '_ {
        let next = self.vertices.iter().cycle().skip(1);
        self.vertices.iter().zip(next).map(|(&u, &v)| (u, v))
    }
}

/// Positive where p lies to the left of the way from u to v, negative to the right, 0 on the line. Box
/// numbers and points are at most 2^29 in size, so nothing passes 2^62.
fn turn(u: [i32; 2], v: [i32; 2], p: [i32; 2]) -> i64 {
    let way = |q: [i32; 2], i: usize| i64::from(q[i]) - i64::from(u[i]);
    way(v, 0) * way(p, 1) - way(v, 1) * way(p, 0)
}

/// The drawn polygon of each cover of each record of m pieces, by record and then by cover.
pub fn polygons(drawing: &mut Comparison, leaves: &[i32], m: u32) -> Vec<Polygon> {
    let mut all = Vec::new();
    for record in leaves.chunks_exact(record_length(m)) {
        let boxes: Vec<&[i32]> = record[2..].chunks_exact(4).collect();
        all.extend(boxes.windows(2).map(|two| Polygon::new(drawing, two[0], two[1])));
    }
    all
}

/// The record and the cover of the first polygon that holds the point, of records of m pieces.
pub fn first_holder(polygons: &[Polygon], m: u32, x: i32, y: i32) -> Option<(usize, usize)> {
    let number = polygons.iter().position(|polygon| polygon.holds(x, y))?;
    Some((number / m as usize, number % m as usize))
}

#[cfg(test)]
mod tests {
    use super::*;

    fn polygon(vertices: &[[i32; 2]]) -> Polygon {
        Polygon { vertices: vertices.to_vec() }
    }

    #[test]
    fn the_documents_hexagon() {
        let hexagon = polygon(&[[0, 0], [1, 0], [4, 3], [4, 4], [3, 4], [0, 1]]);
        for x in -2_i32..=6 {
            for y in -2_i32..=6 {
                let held = (0..=4).contains(&x) && (0..=4).contains(&y) && (x - y).abs() <= 1;
                assert_eq!(hexagon.holds(x, y), held, "({x} {y})");
            }
        }
    }

    #[test]
    fn one_vertex_and_two() {
        let segment = polygon(&[[0, 0], [4, 2]]);
        assert!(segment.holds(0, 0) && segment.holds(2, 1) && segment.holds(4, 2));
        assert!(!segment.holds(6, 3) && !segment.holds(-2, -1) && !segment.holds(2, 2));
        let point = polygon(&[[2, 1]]);
        assert!(point.holds(2, 1) && !point.holds(2, 2) && !point.holds(1, 1));
        assert!(!polygon(&[]).holds(0, 0));
    }
}
