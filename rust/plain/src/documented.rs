//! The numbers of `docs/ROWS.md`, read from the page, for tests.

const PAGE: &str = include_str!("../../../docs/ROWS.md");

/// The two rows of one second difference.
#[derive(Debug, Clone, PartialEq, Eq)]
pub struct Pair {
    pub degree: usize,
    /// The place of the second difference, from 0.
    pub difference: usize,
    pub m: usize,
    pub high: Vec<i128>,
    pub low: Vec<i128>,
}

/// Every pair of rows, by degree, then by difference, then by m.
pub fn pairs() -> Vec<Pair> {
    let tables = [
        ("Degree 2", 2, 0),
        ("Degree 3, first", 3, 0),
        ("Degree 3, second", 3, 1),
        ("Degree 4, first", 4, 0),
        ("Degree 4, second", 4, 1),
        ("Degree 4, third", 4, 2),
        ("Degree 5, first", 5, 0),
        ("Degree 5, second", 5, 1),
        ("Degree 5, third", 5, 2),
        ("Degree 5, fourth", 5, 3),
    ];
    let mut pairs = Vec::new();
    for (heading, degree, difference) in tables {
        for lines in table(heading).chunks_exact(2) {
            let (m, high) = row(&lines[0], "high");
            let (again, low) = row(&lines[1], "low");
            assert_eq!(m, again);
            pairs.push(Pair { degree, difference, m, high, low });
        }
    }
    pairs
}

/// The page's G, or its allowance, of a degree with m pieces.
pub fn by_pieces(degree: usize, word: &str, m: usize) -> i128 {
    let lines = table("How the low rows were chosen");
    let line = lines.iter().find(|line| line[0] == degree.to_string() && line[1] == word);
    number(line.expect("the page has it")[m + 1])
}

/// The lines of the one table under a heading, without its head, as cells.
fn table(heading: &str) -> Vec<Vec<&'static str>> {
    let section = PAGE.split("\n## ").find(|section| section.starts_with(heading));
    let lines = section.expect("the page has the heading").lines().filter(|line| line.starts_with('|'));
    let cells = |line: &'static str| line.trim_matches('|').split('|').map(str::trim).collect();
    lines.skip(2).map(cells).collect()
}

/// The first number of a line, and those after its word.
fn row(cells: &[&str], word: &str) -> (usize, Vec<i128>) {
    assert_eq!(cells[1], word);
    let entries = cells[2..].iter().filter(|cell| !cell.is_empty());
    (number(cells[0]) as usize, entries.map(|cell| number(cell)).collect())
}

fn number(cell: &str) -> i128 {
    cell.replace('−', "-").parse().expect("a cell is a number")
}
