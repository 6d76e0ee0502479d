//! Pictures: well-formed XML, with every cover, box and point in it, each of the right class.

mod common;
mod xml;

use common::{absent, contour, contour_on, written};
use contour_band::Band;
use std::fs;
use xml::Element;

/// The picture that a command draws, as a file's text.
fn drawn(name: &str, arguments: &[&str], text: &str) -> String {
    let file = absent(name);
    let svg = ["--svg", file.to_str().expect("the name is text")];
    let ended = contour_on(&[arguments, &svg].concat(), text);
    assert!(ended.err.is_empty(), "{ended:?}");
    fs::read_to_string(file).expect("the picture is written")
}

/// The elements of a class, in order.
fn of_class<'a>(elements: &'a [Element], class: &'a str) -> Vec<&'a Element> {
    let has_class = |element: &&Element| element.get("class").split(' ').any(|name| name == class);
    elements.iter().filter(has_class).collect()
}

/// The corner that the places of a drawing are counted from.
fn origin(elements: &[Element]) -> [i32; 2] {
    let numbers: Vec<i32> = numbers(of_class(elements, "drawing")[0].get("data-origin"));
    [numbers[0], numbers[1]]
}

fn numbers<T: std::str::FromStr>(text: &str) -> Vec<T> {
    let parts = text.split([' ', ',']).filter(|part| !part.is_empty());
    parts.map(|part| part.parse().ok().expect("a number stands there")).collect()
}

/// The vertices of a polygon, in sixteenths.
fn vertices(polygon: &Element, [left, bottom]: [i32; 2]) -> Vec<[i32; 2]> {
    let numbers: Vec<i32> = numbers(polygon.get("points"));
    numbers.chunks_exact(2).map(|place| [place[0] + left, place[1] + bottom]).collect()
}

const OUTLINE: [i32; 26] =
    [3, 0, 0, 10, 30, 20, 30, 30, 0, 1, 30, 0, 30, -20, 2, 30, -20, 15, -32, 0, -20, 1, 0, -20, 0, 0];

#[test]
fn every_cover_and_box_is_there() {
    let picture = drawn("boxes.svg", &["band", "examples/outline.txt", "--boxes"], "");
    let elements = xml::elements(&picture);
    let origin = origin(&elements);
    let band = Band::new(&OUTLINE, 12, 3).expect("the outline is accepted");
    let covers: Vec<_> =
        of_class(&elements, "cover").iter().map(|polygon| vertices(polygon, origin)).collect();
    assert_eq!(covers, band.covers().map(|cover| cover.vertices).collect::<Vec<_>>());
    let boxes: Vec<_> =
        of_class(&elements, "box").iter().filter(|element| element.name == "polygon").copied().collect();
    let corners = band
        .leaves()
        .flat_map(|leaf| leaf.boxes)
        .map(|b| vec![[b.x.low, b.y.low], [b.x.high, b.y.low], [b.x.high, b.y.high], [b.x.low, b.y.high]]);
    assert!(boxes.iter().map(|polygon| vertices(polygon, origin)).eq(corners));
    let leaves = of_class(&elements, "leaf");
    let colours: Vec<&str> = leaves.iter().map(|leaf| leaf.get("class")).collect();
    assert_eq!(colours, ["leaf even", "leaf odd", "leaf even", "leaf odd", "leaf even"]);
    let without = xml::elements(&drawn("without.svg", &["band", "examples/outline.txt"], ""));
    assert!(of_class(&without, "box").is_empty());
}

#[test]
fn every_command_draws_the_band() {
    let band = drawn("band.svg", &["band", "examples/curve-a.txt"], "");
    for (name, leaves) in [("foretell", None), ("quote", None), ("tightest", Some("--leaves=1"))] {
        let arguments: Vec<&str> = [name, "examples/curve-a.txt"].into_iter().chain(leaves).collect();
        assert_eq!(drawn(&format!("{name}.svg"), &arguments, ""), band, "{name}");
    }
}

#[test]
fn every_point_is_there_with_its_judgement() {
    let picture = drawn("points.svg", &["inspect", "examples/outline.txt", "examples/points.txt"], "");
    let elements = xml::elements(&picture);
    let [left, bottom] = origin(&elements);
    let on: Vec<[i32; 2]> = of_class(&elements, "on")
        .iter()
        .filter(|element| element.get("class").starts_with("point"))
        .map(|disc| [left + numbers::<i32>(disc.get("cx"))[0], bottom + numbers::<i32>(disc.get("cy"))[0]])
        .collect();
    assert_eq!(on, [[240, 363], [240, 364], [0, 0], [480, -160], [240, -416]]);
    let off: Vec<&Element> =
        of_class(&elements, "point").into_iter().filter(|point| point.get("class").contains("off")).collect();
    let titles: Vec<&str> = off.iter().map(|point| point.text.as_str()).collect();
    let said = ["(481 -160) off", "(240 -380) off", "(-1 -320) off", "(536870912 -536870912) off"];
    assert_eq!(titles, said);
    for (cross, [x, y]) in off.iter().zip([[481, -160], [240, -380], [-1, -320]]) {
        let path: Vec<f64> = numbers(&cross.get("d").replace(['M', 'L'], " "));
        let middle =
            [f64::from(left) + (path[0] + path[2]) / 2.0, f64::from(bottom) + (path[1] + path[3]) / 2.0];
        assert!(
            (middle[0] - f64::from(x)).abs() < 0.01 && (middle[1] - f64::from(y)).abs() < 0.01,
            "{middle:?}"
        );
    }
    // One lies beyond the picture, and two are refused.
    let classes: Vec<&str> = off.iter().map(|point| point.get("class")).collect();
    assert_eq!(classes, ["point off", "point off", "point off", "point off beyond"]);
    assert!(picture.contains("Points on the band: 5. Points off it: 4. Points refused, and not drawn: 2."));
}

#[test]
fn outlines_are_bezier_paths_or_polylines() {
    let path = |name, arguments: &[&str], text| {
        let picture = drawn(name, arguments, text);
        let elements = xml::elements(&picture);
        let [left, bottom] = origin(&elements);
        let path = of_class(&elements, "outline")[0].get("d").to_owned();
        (path, left, bottom, picture.contains("as polylines of 64 lines a curve"))
    };
    let (d, left, bottom, fine) = path("bezier.svg", &["band", "examples/outline.txt"], "");
    let place = |[x, y]: [i32; 2]| format!("{} {}", 16 * x - left, 16 * y - bottom);
    let [a, b, c, d1, e, f, g] =
        [[0, 0], [10, 30], [20, 30], [30, 0], [30, -20], [15, -32], [0, -20]].map(place);
    assert_eq!(d, format!("M{a}C{b} {c} {d1}L{e}Q{f} {g}L{a}"));
    assert!(!fine);
    let (d, _, _, fine) = path("quintic.svg", &["band", "examples/quintic.txt"], "");
    assert!(fine && d.matches('L').count() == 2 * 64 && !d.contains(['Q', 'C']), "{d}");
    let (d, _, _, fine) = path("spline.svg", &["band", "examples/spline.txt"], "");
    assert!(fine && d.matches('L').count() == 4 * 64, "{d}");
}

#[test]
fn a_picture_has_a_title_a_scale_and_a_legend() {
    let picture = drawn("words.svg", &["inspect", "examples/outline.txt", "examples/points.txt"], "");
    let elements = xml::elements(&picture);
    assert_eq!(elements[0].name, "svg");
    assert_eq!((elements[0].get("role"), elements[0].get("aria-labelledby")), ("img", "title description"));
    let text = |id| &elements.iter().find(|element| element.get("id") == id).expect("it is there").text;
    assert_eq!(text("title"), "Contour band of examples/outline.txt");
    assert!(
        text("description").starts_with("Curves: 4. Tolerance: 12 sixteenths of a stage unit. Leaves: 5,")
    );
    let words: Vec<&str> = elements
        .iter()
        .filter(|element| element.name == "text")
        .map(|element| element.text.as_str())
        .collect();
    assert_eq!(
        words[..4],
        [
            "10 stage units",
            "outline",
            "covers; neighbouring leaves differ in colour",
            "points on the band: 5"
        ]
    );
    // The bar is as long as ten units of the drawing.
    let scale: Vec<f64> = {
        let transform = of_class(&elements, "drawing")[0].get("transform");
        numbers(transform.split_once("scale(").expect("there is a scale").1.trim_end_matches(')'))
    };
    let bar = of_class(&elements, "bar")[0].get("d");
    let end: f64 = bar
        .split_once('H')
        .and_then(|(_, rest)| rest.split_once('M'))
        .expect("the bar ends")
        .0
        .parse()
        .unwrap();
    assert!((end - 24.0 - 160.0 * scale[0]).abs() < 0.01, "{bar}");
}

#[test]
fn names_and_sizes_of_every_kind_are_drawn() {
    let awkward = written("a <b> & \"c\".txt", "(tolerance 44)\n(curve (0 0) (0 0))\n");
    let picture = drawn("awkward.svg", &["band", awkward.to_str().expect("the name is text")], "");
    let elements = xml::elements(&picture);
    assert!(elements
        .iter()
        .any(|element| element.name == "title" && element.text.ends_with("a <b> & \"c\".txt")));
    for (name, text) in [
        ("point", "(tolerance 2)\n(curve (7 7) (7 7))\n"),
        ("unit", "(tolerance 2)\n(curve (0 0) (0 1))\n"),
        ("whole", "(tolerance 1048576)\n(curve (-1048576 -1048576) (1048576 1048576))\n"),
        ("flat", "(tolerance 1048576)\n(curve (-1048576 5) (1048576 5))\n"),
    ] {
        let elements = xml::elements(&drawn(&format!("{name}.svg"), &["band", "-"], text));
        assert_eq!(of_class(&elements, "cover").len(), 3, "{name}");
        assert!(elements.iter().any(|element| element.name == "text" && element.text.contains("stage unit")));
    }
}

/// docs/curve-a.svg, which README.md shows, is what the command draws.
#[test]
fn the_kept_picture_is_what_is_drawn() {
    let arguments = ["inspect", "examples/curve-a.txt", "examples/curve-a.points.txt", "--boxes"];
    let kept = fs::read_to_string("../../docs/curve-a.svg").unwrap_or_default();
    let again = format!("contour {} --svg docs/curve-a.svg", arguments.join(" "));
    assert!(
        drawn("curve-a.svg", &arguments, "") == kept,
        "draw it at the root of the repository by: {again}"
    );
    assert_eq!(contour(&arguments[..3]).status, Some(1));
    let readme = fs::read_to_string("../../README.md").expect("README.md is there");
    assert!(readme.contains("](docs/curve-a.svg)"));
}
