//! A small reader of XML, which takes well-formed texts without processing instructions, comments or CDATA, and no others.

/// An element with its attributes, and the text right inside it or inside its title.
#[derive(Debug)]
pub struct Element {
    pub name: String,
    pub attributes: Vec<(String, String)>,
    pub text: String,
}

impl Element {
    /// The value of an attribute; an empty text where there is none.
    pub fn get(&self, name: &str) -> &str {
        self.attributes.iter().find(|(key, _)| key == name).map_or("", |(_, value)| value)
    }
}

/// The elements of a text, in the order in which they begin.
pub fn elements(text: &str) -> Vec<Element> {
    let mut elements: Vec<Element> = Vec::new();
    let mut open: Vec<usize> = Vec::new();
    let mut rest = text;
    loop {
        let (before, tag) = rest.split_once('<').unwrap_or((rest, ""));
        match open.last() {
            Some(&inside) => {
                add_text(&mut elements, inside, open.iter().nth_back(1).copied(), &unescaped(before))
            }
            None => assert!(before.trim().is_empty(), "text outside: {before}"),
        }
        if tag.is_empty() {
            break;
        }
        let (tag, after) = tag.split_once('>').expect("a tag ends");
        rest = after;
        if let Some(name) = tag.strip_prefix('/') {
            let ended = open.pop().expect("an element ends that began");
            assert_eq!(elements[ended].name, name);
            continue;
        }
        assert!(!open.is_empty() || elements.is_empty(), "there is one root");
        elements.push(element(tag.strip_suffix('/').unwrap_or(tag)));
        if !tag.ends_with('/') {
            open.push(elements.len() - 1);
        }
    }
    assert!(open.is_empty() && !elements.is_empty(), "every element ends");
    elements
}

/// Adds a text to its element, and the text of a title to what it is the title of.
fn add_text(elements: &mut [Element], inside: usize, around: Option<usize>, text: &str) {
    elements[inside].text += text.trim_matches('\n');
    if let (Some(around), "title") = (around, elements[inside].name.as_str()) {
        elements[around].text += text;
    }
}

/// The element of a tag without its brackets.
fn element(tag: &str) -> Element {
    let (name, mut rest) = tag.split_once(' ').unwrap_or((tag, ""));
    assert!(!name.is_empty() && name.chars().all(|letter| letter.is_ascii_alphabetic()), "{tag}");
    let mut attributes: Vec<(String, String)> = Vec::new();
    while !rest.is_empty() {
        let (key, after) = rest.split_once("=\"").expect("an attribute has a value");
        let (value, after) = after.split_once('"').expect("a value ends");
        assert!(key.chars().all(|letter| letter.is_ascii_alphabetic() || letter == '-'), "{tag}");
        assert!(attributes.iter().all(|(other, _)| other != key), "{key} stands twice in {tag}");
        attributes.push((key.to_owned(), unescaped(value)));
        rest = after.strip_prefix(' ').unwrap_or(after);
    }
    Element { name: name.to_owned(), attributes, text: String::new() }
}

/// A text without its escapes.
fn unescaped(text: &str) -> String {
    let mut parts = text.split('&');
    let mut plain = parts.next().unwrap_or("").to_owned();
    for part in parts {
        let (name, after) = part.split_once(';').expect("an escape ends");
        plain.push(match name {
            "amp" => '&',
            "lt" => '<',
            "gt" => '>',
            "quot" => '"',
            _ => panic!("&{name}; is not known"),
        });
        plain += after;
    }
    plain
}
