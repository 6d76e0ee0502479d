//! The documentation of the wrapper: an example in that of every public item, and nothing that a user does not have.

use std::fs;
use std::path::Path;

/// The lines of each source file of the wrapper that has public items.
fn sources() -> Vec<(String, Vec<String>)> {
    let folder = Path::new(env!("CARGO_MANIFEST_DIR")).join("src");
    let mut sources = Vec::new();
    for file in fs::read_dir(folder).expect("the sources are there") {
        let path = file.expect("the file has a name").path();
        let text = fs::read_to_string(&path).expect("the source is text");
        let name = path.file_name().expect("the file has a name").to_string_lossy().into_owned();
        // The archive's functions are for the wrapper alone.
        if name != "library.rs" {
            sources.push((name, text.lines().map(str::to_owned).collect()));
        }
    }
    sources
}

/// Whether a line begins a public item: a function, a type or a constant.
fn is_item(line: &str) -> bool {
    let item = line.trim_start().strip_prefix("pub ");
    item.is_some_and(|item| ["fn ", "const ", "struct ", "enum "].iter().any(|word| item.starts_with(word)))
}

#[test]
fn every_public_item_has_an_example() {
    let mut items = 0;
    for (file, lines) in sources() {
        for (at, line) in lines.iter().enumerate().filter(|(_, line)| is_item(line)) {
            let above = lines[..at].iter().rev();
            let documented = above.take_while(|line| line.trim_start().starts_with(['/', '#']));
            assert!(documented.clone().any(|line| line.trim_start() == "/// ```"), "{file}: {line}");
            items += 1;
        }
    }
    assert!(items >= 45, "{items} items were found");
}
