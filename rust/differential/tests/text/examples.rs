//! The texts of examples/text with their kept answers.

use differential::text::Comparison;
use std::fs;
use std::path::{Path, PathBuf};

/// The examples with a name that ends so.
fn examples(ending: &str) -> Vec<PathBuf> {
    let folder = Path::new(env!("CARGO_MANIFEST_DIR")).join("../../examples/text");
    let entries =
        fs::read_dir(folder).expect("the examples are there").map(|entry| entry.expect("a file").path());
    let mut found: Vec<PathBuf> =
        entries.filter(|path| path.extension().is_some_and(|e| e == ending)).collect();
    found.sort();
    found
}

#[test]
fn every_example_has_its_answer() {
    let texts = examples("in");
    assert!(texts.len() >= 60);
    let answers: Vec<PathBuf> = texts.iter().map(|path| path.with_extension("out")).collect();
    assert_eq!(answers, examples("out"), "each text has an answer, and each answer a text");
    let mut comparison = Comparison::new("texts, examples");
    for (text, answer) in texts.iter().zip(answers) {
        let name = text.file_name().expect("a file has a name").to_string_lossy();
        let (text, answer) = (fs::read(text).expect("a text"), fs::read(answer).expect("an answer"));
        assert_eq!(
            plain::text::answer(&text).escape_ascii().to_string(),
            answer.escape_ascii().to_string(),
            "{name}: the plain engine"
        );
        comparison.compare(&text);
    }
    comparison.report();
}
