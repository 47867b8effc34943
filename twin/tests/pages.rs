//! Code on the pages for users is quoted from the proved program `example`, or in C from `cuelink/example.c`, word for word, and the files that the
//! pages name are there; the README is short, and docs/ARCHITECTURE.md has every crate under its heading; the tables and pictures of
//! docs/RECOVERY.md are what the programs print, but for the long runs.

use std::fs;
use std::path::Path;

use twin::end::Params;
use twin::random::turns::{measured, RUNS};
use twin::recovery::house;
use twin::recovery::judge::CLAIMS;
use twin::recovery::tally::suppositions;
use twin::waiting;

const IN_RATTLE: [&str; 2] = ["docs/PROGRAMS.md", "docs/INTEGRATION.md"];
const IN_C: [&str; 2] = ["README.md", "docs/INTEGRATION.md"];
const PAGES: [&str; 6] = [
    "README.md",
    "docs/ARCHITECTURE.md",
    "docs/CHANGES.md",
    "docs/INTEGRATION.md",
    "docs/PROGRAMS.md",
    "docs/REFERENCE.md",
];
/// "An entrance": the README has at most so many bytes.
const ENTRANCE: usize = 9_000;

fn text(file: &str) -> String {
    let path = Path::new(env!("CARGO_MANIFEST_DIR")).join("..").join(file);
    fs::read_to_string(&path).unwrap_or_else(|e| panic!("{file}: {e}"))
}

/// The pieces between ```rust, or another language, and ```.
fn quotes<'a>(page: &'a str, language: &str) -> Vec<&'a str> {
    page.split(&format!("```{language}\n"))
        .skip(1)
        .map(|rest| rest.split("```").next().unwrap_or(rest))
        .collect()
}

/// Every piece in this language on these pages is a piece of the program, and each page has one.
fn quoted(pages: &[&str], language: &str, program: &str) {
    let code = text(program);
    for file in pages {
        let page = text(file);
        let quotes = quotes(&page, language);
        assert!(!quotes.is_empty(), "{file} quotes nothing of {program}");
        for quote in quotes {
            assert!(
                code.contains(quote),
                "{file}: not a piece of {program}:\n{quote}"
            );
        }
    }
}

#[test]
fn code_is_quoted_word_for_word() {
    quoted(&IN_RATTLE, "rust", "crates/example/src/main.rt");
}

#[test]
fn code_in_c_is_quoted_word_for_word() {
    quoted(&IN_C, "c", "cuelink/example.c");
}

/// A word like docs/NAME.md, wherever it stands on a page.
fn named(page: &str) -> Vec<&str> {
    page.split(|c: char| !(c.is_ascii_alphanumeric() || "/._-".contains(c)))
        .map(|word| word.trim_end_matches('.'))
        .filter(|word| {
            word.starts_with("docs/") && (word.ends_with(".md") || word.ends_with(".svg"))
        })
        .collect()
}

#[test]
fn named_pages_are_there() {
    for file in PAGES {
        for page in named(&text(file)) {
            text(page);
        }
    }
}

#[test]
fn the_readme_is_an_entrance() {
    let bytes = text("README.md").len();
    assert!(bytes <= ENTRANCE, "README.md has {bytes} bytes");
}

/// The crates of a text under their headings, in its order: `heading` and `name` give what a line of it is.
fn layers<'a>(
    page: &'a str,
    heading: impl Fn(&'a str) -> Option<&'a str>,
    name: impl Fn(&'a str) -> Option<&'a str>,
) -> Vec<(&'a str, &'a str)> {
    let mut under = "";
    let mut found = Vec::new();
    for line in page.lines() {
        if let Some(words) = heading(line) {
            under = words;
        } else if let Some(crate_name) = name(line) {
            found.push((under, crate_name));
        }
    }
    found
}

#[test]
fn the_layers_are_those_of_crates_txt() {
    let listed = text("crates.txt");
    let listed = layers(
        &listed,
        |line| line.strip_prefix("# ---- "),
        // (a word `staticlib` may stand after a crate's name)
        |line| line.split_once(':')?.0.split(' ').next().filter(|name| !name.starts_with('#')),
    );
    let page = text("docs/ARCHITECTURE.md");
    let page = page
        .split("\n## Layers\n")
        .nth(1)
        .and_then(|rest| rest.split("\n### Beside the crates\n").next())
        .expect("docs/ARCHITECTURE.md has its layers");
    let shown = layers(
        page,
        |line| line.strip_prefix("### "),
        |line| line.strip_prefix("- `")?.split('`').next(),
    );
    assert_eq!(shown, listed);
}

#[test]
fn the_bounds_are_as_printed() {
    assert!(text("docs/RECOVERY.md").contains(&waiting::table()));
    assert_eq!(text("docs/waiting.svg"), waiting::picture());
    // The clocks of the computed run `FourRounds` of the crate cases, whose round 1 is set at 32.
    let clocks = [1, 2, 3].map(|k| 32 + waiting::bound(&Params::STANDARD, 40, k));
    assert_eq!(clocks, [712, 2072, 4792]);
}

#[test]
fn the_turns_are_as_measured() {
    let (tables, late) = measured(RUNS);
    assert_eq!(late, 0, "a round was set later than the bound");
    assert!(text("docs/RECOVERY.md").contains(&tables));
}

#[test]
fn the_seconds_of_a_repair_are_as_printed() {
    let page = text("docs/RECOVERY.md");
    assert!(page.contains(&house::table()));
    assert!(page.contains(&suppositions()));
    assert_eq!(text("docs/recovery.svg"), house::plot());
}

/// The page's long runs are not played here: it has a row for each claim, and none beyond its bound.
#[test]
fn no_claim_is_beyond_on_the_page() {
    let page = text("docs/RECOVERY.md");
    for (_, name) in CLAIMS {
        let begins = format!("| {name} | ");
        let rows = page.lines().filter_map(|line| line.strip_prefix(&begins));
        let beyond = rows.filter_map(|row| row.split(" | ").nth(1)?.parse().ok());
        assert_eq!(beyond.collect::<Vec<u64>>(), [0], "{name}");
    }
}
