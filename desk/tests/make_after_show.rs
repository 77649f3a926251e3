//! What `make` makes of what `show` shows is the file, byte for byte, however damaged it is.

mod damage;

use std::collections::BTreeMap;
use std::fs;
use std::path::{Path, PathBuf};

use damage::{damaged, dated, Random};
use desk::language::Language;
use desk::text::numbers::number_at;
use desk::{make, show};

const LANGUAGES: [Language; 3] = [Language::English, Language::Serbian, Language::SerbianLatin];

fn root() -> PathBuf {
    Path::new(env!("CARGO_MANIFEST_DIR")).join("..")
}

fn files_ending(folder: &str, ending: &str) -> Vec<PathBuf> {
    let folder = fs::read_dir(root().join(folder)).expect("a folder of the repository");
    let paths = folder.map(|entry| entry.expect("an entry").path());
    let mut paths: Vec<PathBuf> = paths
        .filter(|path| path.extension().is_some_and(|found| found == ending))
        .collect();
    paths.sort();
    assert!(!paths.is_empty());
    paths
}

/// The files of the vectors: one behind another, each after its length.
fn vectors() -> Vec<Vec<u8>> {
    let input = fs::read(root().join("crates/list_vectors/stdin")).expect("the vectors");
    let mut files = Vec::new();
    let mut at = 0;
    while at < input.len() {
        let (length, from) = number_at(&input, at).expect("a length");
        at = from + length as usize;
        files.push(input[from..at].to_vec());
    }
    files
}

fn seeds() -> Vec<Vec<u8>> {
    let examples = files_ending("examples", "alignment");
    let mut seeds: Vec<Vec<u8>> = examples
        .iter()
        .map(|path| fs::read(path).expect("an example"))
        .collect();
    seeds.extend(vectors());
    seeds
}

fn made(text: &[u8], language: Language) -> Vec<u8> {
    let made = make::file(text, language);
    made.unwrap_or_else(|wrong| panic!("{wrong}:\n{}", String::from_utf8_lossy(text)))
        .bytes
}

fn assert_same(file: &[u8], language: Language) {
    let text = show::text(file, language).unwrap_or_else(|words| panic!("{words}: {file:02x?}"));
    let again = made(text.as_bytes(), language);
    assert!(again == file, "another file:\n{text}");
}

#[test]
fn examples_and_vectors() {
    let seeds = seeds();
    assert!(seeds.len() > 200);
    for file in seeds {
        LANGUAGES
            .iter()
            .for_each(|language| assert_same(&file, *language));
    }
}

/// With a day, with a number that is none, and broken off within the first numbers.
#[test]
fn dated_files() {
    let seeds = seeds();
    let mut random = Random(4);
    let mut refusals: BTreeMap<u32, usize> = BTreeMap::new();
    for index in 0..4_000 {
        let mut file = dated(&seeds[random.below(seeds.len())], &mut random);
        if index % 4 == 0 {
            file.truncate(random.below(16));
        }
        assert_same(&file, LANGUAGES[index % 3]);
        *refusals.entry(refusal(&file)).or_default() += 1;
    }
    println!("dated files by refusal, 0 where listed: {refusals:?}");
    assert!([0, 2, 12, 22]
        .iter()
        .all(|number| refusals.contains_key(number)));
}

#[test]
fn texts_of_the_examples() {
    for path in files_ending("examples", "txt") {
        let file = fs::read(path.with_extension("alignment")).expect("the text's file");
        let text = fs::read_to_string(&path).expect("a text");
        let windows = format!("\u{FEFF}{}", text.replace('\n', "\r\n"));
        for text in [
            &text,
            &windows,
            &text.replace('\n', "\r"),
            &text.replace(' ', "\t"),
        ] {
            assert!(made(text.as_bytes(), Language::English) == file, "{path:?}");
        }
    }
}

/// A damaged text is turned away in words, or makes a file that has a text.
#[test]
fn damaged_texts() {
    let texts = files_ending("examples", "txt");
    let texts: Vec<Vec<u8>> = texts
        .iter()
        .map(|path| fs::read(path).expect("a text"))
        .collect();
    let mut random = Random(3);
    let mut made = 0;
    for index in 0..5_000 {
        let text = damaged(&texts, &mut random);
        if let Ok(file) = make::file(&text, LANGUAGES[index % 3]) {
            made += 1;
            assert_same(&file.bytes, Language::English);
        }
    }
    assert!((100..4_900).contains(&made), "{made} were made");
}

#[test]
fn damaged_files() {
    try_damaged(2_000, 1);
}

#[test]
#[ignore = "takes a minute"]
fn a_hundred_thousand_damaged_files() {
    try_damaged(100_000, 2);
}

fn try_damaged(count: usize, seed: u64) {
    let seeds = seeds();
    let mut random = Random(seed);
    let mut refusals: BTreeMap<u32, usize> = BTreeMap::new();
    for index in 0..count {
        let file = damaged(&seeds, &mut random);
        assert_same(&file, LANGUAGES[index % 3]);
        *refusals.entry(refusal(&file)).or_default() += 1;
    }
    println!("{count} files by refusal, 0 where listed: {refusals:?}");
    assert!([1, 2, 3, 4, 22]
        .iter()
        .all(|number| refusals.contains_key(number)));
}

/// The refusal's number; 0 of a file that is listed.
fn refusal(file: &[u8]) -> u32 {
    let answer = proved::next_station(file, 0);
    answer.map_or_else(|refusal| refusal.number(), |_| 0)
}
