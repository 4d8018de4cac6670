//! Holds the proved library and the plain baseline to the model and to stored vectors.

use std::path::Path;
use std::process::exit;

mod calls;
mod expected;
mod images;
mod kinds;
mod list_kinds;
mod lists;
mod rng;
mod subjects;
mod vectors;

const USE: &str =
    "use: differ images COUNT SEED | differ calls COUNT SEED | differ lists COUNT SEED | differ vectors FOLDER | differ old-vectors FOLDER";

fn seeded(words: &[String], run: fn(u64, u64) -> Result<kinds::Seen, String>, must_see: &[&str]) -> Result<String, String> {
    let number = |i: usize| words.get(i).and_then(|w| w.parse::<u64>().ok()).ok_or(USE.to_string());
    let (count, seed) = (number(1)?, number(2)?);
    println!("{}: {count} cases from seed {seed}", words[0]);
    let seen = run(count, seed)?;
    for (what, times) in &seen {
        println!("  {what}: {times}");
    }
    match must_see.iter().find(|what| !seen.contains_key(**what)) {
        Some(what) => Err(format!("no case showed '{what}': the run is too short to tell anything")),
        None => Ok(format!("{}: {count} cases, no difference", words[0])),
    }
}

fn answer(words: &[String]) -> Result<String, String> {
    match words.first().map(String::as_str) {
        Some("images") => seeded(words, images::run, &images::MUST_SEE),
        Some("calls") => seeded(words, calls::run, &calls::MUST_SEE),
        Some("lists") => seeded(words, lists::run, &list_kinds::MUST_SEE),
        Some("vectors") => vectors::run(Path::new(words.get(1).ok_or(USE)?)),
        Some("old-vectors") => vectors::run_old(Path::new(words.get(1).ok_or(USE)?)),
        _ => Err(USE.to_string()),
    }
}

fn main() {
    let words: Vec<String> = std::env::args().skip(1).collect();
    match answer(&words) {
        Ok(line) => println!("{line}"),
        Err(line) => {
            eprintln!("{line}");
            exit(1);
        }
    }
}
