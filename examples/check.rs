//! Checks a record: cargo run --manifest-path rust/Cargo.toml --example check -- COMMITMENT SIZE NUMBER RECORD-FILE
use std::{env, error::Error, fs, process};
use vizhuthamen::{check, meaning, Node, Refusal};

fn main() -> Result<(), Box<dyn Error>> {
    let words: Vec<String> = env::args().collect();
    let [_, commitment, size, number, record] = &words[..] else { process::exit(64) };
    let commitment: Node = commitment.parse()?;
    let answer = check(commitment.as_ref(), size.parse()?, number.parse()?, &fs::read(record)?);
    let code = answer.map_or_else(Refusal::code, |()| 0);
    println!("code {code}: {}", meaning(code));
    process::exit(code as i32)
}
