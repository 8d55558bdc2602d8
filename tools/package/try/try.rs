// try PACKAGE CALLS ANSWERS: makes each call of a file by idc.rs (.ci/packages has the format).
use std::{env, fs, io::Write};

// the calls of idc.h; the package's idc.rs is the crate `idc`
fn next<'a>(left: &mut &'a [u8]) -> &'a [u8] {
    let sign = left.iter().position(|it| *it == b':').expect("a length");
    let length: usize = text(&left[..sign]).parse().expect("a length");
    let part = &left[sign + 1..sign + 1 + length];
    *left = &left[sign + 2 + length..];
    part
}

fn text(bytes: &[u8]) -> &str {
    std::str::from_utf8(bytes).expect("a text")
}

fn main() -> std::io::Result<()> {
    let given: Vec<String> = env::args().collect();
    let calls = fs::read(&given[2])?;
    let mut answers = fs::File::create(&given[3])?;
    let mut left = &calls[..];
    while !left.is_empty() {
        let count: usize = text(next(&mut left)).parse().expect("a count");
        let words: Vec<&str> = (0..count).map(|_| text(next(&mut left))).collect();
        let count: usize = text(next(&mut left)).parse().expect("a count");
        let files: Vec<(&str, &[u8])> = (0..count).map(|_| (text(next(&mut left)), next(&mut left))).collect();
        let answer = idc::call(&words, &files).expect("no word has a byte 0");
        for it in [answer.status.to_string(), answer.out, answer.err] {
            write!(answers, "{}:{},", it.len(), it)?;
        }
    }
    Ok(())
}
