//! call.rs PROGRAM FILE [NAME=VALUE ..]: runs a text of Id by idc, and prints its answer.
use std::process::Command;

/// An answer of a run that fell quiet.
#[derive(Debug)]
enum Answer {
    Number(i64),
    Truth(bool),
    /// The name of an array, whose cells stand on the lines below the answer.
    Array(String),
    Nothing,
}

/// The answer of a text on these inputs, or what is said of a run without one: status 1 is a fault, 2 a refusal, and 3
/// that it was stopped at the limit of messages.
fn answer_of(program: &str, file: &str, inputs: &[String]) -> Result<Answer, String> {
    let mut call = Command::new(program);
    call.env("IDC_QUIET", "1").arg("run").arg(file).args(inputs);
    let done = call.output().map_err(|error| error.to_string())?;
    let out = String::from_utf8_lossy(&done.stdout);
    let err = String::from_utf8_lossy(&done.stderr);
    let first = out.lines().chain(err.lines()).next().unwrap_or("");
    match (done.status.code(), first.strip_prefix("answer ")) {
        (Some(0), Some("none")) => Ok(Answer::Nothing),
        (Some(0), Some("true")) => Ok(Answer::Truth(true)),
        (Some(0), Some("false")) => Ok(Answer::Truth(false)),
        (Some(0), Some(word)) => Ok(word.parse().map_or_else(|_| Answer::Array(word.into()), Answer::Number)),
        (status, _) => Err(format!("status {}: {first}", status.unwrap_or(-1))),
    }
}

fn main() {
    let words: Vec<String> = std::env::args().collect();
    let [_, program, file, inputs @ ..] = words.as_slice() else {
        return println!("call PROGRAM FILE [NAME=VALUE ..]");
    };
    match answer_of(program, file, inputs) {
        Ok(Answer::Number(value)) => println!("{value}"),
        Ok(Answer::Truth(value)) => println!("{value}"),
        Ok(Answer::Array(name)) => println!("{name}"),
        Ok(Answer::Nothing) => println!("none"),
        Err(said) => println!("{said}"),
    }
}
