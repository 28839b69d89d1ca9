use oracle::desk::{wrong_usage, Verb};
use std::io::{self, Read, Write};
use std::process::ExitCode;

fn main() -> io::Result<ExitCode> {
    // A word that is no text is none of a verb's words, whatever stands for its bytes.
    let words: Vec<String> = std::env::args_os()
        .skip(1)
        .map(|word| word.to_string_lossy().into_owned())
        .collect();
    let words: Vec<&str> = words.iter().map(String::as_str).collect();
    let said = match Verb::of(&words) {
        Some(verb) => {
            let mut input = Vec::new();
            io::stdin().read_to_end(&mut input)?;
            verb.said(&input)
        }
        None => wrong_usage(),
    };
    io::stdout().write_all(&said.output)?;
    io::stderr().write_all(&said.errors)?;
    Ok(ExitCode::from(said.status))
}
