use std::io::{self, BufReader, BufWriter};
use std::process::ExitCode;

use reference::annotate::{self, Codes};
use reference::{generate, load, roster, rules, session, states};

const USAGE: &str =
    "usage: reference session | load | rules | states | text | roster | annotate [CODES] | generate SEED ...";
const BUFFER: usize = 1 << 16;

fn main() -> ExitCode {
    let arguments: Vec<String> = std::env::args().skip(1).collect();
    let arguments: Vec<&str> = arguments.iter().map(String::as_str).collect();
    let input = BufReader::with_capacity(BUFFER, io::stdin().lock());
    let output = BufWriter::with_capacity(BUFFER, io::stdout().lock());
    let result = match arguments.as_slice() {
        ["session"] => session::run(input, output),
        ["load"] => load::run(input, output),
        ["rules"] => rules::run(input, output),
        // One runner serves both: `text` only says what a list is for.
        ["states"] | ["text"] => states::run(input, output),
        ["roster"] => roster::run(input, output),
        ["annotate"] => annotate::run(Codes::ALL, input, output),
        ["annotate", codes] => match Codes::parse(codes) {
            Some(codes) => annotate::run(codes, input, output),
            None => Err(usage("CODES are codes 0 to 11 and ranges, such as 0-7,9")),
        },
        ["generate", rest @ ..] => generate::run(rest, output),
        _ => Err(usage(USAGE)),
    };
    match result {
        Ok(()) => ExitCode::SUCCESS,
        Err(error) => {
            eprintln!("reference: {error}");
            ExitCode::from(2)
        }
    }
}

fn usage(what: &str) -> io::Error {
    io::Error::new(io::ErrorKind::InvalidInput, what)
}
