//! Generators of sessions and of lists for `reference states` and `reference
//! roster`; README.md describes their arguments.

use std::io::{self, Write};

pub mod atoms;
pub mod clipped;
pub mod damaged;
pub mod edges;
pub mod follower;
pub mod known;
pub mod list;
pub mod named;
pub mod recount;
pub mod rings;
pub mod rng;
pub mod roster;
pub mod rows;
pub mod session;
pub mod sound;
pub mod texts;
pub mod woven;

use list::List;
use rng::Rng;

const USAGE: &str = "usage: reference generate SEED session STYLE CELLS LINES\n\
                     or:    reference generate SEED states LIST [CASES]\n\
                     or:    reference generate SEED roster LIST [CASES]\n\
                     or:    reference generate SEED rules LINES";

pub fn run(arguments: &[&str], mut output: impl Write) -> io::Result<()> {
    let [seed, rest @ ..] = arguments else {
        return Err(usage(USAGE));
    };
    let mut rng = Rng::new(number(seed)?);
    match rest {
        ["session", style, cells, lines] => {
            let cells = number(cells)?.try_into().map_err(|_| usage(USAGE))?;
            let lines = number(lines)? as usize;
            session::write(&mut rng, style, cells, lines, &mut output)?;
        }
        ["rules", lines] => texts::rules(&mut rng, number(lines)? as usize, &mut output)?,
        ["states", name] => write_list(&mut rng, name, 50, &mut output)?,
        ["states", name, cases] => {
            let cases = number(cases)? as usize;
            write_list(&mut rng, name, cases, &mut output)?;
        }
        ["roster", name] => roster::write_list(&mut rng, name, 50, &mut output)?,
        ["roster", name, cases] => {
            let cases = number(cases)? as usize;
            roster::write_list(&mut rng, name, cases, &mut output)?;
        }
        _ => return Err(usage(USAGE)),
    }
    output.flush()
}

pub const LISTS: [&str; 33] = [
    "s1",
    "s2",
    "s3",
    "s4",
    "s5",
    "question1",
    "question2",
    "fresh",
    "operands",
    "runs",
    "snapshots",
    "mutants",
    "garbage",
    "large",
    "known",
    "rows",
    "ceilings",
    "rings",
    "wrecks",
    "clipped",
    "named",
    "text-short",
    "text-bytes",
    "text-random",
    "text-borders",
    "text-deep",
    "text-queues",
    "text-free",
    "text-mixed",
    "text-back",
    "text-shapes",
    "text-damaged",
    "text-clipped",
];

/// One list; `cases` matters only to those of random cases.
pub fn write_list(
    rng: &mut Rng,
    name: &str,
    cases: usize,
    output: &mut dyn Write,
) -> io::Result<()> {
    let list = &mut List { output };
    match name {
        "s1" => damaged::s1(list),
        "s2" => damaged::s2(list),
        "s3" => damaged::s3(list),
        "s4" => damaged::s4(list),
        "s5" => damaged::s5(list),
        "question1" => edges::question_1(list),
        "question2" => edges::question_2(list),
        "fresh" => edges::fresh(rng, list),
        "operands" => sound::operands(rng, list),
        "runs" => sound::runs(rng, list, cases),
        "snapshots" => sound::snapshots(rng, list, cases),
        "mutants" => damaged::mutants(rng, list, cases),
        "garbage" => edges::garbage(rng, list, cases),
        "large" => sound::large(rng, list, cases),
        "known" => known::known(list),
        "rows" => rows::rows(rng, list, cases),
        "ceilings" => rows::ceilings(rng, list, cases),
        "rings" => rings::rings(list, cases),
        "wrecks" => damaged::wrecks(rng, list, cases),
        "clipped" => clipped::clipped(rng, list),
        "named" => named::named(rng, list, cases),
        "text-short" => texts::short(rng, list),
        "text-bytes" => texts::bytes(rng, list),
        "text-random" => texts::texts(rng, list, cases),
        "text-borders" => texts::borders(rng, list),
        "text-deep" => texts::deep(list),
        "text-queues" => texts::queues(rng, list),
        "text-free" => texts::free(rng, list),
        "text-mixed" => texts::mixed(rng, list, cases),
        "text-back" => texts::back(rng, list, cases),
        "text-shapes" => texts::shapes(rng, list, cases),
        "text-damaged" => texts::damaged(rng, list, cases),
        "text-clipped" => texts::clipped(rng, list),
        _ => Err(usage("no such list")),
    }
}

fn number(text: &str) -> io::Result<u64> {
    text.parse().map_err(|_| usage(USAGE))
}

fn usage(what: &str) -> io::Error {
    io::Error::new(io::ErrorKind::InvalidInput, what)
}
