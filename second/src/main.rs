//! The commands of the second implementation; bin/ has the ways in.

use second::case::{Answer, Case};
use second::compare::compare;
use second::examples::read_examples;
use second::folder::{to_records, to_text};
use second::generate::Family;
use second::listing::listing;
use second::lists::lists;
use second::litmus_tests;
use second::peer::Peer;
use second::results::results;
use second::shown::{show, show_answer};
use second::stated::{read_cases, Stated};
use second::tally::tally;
use second::text::Wrong;
use second::wire::answer_all;
use std::fs;
use std::io::{BufWriter, Write};
use std::path::Path;
use std::process::ExitCode;

const USAGE: &str = "usage: second COMMAND ..
  compare COUNT SEED [texts] -- PROGRAM
                                  generated cases through the proved program `cases` and through this one:
                                  checks and finishes, or litmus texts
  lists COUNT SEED -- PROGRAM     generated files through the proved program `list` and through this one
  worked FILE.. [-- PROGRAM]      cases whose answers were worked out by hand
  examples FILE [-- PROGRAM]      the examples of docs/LITMUS.md
  litmus FOLDER [-- PROGRAM]      litmus tests: a table of results
  counts COUNT SEED [texts]       how often generated cases are given each number, and 14 to 18 by the kind of step
  case SEED NUMBER [texts]        a generated case as text, with its answer
  answer                          answers cases as the proved program `cases` does
  list FOLDER                     what the listing program prints
  records FOLDER                  table.txt becomes table.rec and, if it is there, trace.txt trace.rec
  text FOLDER                     prints table.rec and trace.rec as text, and which reads the own buffer served
";

fn main() -> ExitCode {
    let mut words: Vec<String> = std::env::args().skip(1).collect();
    let program = match words.iter().position(|word| word == "--") {
        Some(at) => words.split_off(at).split_off(1),
        None => Vec::new(),
    };
    let words: Vec<&str> = words.iter().map(String::as_str).collect();
    match run(&words, &program) {
        Ok(said) => match std::io::stdout().write_all(said.as_bytes()) {
            Ok(()) => ExitCode::SUCCESS,
            Err(_) => ExitCode::FAILURE,
        },
        Err(why) => {
            eprint!("{why}");
            ExitCode::FAILURE
        }
    }
}

fn run(words: &[&str], program: &[String]) -> Result<String, String> {
    match *words {
        ["compare", count, seed, ref of @ ..] => {
            compared(family(of)?, number(count)?, number(seed)?, program)
        }
        ["lists", count, seed] if !program.is_empty() => {
            listed(number(count)?, number(seed)?, program)
        }
        ["worked", _, ..] => worked(&words[1..], peer(program)?),
        ["examples", file] => examples(file, peer(program)?),
        ["litmus", folder] => judged(Path::new(folder), peer(program)?),
        ["counts", count, seed, ref of @ ..] => {
            Ok(tally(family(of)?, number(count)?, number(seed)?).text())
        }
        ["case", seed, at, ref of @ ..] => {
            Ok(generated(family(of)?.case(number(seed)?, number(at)?)))
        }
        ["answer"] => answered(),
        ["list", folder] => Ok(listing(Path::new(folder))),
        ["records", folder] => to_records(Path::new(folder)).map(|()| String::new()),
        ["text", folder] => to_text(Path::new(folder)),
        _ => Err(USAGE.to_string()),
    }
}

fn family(words: &[&str]) -> Result<Family, String> {
    match words {
        [] => Ok(Family::Traces),
        ["texts"] => Ok(Family::Texts),
        _ => Err(USAGE.to_string()),
    }
}

fn number(word: &str) -> Result<u64, String> {
    word.parse().map_err(|_| format!("not a number: {word}\n"))
}

fn failed(what: impl std::fmt::Display) -> impl Fn(std::io::Error) -> String {
    move |why| format!("{what}: {why}\n")
}

/// The proved program, where one is named.
fn peer(program: &[String]) -> Result<Option<Peer>, String> {
    match program {
        [] => Ok(None),
        [first, ..] => Peer::start(program).map(Some).map_err(failed(first)),
    }
}

fn compared(family: Family, count: u64, seed: u64, program: &[String]) -> Result<String, String> {
    let mut peer = peer(program)?.ok_or(USAGE)?;
    let tally = compare(family, &mut peer, count, seed)?;
    let cases = match family {
        Family::Traces => "cases",
        Family::Texts => "texts",
    };
    Ok(format!(
        "{count} {cases} of seed {seed}: no difference\n{}",
        tally.text()
    ))
}

fn listed(count: u64, seed: u64, program: &[String]) -> Result<String, String> {
    let folder = std::env::temp_dir().join(format!("lists-{}", std::process::id()));
    lists(program, count, seed, &folder)?;
    Ok(format!("{count} folders of seed {seed}: no difference\n"))
}

fn generated(case: Case) -> String {
    show(&case) + &show_answer(&case, &case.answer())
}

fn answered() -> Result<String, String> {
    let (stdin, stdout) = (std::io::stdin(), std::io::stdout());
    let mut to = BufWriter::new(stdout.lock());
    answer_all(&mut stdin.lock(), &mut to).map_err(failed("cases"))?;
    Ok(String::new())
}

fn worked(files: &[&str], mut peer: Option<Peer>) -> Result<String, String> {
    let mut count = 0;
    for file in files {
        count += all_as_stated(file, read_cases, peer.as_mut())?;
    }
    Ok(format!(
        "{count} cases of {} files: as stated\n",
        files.len()
    ))
}

fn examples(file: &str, mut peer: Option<Peer>) -> Result<String, String> {
    let count = all_as_stated(file, read_examples, peer.as_mut())?;
    Ok(format!("{count} texts of {file}: as stated\n"))
}

/// How many cases a file states.
fn all_as_stated(
    file: &str,
    read: fn(&str) -> Result<Vec<Stated>, Wrong>,
    mut peer: Option<&mut Peer>,
) -> Result<usize, String> {
    let text = fs::read_to_string(file).map_err(failed(file))?;
    let cases = read(&text).map_err(|wrong| format!("{file}: {wrong}\n"))?;
    for stated in &cases {
        as_stated(stated, peer.as_deref_mut()).map_err(|why| format!("{file}: {why}"))?;
    }
    Ok(cases.len())
}

/// What is stated is what this implementation and the proved one answer.
fn as_stated(stated: &Stated, peer: Option<&mut Peer>) -> Result<(), String> {
    let Stated {
        name,
        case,
        gives,
        line,
    } = stated;
    let differs = |who: &str, answer: &Answer| {
        let (said, found) = (show_answer(case, gives), show_answer(case, answer));
        format!("line {line}: case {name}\nstated: {said}{who}: {found}")
    };
    let ours = case.answer();
    if ours != *gives {
        return Err(differs("second", &ours));
    }
    if let Some(peer) = peer {
        let theirs = peer.ask(case).map_err(failed("the proved program"))?.theirs;
        if theirs != *gives {
            return Err(differs("proved", &theirs));
        }
    }
    Ok(())
}

/// The table of results, with the proved program's answers on the shown traces and on the texts.
fn judged(folder: &Path, mut peer: Option<Peer>) -> Result<String, String> {
    let mut all = Vec::new();
    for (test, text) in litmus_tests::read_folder(folder).map_err(|why| why + "\n")? {
        let mut judged = litmus_tests::judge(&test);
        for stated in [&test.stated, &text] {
            if let Err(why) = as_stated(stated, peer.as_mut()) {
                judged.fault = Some(why.trim_end().replace('\n', "; "));
            }
        }
        all.push(judged);
    }
    let sound = all
        .iter()
        .all(|test| test.validated() && test.fault.is_none());
    let table = results(&all);
    if sound {
        return Ok(table);
    }
    print!("{table}");
    Err("a test is not as stated\n".to_string())
}
