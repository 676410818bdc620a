//! The oracle: the given Rust behind document 01's records, and makers of cases.

mod buffer;
mod bytes;
mod call;
mod check;
mod findings;
mod generate;
mod last_bit;
mod library;
mod random;
mod records;
mod tables;

use bytes::{frames, put_frame};
use std::io::{Read, Write};

/// How the program is used.
const USAGE: &str =
    "oracle answer | batch | pair | generate SEED COUNT [FAMILY] | names SEED COUNT [FAMILY]
       | lib-batch | lib-pair | lib-generate SEED COUNT
       | buffer-run | buffer-pair | buffer-generate SEED COUNT | findings | last-bit";

/// All bytes of standard input.
fn input() -> Vec<u8> {
    let mut bytes = Vec::new();
    let read = std::io::stdin().lock().read_to_end(&mut bytes);
    read.expect("standard input");
    bytes
}

/// Frames one after the other.
fn framed<T: AsRef<[u8]>>(list: impl IntoIterator<Item = T>) -> Vec<u8> {
    let mut out = Vec::new();
    for body in list {
        put_frame(&mut out, body.as_ref());
    }
    out
}

/// Answers each frame; with `pair` each input stands before its answer.
fn each(answer: fn(&[u8]) -> Vec<u8>, pair: bool) -> Vec<u8> {
    let stream = input();
    let mut out = Vec::new();
    for body in frames(&stream) {
        if pair {
            put_frame(&mut out, body);
        }
        put_frame(&mut out, &answer(body));
    }
    out
}

/// Answers a buffer script; with `pair` each operation stands before its answer.
fn script(pair: bool) -> Vec<u8> {
    let stream = input();
    let operations = frames(&stream);
    let mut out = Vec::new();
    for (operation, answer) in operations.iter().zip(buffer::run(&operations)) {
        if pair {
            put_frame(&mut out, operation);
        }
        put_frame(&mut out, &answer);
    }
    out
}

/// Makes cases: the mode's name, the seed, the count and the family.
fn make(mode: &str, seed: u64, count: usize, family: &str) -> Option<Vec<u8>> {
    Some(match mode {
        "generate" => framed((0..count).map(|at| generate::case(seed, at, family).1)),
        "names" => {
            let names = (0..count).map(|at| generate::case(seed, at, family).0 + "\n");
            names.collect::<String>().into_bytes()
        }
        "lib-generate" => {
            framed((0..count).map(|at| library::write(&generate::library_case(seed, at))))
        }
        "buffer-generate" => framed(generate::script(seed, count)),
        _ => return None,
    })
}

/// The output of a mode; nothing when the words are no mode.
fn output(words: &[&str]) -> Option<Vec<u8>> {
    Some(match words {
        ["answer"] => records::answer(&input()),
        ["batch"] => each(records::answer, false),
        ["pair"] => each(records::answer, true),
        ["lib-batch"] => each(library::answer, false),
        ["lib-pair"] => each(library::answer, true),
        ["buffer-run"] => script(false),
        ["buffer-pair"] => script(true),
        ["findings"] => findings::report(&frames(&input())).into_bytes(),
        ["last-bit"] => last_bit::report().into_bytes(),
        [mode, seed, count, family @ ..] if family.len() <= 1 => make(
            mode,
            seed.parse().ok()?,
            count.parse().ok()?,
            family.first().unwrap_or(&"all"),
        )?,
        _ => return None,
    })
}

/// Runs the mode that the words name.
fn main() {
    let words: Vec<String> = std::env::args().skip(1).collect();
    let words: Vec<&str> = words.iter().map(String::as_str).collect();
    let Some(bytes) = output(&words) else {
        eprintln!("{USAGE}");
        std::process::exit(2);
    };
    let wrote = std::io::stdout().lock().write_all(&bytes);
    wrote.expect("standard output");
}
