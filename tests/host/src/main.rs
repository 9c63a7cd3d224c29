//! The host test: the library, through its Rust wrapper, against the plain Rust implementation, on
//! random and damaged files, graph tables and path rows, with lent memory of every length about the
//! due one; its judge, its summary, its readers and its numbering of scopes against the enumerator; then the C example
//! and the program against the plain implementation.
//!
//! host_test FILES EXAMPLE PROGRAM RUNS [GYM..]: so many random files in process, and as many small
//! gyms whose paths are judged, so many runs of each of the two programs, and both programs on the
//! gym files named. `host_test FILES - - 0 [GYM..]` leaves the programs out: by that, and built with
//! the feature `source`, the proved source is held to what is printed for the archive. `host_test
//! words` prints what the wrapper says of each refusal. `host_test drawings GYMS [GYM..]` hands the
//! drawings of so many random gyms, and of those named, to Graphviz.

mod calls;
mod converting;
mod drawing;
mod files;
mod followed;
mod judged;
mod programs;
mod readers;
mod renumbering;
mod seen;

use calls::{Tally, Test};
use files::{file, limits};
use plain::random::{gym, Rng, MIDDLE};
use programs::{print_the_same, words, Program};
use seen::Seen;
use std::env;
use std::fs;
use std::process::exit;
use std::thread;

fn differ(call: &str, text: &[u8], detail: String) -> ! {
    eprintln!("{call} differs: {detail}\non the text\n{}", String::from_utf8_lossy(text));
    exit(1);
}

fn read(name: &String) -> Vec<u8> {
    fs::read(name).unwrap_or_else(|e| panic!("{name}: {e}"))
}

/// What each call must have answered at least once; and accepted files of each form.
const DUE: [(&str, &[&str]); 19] = [
    ("form", &["0", "1", "2"]),
    ("read", &["written", "refused 1", "refused 2", "refused 3", "refused 4", "refused 5", "refused 6", "refused 9"]),
    ("write", &["written", "refused 2", "refused 3", "refused 4", "refused 5", "refused 6", "refused 9"]),
    ("name_sought", &["found", "none"]),
    ("listing_counted", &["written", "refused 1", "refused 2", "refused 3", "refused 4", "refused 5", "refused 6", "refused 7", "refused 9"]),
    ("listing", &["written", "refused 1", "refused 2", "refused 3", "refused 4", "refused 5", "refused 6", "refused 7", "refused 9"]),
    ("followed", &["none", "one", "some", "the most"]),
    ("judge", &["visible", "shadowed 0", "shadowed 1", "shadowed 2", "unreached", "refused 1", "refused 2", "refused 7", "refused 8", "refused 9"]),
    ("compare", &["first 0", "first 1", "second 0", "second 1", "neither 0", "neither 1", "neither 2", "refused 1", "refused 2", "refused 8", "refused 9"]),
    ("summary", &["written", "refused 1", "refused 2", "refused 3", "refused 4", "refused 5", "refused 6", "refused 9"]),
    ("readers", &["written", "refused 1", "refused 2", "refused 3", "refused 4", "refused 5", "refused 6", "refused 11", "refused 9"]),
    ("rules", &["written", "refused 1", "refused 2", "refused 3", "refused 4", "refused 5", "refused 6", "refused 12", "refused 13", "refused 9"]),
    ("to_old", &["written", "refused 1", "refused 2", "refused 3", "refused 4", "refused 5", "refused 6", "refused 14", "refused 9"]),
    ("to_new", &["written", "refused 1", "refused 2", "refused 3", "refused 4", "refused 5", "refused 6", "refused 9"]),
    ("renumber", &["written", "refused 1", "refused 2", "refused 3", "refused 4", "refused 5", "refused 6", "refused 9"]),
    ("back", &["written", "refused 1", "refused 2", "refused 3", "refused 4", "refused 5", "refused 6", "refused 17", "refused 9"]),
    ("dot", &["written", "refused 1", "refused 2", "refused 3", "refused 4", "refused 5", "refused 6", "refused 9"]),
    ("undot", &["written", "refused 1", "refused 2", "refused 3", "refused 4", "refused 5", "refused 6", "refused 18", "refused 19", "refused 9"]),
    ("converted", &["to_old as it was", "to_old and back", "to_old without a column of 0", "to_new as it was", "to_new and back"]),
];

fn run(args: &[String]) {
    if args == ["words"] {
        print!("{}", words());
        return;
    }
    if let [word, gyms, named @ ..] = args {
        if word == "drawings" {
            let random = (0..gyms.parse().expect("a number")).map(|seed| gym(&mut Rng::new(seed), MIDDLE));
            let named = named.iter().map(read);
            println!("{}", drawing::drawn_by_graphviz(random.chain(named)));
            return;
        }
    }
    let [files, example, program, runs, gyms @ ..] = args else {
        eprintln!("host_test FILES EXAMPLE PROGRAM RUNS [GYM..]");
        exit(2);
    };
    let files: usize = files.parse().expect("a number");
    let runs: usize = runs.parse().expect("a number");
    let mut test = Test { rng: Rng::new(1), tally: Tally::default(), seen: Seen::default() };
    for text in limits() {
        test.text(&text);
    }
    for seed in 0..files {
        let text = file(&mut Rng::new(1000 + seed as u64));
        test.text(&text);
    }
    for seed in 0..files {
        test.judged(seed);
    }
    for gym in gyms {
        let text = read(gym);
        for query in 0..3 {
            test.followed(&text, query);
        }
    }
    for (call, answers) in DUE.into_iter().chain(judged::DUE).chain([readers::DUE, renumbering::DUE]).chain(drawing::DUE) {
        for answer in answers {
            let times = test.tally.0.get(&(call, answer.to_string())).copied().unwrap_or(0);
            if times == 0 {
                eprintln!("{call} never answered '{answer}'");
                exit(1);
            }
        }
        let all: Vec<String> =
            test.tally.0.iter().filter(|((c, _), _)| *c == call).map(|((_, a), n)| format!("{a} {n}")).collect();
        println!("{call}: {}", all.join(", "));
    }
    println!("{}", test.seen.told());
    if example == "-" {
        return;
    }
    let both = [Program { name: example, words: true }, Program { name: program, words: false }];
    for text in limits() {
        print_the_same(&both, &text);
    }
    for seed in 0..runs {
        print_the_same(&both, &file(&mut Rng::new(500_000 + seed as u64)));
    }
    for gym in gyms {
        print_the_same(&both, &read(gym));
    }
    println!("{files} files and {files} judged gyms in process, {} files by both programs", runs + gyms.len());
}

fn main() {
    // on no more stack than the header asks for
    let args: Vec<String> = env::args().skip(1).collect();
    let test = thread::Builder::new().stack_size(tewhoranu::STACK).spawn(move || run(&args));
    if test.expect("a thread").join().is_err() {
        exit(1);
    }
}
