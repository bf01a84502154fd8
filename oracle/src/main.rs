//! The oracle: the Rust, put to cases that the replay program reads too, and its answers in the same text.
//! A build has one text of the Rust, so it makes and answers either unguarded runs or guarded ones.
//!
//!   oracle cases KIND COUNT SEED CASES ANSWERS   writes COUNT cases of a kind at random and their answers
//!   oracle answer < CASES > ANSWERS              answers the cases of a stream
//!   oracle sample CASES ANSWERS KIND ..          writes a small sample that visits every branch (the marked oracle)
//!   oracle unfit SEED PREFIX                     writes streams that must end in `X`
//!   oracle known CASES ANSWERS                   writes the cases whose answers the papers print, and says how many
//!   oracle check                                 answers what the papers print, and compares
//!   oracle job < JOB                             prints what the job program must print for a packed job
//!   oracle try-jobs PROGRAM KIND COUNT SEED ROOM puts packed jobs, known, ordinary or damaged, to a program and compares
//!   oracle unit bits|page                        prints the unit coefficients, compute_r at 1.0: as show_unit, as the page
//!   oracle jobs COUNT SEED                       prints ordinary jobs' lines
//!   oracle powers COUNT SEED                     counts where powf is the exact inverse root
//!   oracle agreement JOBS JOBS                   counts where two such prints agree
mod brink;
mod config;
mod damaged;
mod jobs;
mod known;
mod leaves;
mod make;
mod packed;
mod random;
mod run;
mod sample;
mod systems;
mod tried;
mod unfit;
mod unit;
mod ways;
mod words;

use random::Random;
use std::{
    fs,
    io::{Read, Write, stdin, stdout},
    process::exit,
};
use words::{Stream, Unfit, to_bytes};

/// Whether this build is over the guarded text.
const GUARDED: bool = cfg!(guarded);

fn main() {
    let args: Vec<String> = std::env::args().skip(1).collect();
    let args: Vec<&str> = args.iter().map(String::as_str).collect();
    match args[..] {
        ["cases", kind, count, seed, cases, answers] => {
            let (words, text) = make_cases(number(kind), number(count), number(seed));
            fs::write(cases, to_bytes(&words)).unwrap();
            fs::write(answers, text).unwrap();
        }
        ["answer"] => {
            let mut bytes = Vec::new();
            stdin().read_to_end(&mut bytes).unwrap();
            stdout().write_all(answers(Stream::of_bytes(&bytes)).as_bytes()).unwrap();
        }
        ["sample", cases, answers_to, ref kinds @ ..] => {
            let kinds: Vec<u64> = kinds.iter().map(|kind| number(kind)).collect();
            let words = sample::sample(&kinds, 40_000, 1).concat();
            fs::write(cases, to_bytes(&words)).unwrap();
            fs::write(answers_to, answers(Stream::of_words(words))).unwrap();
        }
        ["unfit", seed, prefix] => {
            for (name, bytes) in unfit::unfit(number(seed)) {
                fs::write(format!("{prefix}-{}.cases", name.replace(' ', "-")), bytes).unwrap();
            }
        }
        ["known", cases, answers_to] => {
            let known = known::known();
            println!("{}", known.len());
            let words: Vec<u64> = known.into_iter().flat_map(|case| case.words).collect();
            fs::write(cases, to_bytes(&words)).unwrap();
            fs::write(answers_to, answers(Stream::of_words(words))).unwrap();
        }
        ["check"] => check(),
        ["job"] => {
            let mut bytes = Vec::new();
            stdin().read_to_end(&mut bytes).unwrap();
            print!("{}", packed::answer_job(&bytes));
        }
        ["try-jobs", program, kind, count, seed, room] => {
            let same = tried::try_jobs(program, kind, number(count), number(seed), room);
            exit(if same { 0 } else { 1 })
        }
        ["unit", "bits"] => print!("{}", unit::bits()),
        ["unit", "page"] => print!("{}", unit::page()),
        ["jobs", count, seed] => print!("{}", jobs::jobs(number(count), number(seed))),
        ["powers", count, seed] => print!("{}", jobs::powers(number(count), number(seed))),
        ["agreement", one, other] => {
            print!("{}", jobs::agreement(&fs::read_to_string(one).unwrap(), &fs::read_to_string(other).unwrap()))
        }
        _ => {
            eprintln!("oracle cases | answer | sample | unfit | known | check | job | try-jobs | unit | jobs | powers | agreement: see src/main.rs");
            exit(2)
        }
    }
}

/// The cases that the papers print come out as they print them.
fn check() {
    let known = known::known();
    let mut wrong = 0;
    for case in &known {
        let answer = answers(Stream::of_words(case.words.clone()));
        if !known::as_printed(case, &answer) {
            eprintln!("oracle: expected\n{}but the Rust answers\n{answer}", case.text);
            wrong += 1;
        }
    }
    let jobs = if GUARDED { Vec::new() } else { packed::known_jobs() };
    for (name, job, text) in &jobs {
        let answer = packed::answer_job(job);
        if answer != *text {
            eprintln!("oracle: job '{name}': expected\n{text}but the Rust answers\n{answer}");
            wrong += 1;
        }
    }
    let which = if GUARDED { "known guarded runs" } else { "known cases and jobs" };
    println!("oracle: {} {which} as printed, {wrong} not", known.len() + jobs.len() - wrong);
    if wrong > 0 {
        exit(1)
    }
}

fn number(text: &str) -> u64 {
    text.parse().unwrap_or_else(|_| {
        eprintln!("oracle: {text} is no number");
        exit(2)
    })
}

/// The words of `count` cases, and their answers.
fn make_cases(kind: u64, count: u64, seed: u64) -> (Vec<u64>, String) {
    let mut random = Random::new(row_of_seeds(kind, seed));
    let mut words = Vec::new();
    for _ in 0..count {
        words.extend(make_case(kind, &mut random));
    }
    let text = answers(Stream::of_words(words.clone()));
    (words, text)
}

/// Every kind has its own row of seeds, and guarded runs have the one after the last.
fn row_of_seeds(kind: u64, seed: u64) -> u64 {
    seed.wrapping_mul(8).wrapping_add(if GUARDED { 6 } else { kind })
}

fn make_case(kind: u64, random: &mut Random) -> Vec<u64> {
    match kind {
        0 => make::case_run(random),
        1 => leaves::case_sqrt(random),
        2 => leaves::case_inverse_root(random),
        3 => leaves::case_lu(random),
        4 => leaves::case_solve(random),
        5 => leaves::case_interpolation(random),
        _ => {
            eprintln!("oracle: no kind {kind}");
            exit(2)
        }
    }
}

/// The answers to a stream of cases, a line each; `X` where it is unfit.
fn answers(mut stream: Stream) -> String {
    let mut text = String::new();
    while !stream.at_end() {
        if answer(&mut stream, &mut text).is_err() {
            text += "X\n";
            break;
        }
    }
    text
}

fn answer(stream: &mut Stream, text: &mut String) -> Result<(), Unfit> {
    let line = match stream.word()? {
        0 => return run::answer_run(stream, text),
        1 => leaves::answer_sqrt(stream),
        2 => leaves::answer_inverse_root(stream),
        3 => leaves::answer_lu(stream),
        4 => leaves::answer_solve(stream),
        5 => leaves::answer_interpolation(stream),
        _ => Err(Unfit),
    }?;
    *text += &line;
    text.push('\n');
    Ok(())
}
