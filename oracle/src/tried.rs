//! Jobs put to the job program, a process for each, and to the Rust in this one; a table of what they answered.
use crate::damaged::damaged_job;
use crate::packed::{answer_job, known_jobs, random_job};
use crate::random::Random;
use std::collections::BTreeMap;
use std::fs;
use std::io::Write;
use std::process::{Command, Stdio, exit};

#[derive(Default)]
struct Row {
    jobs: usize,
    /// how often each first line or end was expected: R 1, R 5 to R 8, R 17, an end
    refused_1: usize,
    refused_5_to_8: usize,
    refused_17: usize,
    ended: usize,
    lines: usize,
    differing: usize,
}

/// Puts `count` jobs of a kind to the program; whether all came out the same. What differs is kept below `room`.
pub fn try_jobs(program: &str, kind: &str, count: u64, seed: u64, room: &str) -> bool {
    let mut rows: BTreeMap<&str, Row> = BTreeMap::new();
    for (i, (name, job)) in jobs(kind, count, seed).enumerate() {
        let expected = answer_job(&job);
        let printed = printed(program, &job);
        let row = rows.entry(name).or_default();
        row.count(&expected);
        if printed.as_deref() != Some(expected.as_bytes()) {
            row.differing += 1;
            fs::write(format!("{room}/{kind}-{i}.job"), job).unwrap();
            fs::write(format!("{room}/{kind}-{i}.expected"), expected).unwrap();
            fs::write(format!("{room}/{kind}-{i}.printed"), printed.unwrap_or_else(|| "ended by a signal\n".into())).unwrap();
        }
    }
    print_table(&rows);
    rows.values().all(|row| row.differing == 0)
}

/// The jobs of a kind, each with the name of its row.
fn jobs(kind: &str, count: u64, seed: u64) -> Box<dyn Iterator<Item = (&'static str, Vec<u8>)>> {
    let mut random = Random::new(seed);
    match kind {
        "known" => Box::new(known_jobs().into_iter().map(|(_, job, _)| ("known", job))),
        "ordinary" => Box::new((0..count).map(move |_| ("ordinary", random_job(&mut random)))),
        "damaged" => Box::new((0..count).map(move |_| damaged_job(&mut random))),
        _ => {
            eprintln!("oracle: jobs are known, ordinary or damaged, not {kind}");
            exit(2)
        }
    }
}

/// What the program prints for a job; nothing where a signal ended it.
fn printed(program: &str, job: &[u8]) -> Option<Vec<u8>> {
    let mut child = Command::new(program).stdin(Stdio::piped()).stdout(Stdio::piped()).spawn().unwrap_or_else(|fault| {
        eprintln!("oracle: {program}: {fault}");
        exit(2)
    });
    // a program that has seen enough may close its input early: what it printed is judged, not that
    let _ = child.stdin.take().unwrap().write_all(job);
    let output = child.wait_with_output().unwrap();
    output.status.code().map(|_| output.stdout)
}

impl Row {
    fn count(&mut self, expected: &str) {
        self.jobs += 1;
        self.lines += expected.lines().count();
        match expected {
            "R 1\n" => self.refused_1 += 1,
            "R 17\n" => self.refused_17 += 1,
            "R 5\n" | "R 6\n" | "R 7\n" | "R 8\n" => self.refused_5_to_8 += 1,
            _ => self.ended += 1,
        }
    }
}

fn print_table(rows: &BTreeMap<&str, Row>) {
    println!("{:28} {:>8} {:>8} {:>8} {:>8} {:>8} {:>9} {:>10}", "jobs", "count", "R 1", "R 5..8", "R 17", "ended", "lines", "differing");
    for (name, r) in rows {
        println!("{:28} {:8} {:8} {:8} {:8} {:8} {:9} {:10}", name, r.jobs, r.refused_1, r.refused_5_to_8, r.refused_17, r.ended, r.lines, r.differing);
    }
}
