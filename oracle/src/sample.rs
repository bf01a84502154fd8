//! A small sample of cases that visits every branch: for the stored test, and to see what the cases at random reach.
use crate::known::known;
use crate::random::Random;
use crate::{GUARDED, answers, make_case, row_of_seeds};
use crate::words::Stream;
use std::collections::{BTreeMap, BTreeSet};

/// The known cases of these kinds, then the others. `tried` runs are made, and the smallest that visit each branch are kept.
pub fn sample(kinds: &[u64], tried: u64, seed: u64) -> Vec<Vec<u64>> {
    let mut cases: Vec<Vec<u64>> = known().into_iter().map(|k| k.words).filter(|w| kinds.contains(&w[0])).collect();
    for &kind in kinds {
        let mut random = Random::new(row_of_seeds(kind, seed));
        match kind {
            0 => cases.extend(branching(tried, &mut random)),
            1 | 2 => cases.extend((0..400).map(|_| make_case(kind, &mut random))),
            _ => cases.extend(sized(kind, &mut random)),
        }
    }
    cases
}

/// Small cases, and one of each unusual size.
fn sized(kind: u64, random: &mut Random) -> Vec<Vec<u64>> {
    let mut seen = BTreeSet::new();
    let mut cases = Vec::new();
    while cases.len() < 150 {
        let case = make_case(kind, random);
        let unusual = [0, 32, 33].contains(&case[1]) && seen.insert(case[1]);
        if unusual || (case[1] > 0 && case[1] <= 6) {
            cases.push(case);
        }
    }
    cases
}

/// The smallest run for each branch, without those that the runs already chosen visit.
fn branching(tried: u64, random: &mut Random) -> Vec<Vec<u64>> {
    let mut smallest: BTreeMap<String, usize> = BTreeMap::new();
    let mut seen: BTreeMap<String, usize> = BTreeMap::new();
    let mut runs: Vec<(Vec<u64>, BTreeSet<String>)> = Vec::new();
    for i in 0..tried as usize {
        let case = make_case(0, random);
        let visited = visited(&case);
        let mut first = false;
        for branch in &visited {
            *seen.entry(branch.clone()).or_default() += 1;
            let least = smallest.entry(branch.clone()).or_insert(i);
            if *least == i || runs[*least].0.len() > case.len() {
                *least = i;
                first = true;
            }
        }
        // only a run that is the smallest for some branch can be chosen
        runs.push(if first { (case, visited) } else { (Vec::new(), BTreeSet::new()) });
    }
    report(&seen);
    let mut by_rarity: Vec<&String> = seen.keys().collect();
    by_rarity.sort_by_key(|branch| seen[*branch]);
    let mut covered = BTreeSet::new();
    let mut chosen = Vec::new();
    for branch in by_rarity {
        if !covered.contains(branch) {
            let (case, visited) = &runs[smallest[branch]];
            covered.extend(visited.iter().cloned());
            chosen.push(case.clone());
        }
    }
    chosen
}

fn visited(case: &[u64]) -> BTreeSet<String> {
    marks::take();
    let answer = answers(Stream::of_words(case.to_vec()));
    let mut visited = marks::take();
    let mut last = answer.lines().last().unwrap().split(' ');
    let end = format!("ends {} {}", last.next().unwrap(), last.next().unwrap());
    if GUARDED {
        // what else there is to visit, the unguarded runs visit
        visited.retain(|branch| branch.starts_with("guarded"));
        if !visited.is_empty() {
            visited.insert(format!("guarded: {end}"));
        }
    } else {
        visited.insert(end);
    }
    visited
}

/// How many runs visited each branch, and what tests went one way only.
fn report(seen: &BTreeMap<String, usize>) {
    for (branch, count) in seen {
        eprintln!("{count:8} {branch}");
        for (one, other) in [(": yes", ": no"), (": no", ": yes")] {
            if branch.ends_with(one) && !seen.contains_key(&branch.replace(one, other)) {
                eprintln!("   never {}", branch.replace(one, other));
            }
        }
    }
}
