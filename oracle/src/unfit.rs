//! Streams that are no cases: each must end in the line `X`, whatever was printed before.
use crate::make_case;
use crate::random::Random;
use crate::words::to_bytes;

/// Name and bytes of each.
pub fn unfit(seed: u64) -> Vec<(&'static str, Vec<u8>)> {
    let random = &mut Random::new(seed);
    let good = vec![1, 0x4002_0000_0000_0000];
    let after_good = |words: &[u64]| to_bytes(&[&good[..], words].concat());
    let cut = |words: Vec<u64>, random: &mut Random| after_good(&words[..random.from_to(1, words.len() - 1)]);
    let zeros = |head: &[u64], count: usize| after_good(&[head, &vec![0; count][..]].concat());
    let long_run = (0..).map(|_| make_case(0, random)).find(|words| words.len() > 300).unwrap();
    let mut crumbs = to_bytes(&good);
    crumbs.extend([0, 0, 0]);
    vec![
        ("empty", Vec::new()),
        ("cut in a run", cut(long_run, random)),
        ("cut in an LU", cut(make_case(3, random), random)),
        ("cut in a root", after_good(&[2, 3])),
        ("cut in a word", crumbs),
        ("kind 6", after_good(&[6, 0])),
        ("kind of all ones", after_good(&[u64::MAX])),
        // all that a case of that size would want follows, so that the count alone is the fault
        ("run of n 65", zeros(&[0, 65], 200)),
        ("tolerance of 65", zeros(&[0, 1, 10, 4, 0, 0, 0x3FF0_0000_0000_0000, 0, 0, 0, 0, 65], 200)),
        ("LU of n 34", zeros(&[3, 34], 34 + 34 * 34)),
        ("solve of n 34", zeros(&[4, 34], 68 + 34 * 34)),
        ("interpolation of n 65", zeros(&[5, 65], 3 + 8 * 65)),
    ]
}
