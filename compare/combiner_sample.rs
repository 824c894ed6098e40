//! A sample of the Rust's own answers for the crate `combiner`: its score combiners and its `estimate_union`.
//!
//! Build it with a plain rustc. RUST_SOURCE is the folder of the Rust source, the one that has `src/query`;
//! two of its files are compiled in from there, and nothing of them stands here:
//!
//!     RUST_SOURCE=/path/to/source rustc --edition 2021 -O compare/combiner_sample.rs -o /some/folder/combiner_sample
//!
//! Then, in the folder of the repository:
//!
//!     /some/folder/combiner_sample inputs 20240229 > crates/combiner_sample/stdin
//!     /some/folder/combiner_sample answers < crates/combiner_sample/stdin > crates/combiner_sample/stdout
//!
//! A row of the inputs is one of
//!
//!     nothing SCORE ..            scores for DoNothingCombiner
//!     sum SCORE ..                scores for SumCombiner
//!     max TIE_BREAKER SCORE ..    a tie-breaker and scores for DisjunctionMaxCombiner
//!     union MAX_DOCS SIZE ..      for estimate_union
//!
//! Scores and tie-breakers are the bits of an f32 in hexadecimal, the others are decimal. A row's answer is one line:
//! the bits of the combined score, where 7FC00000 stands for every NaN, or the estimate.
//!
//! No input is made where the two are known to differ: tie-breakers that are not finite, and scores for
//! DisjunctionMaxCombiner whose greatest is below 0.0, or is a zero while a -0.0 is among them.

use std::io::BufRead;

pub type Score = f32;

pub mod query {
    pub trait Scorer {
        fn score(&mut self) -> crate::Score;
    }

    pub mod score_combiner {
        include!(concat!(env!("RUST_SOURCE"), "/src/query/score_combiner.rs"));
    }

    #[allow(dead_code)]
    pub mod size_hint {
        include!(concat!(env!("RUST_SOURCE"), "/src/query/size_hint.rs"));
    }
}

use query::score_combiner::{DisjunctionMaxCombiner, DoNothingCombiner, ScoreCombiner, SumCombiner};
use query::size_hint::estimate_union;
use query::Scorer;

/// A scorer that has one score.
struct Fixed(Score);

impl Scorer for Fixed {
    fn score(&mut self) -> Score {
        self.0
    }
}

fn combined<C: ScoreCombiner>(mut combiner: C, scores: &[f32]) -> String {
    combiner.clear();
    for score in scores {
        combiner.update(&mut Fixed(*score));
    }
    shown(combiner.score())
}

fn shown(score: f32) -> String {
    if score.is_nan() {
        "7FC00000".to_string()
    } else {
        format!("{:08X}", score.to_bits())
    }
}

fn read_score(word: &str) -> f32 {
    f32::from_bits(u32::from_str_radix(word, 16).expect("a score's bits"))
}

fn answer(row: &str) -> String {
    let mut words = row.split(' ');
    let name = words.next().expect("a name");
    match name {
        "union" => {
            let numbers: Vec<u32> = words.map(|word| word.parse().expect("a number")).collect();
            estimate_union(numbers[1..].iter().copied(), numbers[0]).to_string()
        }
        _ => {
            let scores: Vec<f32> = words.map(read_score).collect();
            match name {
                "nothing" => combined(DoNothingCombiner, &scores),
                "sum" => combined(SumCombiner::default(), &scores),
                "max" => combined(DisjunctionMaxCombiner::with_tie_breaker(scores[0]), &scores[1..]),
                _ => panic!("no such row: {row}"),
            }
        }
    }
}

/// Numbers by xorshift.
struct Dice(u64);

impl Dice {
    fn next(&mut self) -> u64 {
        self.0 ^= self.0 << 13;
        self.0 ^= self.0 >> 7;
        self.0 ^= self.0 << 17;
        self.0.wrapping_mul(0x2545_f491_4f6c_dd1d) >> 16
    }

    fn below(&mut self, n: u64) -> u64 {
        self.next() % n
    }

    fn one_of<T: Copy>(&mut self, values: &[T]) -> T {
        values[self.below(values.len() as u64) as usize]
    }

    fn score(&mut self) -> f32 {
        match self.below(8) {
            0 => self.one_of(&BOUNDARY_SCORES),
            1 => f32::from_bits(self.next() as u32),
            2 => -(self.below(1000) as f32),
            3 => self.below(500_000) as f32 / 1024.0,
            4 => self.below(1 << 40) as f32 / 3.0,
            _ => self.below(500_001) as f32,
        }
    }

    fn scores(&mut self) -> Vec<f32> {
        let count = self.one_of(&[0, 1, 1, 2, 2, 3, 4, 7, 32]);
        let mild = self.below(2) == 0;
        (0..count).map(|_| if mild { self.below(4096) as f32 / 16.0 } else { self.score() }).collect()
    }

    fn tie_breaker(&mut self) -> f32 {
        let any = match self.below(3) {
            0 => self.one_of(&BOUNDARY_SCORES),
            1 => self.one_of(&[0.0, 0.1, 0.3, 0.5, 1.0, -1.0]),
            _ => f32::from_bits(self.next() as u32),
        };
        if any.is_finite() { any } else { 0.25 }
    }

    fn union_row(&mut self) -> (u32, Vec<u32>) {
        let max_docs = match self.below(4) {
            0 => self.one_of(&BOUNDARY_COUNTS),
            1 => self.next() as u32,
            _ => self.below(100_000) as u32,
        };
        let count = self.one_of(&[0, 1, 2, 2, 3, 5, 8, 32]);
        let wild = self.below(4) == 0;
        let sizes = (0..count).map(|_| if wild { self.next() as u32 } else { self.below(u64::from(max_docs) + 1) as u32 }).collect();
        (max_docs, sizes)
    }
}

const BOUNDARY_SCORES: [f32; 18] = [
    0.0,
    -0.0,
    1.0,
    -1.0,
    0.1,
    f32::MIN_POSITIVE,
    -f32::MIN_POSITIVE,
    1e-45,
    -1e-45,
    f32::MAX,
    f32::MIN,
    f32::INFINITY,
    f32::NEG_INFINITY,
    f32::NAN,
    16777215.0,
    16777216.0,
    f32::EPSILON,
    500000.0,
];

const BOUNDARY_COUNTS: [u32; 10] = [0, 1, 2, 3, 4, 24, 100, 2147483646, 2147483647, u32::MAX];

/// Whether the Rust tells what its comment says, the max of the scores.
fn is_compared(scores: &[f32]) -> bool {
    let greatest = scores.iter().copied().filter(|score| !score.is_nan()).fold(None, |best: Option<f32>, score| match best {
        Some(best) if score <= best => Some(best),
        _ => Some(score),
    });
    let signed_zero = scores.iter().any(|score| *score == 0.0 && score.is_sign_negative());
    match greatest {
        None => true,
        Some(greatest) => greatest > 0.0 || greatest == 0.0 && !signed_zero,
    }
}

fn row(name: &str, words: impl Iterator<Item = String>) {
    let mut line = name.to_string();
    for word in words {
        line.push(' ');
        line.push_str(&word);
    }
    println!("{line}");
}

fn union_row(max_docs: u32, sizes: &[u32]) {
    row("union", std::iter::once(max_docs).chain(sizes.iter().copied()).map(|n| n.to_string()));
}

fn max_row(tie_breaker: f32, scores: &[f32]) {
    if is_compared(scores) {
        row("max", std::iter::once(tie_breaker).chain(scores.iter().copied()).map(shown));
    }
}

fn inputs(seed: u64) {
    let mut dice = Dice(seed);
    row("nothing", std::iter::empty());
    row("sum", std::iter::empty());
    for score in BOUNDARY_SCORES {
        row("sum", [score].into_iter().map(shown));
        for tie_breaker in [0.0, 0.5, -1.0] {
            max_row(tie_breaker, &[score]);
            max_row(tie_breaker, &[score, 3.0]);
        }
    }
    for _ in 0..30 {
        let scores = dice.scores();
        row("nothing", scores.into_iter().map(shown));
    }
    for _ in 0..100 {
        let scores = dice.scores();
        row("sum", scores.into_iter().map(shown));
    }
    for _ in 0..200 {
        let tie_breaker = dice.tie_breaker();
        let scores = dice.scores();
        max_row(tie_breaker, &scores);
    }
    // 64; a half way case; too much, too little, and no number.
    union_row(100, &[50, 50]);
    union_row(24, &[15, 15, 15, 15]);
    union_row(1000, &[4000000000]);
    union_row(1000, &[4000000000, 4000000000]);
    let mut overflowing = vec![u32::MAX; 40];
    overflowing.push(5);
    union_row(4, &overflowing);
    for max_docs in BOUNDARY_COUNTS {
        union_row(max_docs, &[]);
        union_row(max_docs, &[max_docs]);
        union_row(max_docs, &[max_docs / 2, max_docs / 3]);
        union_row(max_docs, &[0, 1]);
    }
    for _ in 0..150 {
        let (max_docs, sizes) = dice.union_row();
        union_row(max_docs, &sizes);
    }
}

fn main() {
    let words: Vec<String> = std::env::args().skip(1).collect();
    match words.iter().map(String::as_str).collect::<Vec<_>>()[..] {
        ["inputs", seed] => inputs(seed.parse().expect("a seed above 0")),
        ["answers"] => {
            for line in std::io::stdin().lock().lines() {
                println!("{}", answer(&line.expect("a line")));
            }
        }
        _ => {
            eprintln!("usage: combiner_sample inputs SEED | combiner_sample answers");
            std::process::exit(2);
        }
    }
}
