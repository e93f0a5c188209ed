//! What ours costs, against (a) a plain bounds-checked Rust program in the same order of sums, (b) the crate's fallback, and (c) the crate's
//! default build, which fuses and vectorises, where it was built.
//!
//!     rust/compare/cargo build --release --manifest-path default-build/Cargo.toml
//!     rust/compare/cargo run --release --bin bench -- [quick] [FOLDER]
//!     rust/compare/cargo run --release --bin bench -- ours
//!
//! Five runs over all shapes; in each the four go by turns, nine times after one call that warms the caches (three times where a call takes
//! over 50 ms). The tables are of minima over all runs. FOLDER (target/bench by default) gets speed.csv and speed.svg. `quick` makes one
//! run and leaves out what takes long. `ours` takes one sample of ours for each kind and a few shapes: tools/beside holds two trees against
//! each other so.

use case::{calls, time, Case};
use compare::kind::{Call, Real, C, D, S, Z};
use compare::plain::Plain;
use default::Default;
use hewnspandrel::Operand;
use std::fmt::Write;
use std::hint::black_box;
use std::{env, fs};

mod case;
mod default;
mod plot;

const RUNS: usize = 5;
const NAMES: [&str; 4] = ["ours", "plain", "fallback", "default"];
/// The goal for ours over (b).
const GOAL: f64 = 1.05;
/// What `ours` takes: depths from 8 to past a chunk, many tiles and few.
const FEW: [[usize; 3]; 6] = [[16; 3], [64; 3], [256; 3], [257; 3], [1024, 8, 1024], [10_000, 16, 16]];

/// One shape: nanoseconds a call of ours, (a), (b) and (c), sample by sample and run by run.
pub struct Measured {
    pub kind: &'static str,
    pub sizes: [usize; 3],
    pub strided: bool,
    runs: Vec<[Vec<f64>; 4]>,
    /// How many reals of C differ in bits between ours and (c), and of how many.
    differing: [usize; 2],
}

fn least(samples: &[f64]) -> f64 {
    samples.iter().copied().fold(f64::NAN, f64::min)
}

impl Measured {
    fn new(kind: &'static str, sizes: [usize; 3], strided: bool) -> Self {
        Measured { kind, sizes, strided, runs: Vec::new(), differing: [0; 2] }
    }

    /// Minima over all runs; NaN where (c) was not built.
    pub fn minima(&self) -> [f64; 4] {
        [0, 1, 2, 3].map(|i| least(&self.runs.iter().map(|run| least(&run[i])).collect::<Vec<_>>()))
    }

    /// Medians of all samples of all runs.
    fn medians(&self) -> [f64; 4] {
        [0, 1, 2, 3].map(|i| {
            let mut all: Vec<f64> = self.runs.iter().flat_map(|run| &run[i]).copied().collect();
            all.sort_by(f64::total_cmp);
            all.get(all.len() / 2).copied().unwrap_or(f64::NAN)
        })
    }

    /// Ours over (a), (b) and (c), of the minima.
    pub fn ratios(&self) -> [f64; 3] {
        let [ours, a, b, c] = self.minima();
        [ours / a, ours / b, ours / c]
    }

    /// In how many runs ours over (b), of that run's minima, was above the goal.
    fn above(&self) -> usize {
        self.runs.iter().filter(|run| least(&run[0]) / least(&run[2]) > GOAL).count()
    }

    /// Minima in nanoseconds a multiply-add.
    pub fn each(&self) -> [f64; 4] {
        self.minima().map(|t| t / self.sizes.iter().product::<usize>() as f64)
    }

    pub fn shape(&self) -> String {
        shape(self.sizes)
    }
}

fn shape([m, k, n]: [usize; 3]) -> String {
    if m == k && k == n { format!("{m}") } else { format!("{m}·{k}·{n}") }
}

/// One more run of a shape.
fn measure<K: Plain>(measured: &mut Measured) {
    let Case { call, a, b, mut c, mut pack } = Case::<K>::new(measured.sizes, measured.strided);
    let default = Default::<K>::open();
    let ways = if default.is_some() { 4 } else { 3 };

    let mut results: Vec<Vec<u64>> = Vec::new();
    let mut run = |which: usize, times: usize| {
        time(times, || {
            let (call, c) = (black_box(&call), black_box(&mut c[..]));
            match (which, &default) {
                (0, _) => assert_eq!(K::ours(call, &a, &b, c, &mut pack), 0),
                (1, _) => K::plain(call, &a, &b, c, &mut pack),
                // SAFETY: the slices reach to the last place of each operand, bases are 0, and C's places are apart.
                (3, Some(default)) => unsafe { default.run(call, &a, &b, c) },
                _ => unsafe { K::oracle(call, &a, &b, c) },
            }
            if results.len() < ways {
                results.push(c.iter().map(|x| x.bits()).collect());
            }
        })
    };
    let warm: Vec<f64> = (0..ways).map(|which| run(which, 1)).collect();
    let rounds = if warm[0] > 5e7 { 3 } else { 9 };
    let mut samples: [Vec<f64>; 4] = std::array::from_fn(|_| Vec::new());
    for round in 0..rounds {
        for turn in 0..ways {
            let which = (round + turn) % ways;
            samples[which].push(run(which, calls(warm[which])));
        }
    }
    assert!(results[0] == results[1] && results[1] == results[2], "{} {}: the results differ", K::NAME, measured.shape());
    if let Some(default) = results.get(3) {
        measured.differing = [results[0].iter().zip(default).filter(|(x, y)| x != y).count(), call.m * call.n * K::WIDTH];
    }
    measured.runs.push(samples);
    eprint!(".");
}

/// One more run of each shape, whatever its kind.
fn run_all(all: &mut [Measured]) {
    for x in all {
        match x.kind {
            "sgemm" => measure::<S>(x),
            "dgemm" => measure::<D>(x),
            "cgemm" => measure::<C>(x),
            _ => measure::<Z>(x),
        }
    }
}

/// Nanoseconds of a call that is refused at the very last test, the least of nine samples.
fn refused<K: Plain>() -> f64 {
    let o = Operand { base: 0, rs: 1, cs: 1 };
    let one = [K::R::of(1.0); 2];
    let call = Call { m: 1, k: 1, n: 1, alpha: one, beta: one, la: o, lb: o, lc: o };
    let mut c = one;
    let answer = |c: &mut [K::R]| assert_eq!(K::ours(black_box(&call), &one, &one, c, &mut []), 7);
    least(&(0..9).map(|_| time(100_000, || answer(&mut c[..K::WIDTH]))).collect::<Vec<_>>())
}

fn table(all: &[Measured]) {
    println!("| kind | shape | layout | ours, ms | (a), ms | (b), ms | (c), ms | ours/(a) | ours/(b) | ours/(c) | medians' ours/(b) | above {GOAL} |");
    println!("|---|---|---|---:|---:|---:|---:|---:|---:|---:|---:|---:|");
    for x in all {
        let layout = if x.strided { "strided" } else { "contiguous" };
        let ([ours, plain, fallback, default], [a, b, c]) = (x.minima().map(|t| t / 1e6), x.ratios());
        let ([median, _, median_b, _], runs) = (x.medians(), x.runs.len());
        println!(
            "| {} | {} | {layout} | {ours:.3} | {plain:.3} | {fallback:.3} | {default:.3} | {a:.2} | {b:.2} | {c:.2} | {:.2} | {} of {runs} |",
            x.kind, x.shape(), median / median_b, x.above()
        );
    }
}

fn growth_table(grown: &[Measured], sides: usize) {
    println!("\nNanoseconds a multiply-add, contiguous squares, ours / (a) / (b) / (c):\n");
    println!("| side | sgemm | dgemm | cgemm | zgemm |\n|---:|---:|---:|---:|---:|");
    for i in 0..sides {
        let cells = (0..4).map(|kind| grown[kind * sides + i].each().map(|t| format!("{t:.3}")).join(" / "));
        println!("| {} | {} |", grown[i].sizes[0], cells.collect::<Vec<_>>().join(" | "));
    }
}

fn least_table(grown: &[Measured]) {
    println!("\nA call of 1 by 1 by 1, and one that is refused at the last test (7), nanoseconds:\n");
    println!("| kind | ours | (a) | (b) | (c) | refused |\n|---|---:|---:|---:|---:|---:|");
    let refused = [refused::<S>(), refused::<D>(), refused::<C>(), refused::<Z>()];
    for (x, refused) in grown.iter().filter(|x| x.sizes == [1; 3]).zip(refused) {
        let [ours, a, b, c] = x.minima();
        println!("| {} | {ours:.1} | {a:.1} | {b:.1} | {c:.1} | {refused:.1} |", x.kind);
    }
}

fn bits_line(all: &[Measured]) {
    let cells = all.iter().filter(|x| x.sizes == [256; 3] && !x.strided && x.differing[1] > 0);
    let words: Vec<String> = cells.map(|x| format!("{} {} of {}", x.kind, x.differing[0], x.differing[1])).collect();
    println!("\nReals of C that differ in bits between ours and (c) at 256, contiguous: {}", words.join(", "));
}

fn csv(all: &[Measured]) -> String {
    let mut text = String::from("kind,m,k,n,layout,runs");
    for name in NAMES {
        write!(text, ",{name}_median_ns,{name}_min_ns").unwrap();
    }
    text.push_str(",runs_above_goal\n");
    for x in all {
        let ([m, k, n], layout) = (x.sizes, if x.strided { "strided" } else { "contiguous" });
        write!(text, "{},{m},{k},{n},{layout},{}", x.kind, x.runs.len()).unwrap();
        for (median, minimum) in x.medians().iter().zip(x.minima()) {
            write!(text, ",{median:.1},{minimum:.1}").unwrap();
        }
        writeln!(text, ",{}", x.above()).unwrap();
    }
    text
}

fn shapes(quick: bool, kind: &'static str, all: &mut Vec<Measured>) {
    let squares: &[usize] = if quick { &[64, 255, 256, 257] } else { &[64, 255, 256, 257, 512, 1024] };
    // 4000 bytes and 4160 from a row of f32 to the next, beside 4096
    let thin = [[8, 4096, 8], [1024, 8, 1000], [1024, 8, 1024], [1024, 8, 1040]];
    for strided in [false, true] {
        all.extend(squares.iter().map(|&s| [s; 3]).chain(thin).map(|sizes| Measured::new(kind, sizes, strided)));
    }
}

fn growth(quick: bool, kind: &'static str, all: &mut Vec<Measured>) {
    let sides = [1, 2, 4, 8, 12, 16, 24, 32, 48, 64, 96, 128, 192, 256, 384, 512, 768];
    let sides = sides.into_iter().filter(|&side| !quick || side <= 256);
    all.extend(sides.map(|side| Measured::new(kind, [side; 3], false)));
}

/// One sample of ours for each of a few shapes, a line each: kind, shape, nanoseconds a call.
fn ours<K: Plain>() {
    for sizes in FEW {
        println!("{} {} {:.1}", K::NAME, shape(sizes), Case::<K>::new(sizes, false).sample());
    }
}

fn main() {
    let arguments: Vec<String> = env::args().skip(1).collect();
    if arguments == ["ours"] {
        ours::<S>();
        ours::<D>();
        ours::<C>();
        ours::<Z>();
        return;
    }
    let quick = arguments.iter().any(|a| a == "quick");
    let home = concat!(env!("CARGO_MANIFEST_DIR"), "/../../target/bench").to_string();
    let folder = arguments.into_iter().find(|a| a != "quick").unwrap_or(home);

    let (mut table_rows, mut grown) = (Vec::new(), Vec::new());
    for kind in ["sgemm", "dgemm", "cgemm", "zgemm"] {
        shapes(quick, kind, &mut table_rows);
        growth(quick, kind, &mut grown);
    }
    for _ in 0..if quick { 1 } else { RUNS } {
        run_all(&mut table_rows);
        run_all(&mut grown);
        eprintln!();
    }

    table(&table_rows);
    let sides = grown.len() / 4;
    growth_table(&grown, sides);
    least_table(&grown);
    bits_line(&table_rows);

    fs::create_dir_all(&folder).unwrap();
    fs::write(format!("{folder}/speed.svg"), plot::page(&table_rows, &grown)).unwrap();
    let everything: Vec<Measured> = table_rows.into_iter().chain(grown).collect();
    fs::write(format!("{folder}/speed.csv"), csv(&everything)).unwrap();
    println!("\nWritten: speed.csv and speed.svg in {}", fs::canonicalize(&folder).unwrap().display());
}
