//! Makes the stored sample of the oracle's answers, which the proved program `replay` runs in `rt ci`.
//!
//!     rust/compare/cargo run --release --bin sample -- FILE            writes it
//!     rust/compare/cargo run --release --bin sample -- --check FILE    fails where FILE is not what would be written
//!
//! The file is a row of words, each a u64 with its least byte first, and the calls follow each other to its end:
//!
//!     kind (0 sgemm, 1 dgemm, 2 cgemm, 3 zgemm), m, k, n
//!     base, rs, cs of A, then of B, then of C (strides in two's complement)
//!     lengths of A's, B's and C's slice and of the pack buffer, in floats (at most 4,096 each)
//!     alpha, beta: two words each, the bits of the two parts (the second is 0 for the real kinds)
//!     the bits of A's floats, of B's, of C's before the call, one float a word
//!     the answer's number, the bits of C's floats after the call
//!
//! C after an accepted call is the oracle's. A place of it that is NaN has the one word 7ff8000000000000 (7fc00000 for f32),
//! since any NaN matches it. Answers are those of the test's own statement of the refusals.

use compare::kind::{Kind, Real, C, D, S, Z};
use compare::made::{taken, Made};
use compare::model;
use compare::random::Random;
use compare::statement::answer;
use std::{env, fs, process::exit};

/// How many calls of sgemm, dgemm, cgemm and zgemm: as many of each would hide one kind replayed for another.
const CALLS: [usize; 4] = [70, 66, 62, 58];
const LONGEST_SLICE: usize = 4096;

fn main() {
    let mut words = Vec::new();
    let mut answers = [0; 8];
    for i in 0..CALLS[0] {
        for kind in (0..4).filter(|&kind| i < CALLS[kind]) {
            let one = [one::<S>, one::<D>, one::<C>, one::<Z>][kind];
            one(i, &mut words, &mut answers);
        }
    }
    let bytes: Vec<u8> = words.iter().flat_map(|w: &u64| w.to_le_bytes()).collect();
    let arguments: Vec<String> = env::args().skip(1).collect();
    match arguments.iter().map(String::as_str).collect::<Vec<_>>()[..] {
        ["--check", file] => match fs::read(file) {
            Ok(stored) if stored == bytes => println!("{file} is the oracle's"),
            Ok(_) => stop(&format!("{file} is not what the oracle answers")),
            Err(e) => stop(&format!("{file}: {e}")),
        },
        [file] => {
            fs::write(file, &bytes).unwrap_or_else(|e| stop(&format!("{file}: {e}")));
            println!("{} calls, {} bytes; answers 0 to 7: {answers:?}", CALLS.iter().sum::<usize>(), bytes.len());
        }
        _ => stop("usage: sample [--check] FILE"),
    }
}

fn stop(why: &str) -> ! {
    eprintln!("sample: {why}");
    exit(1)
}

/// Call i of a kind: every fourth is refused, with each number in turn; a few are deep; the rest are small.
fn one<K: Kind>(i: usize, words: &mut Vec<u64>, answers: &mut [usize; 8]) {
    let wanted = if i % 4 == 3 { 1 + (i / 4) % 7 } else { 0 };
    let deep = i % 32 == 1;
    for attempt in 0.. {
        let mut random = Random::new((attempt << 24) + (i << 8) as u64 + K::NUMBER);
        let made = make::<K>(&mut random, wanted, deep);
        let most = if deep { 900 } else if i % 8 == 2 { 180 } else { 60 };
        let fits = made.lengths().iter().all(|&len| len <= LONGEST_SLICE) && made.lengths()[..3].iter().sum::<usize>() <= most;
        if fits && answer::<K>(&made.call, made.lengths()) as usize == wanted {
            answers[wanted] += 1;
            return write(&made, wanted as u64, words);
        }
    }
}

fn make<K: Kind>(random: &mut Random, wanted: usize, deep: bool) -> Made<K> {
    let side = |random: &mut Random, most| if random.once_in(16) { 0 } else { random.between(1, most) };
    let [m, k, n] = if deep {
        [random.between(1, 3), random.between(255, 300), random.between(1, 3)]
    } else {
        [side(random, 9), side(random, 12), side(random, 9)]
    };
    let mut made = Made::accepted(random, m, k, n);
    if wanted > 0 {
        if random.once_in(2) {
            let later = random.between(wanted, 7);
            made.fault(random, later);
        }
        made.fault(random, wanted);
    }
    made
}

fn write<K: Kind>(made: &Made<K>, answer: u64, words: &mut Vec<u64>) {
    let call = &made.call;
    words.extend([K::NUMBER, call.m as u64, call.k as u64, call.n as u64]);
    for o in [call.la, call.lb, call.lc] {
        words.extend([o.base as u64, o.rs as u64, o.cs as u64]);
    }
    words.extend(made.lengths().map(|len| len as u64));
    for factor in [call.alpha, call.beta] {
        words.extend([factor[0].bits(), if K::WIDTH == 2 { factor[1].bits() } else { 0 }]);
    }
    for slice in [&made.a, &made.b, &made.c] {
        words.extend(slice.slice().iter().map(|x| x.bits()));
    }
    words.push(answer);
    words.extend(if answer == 0 { after(made) } else { made.c.slice().iter().map(|x| x.bits()).collect() });
}

/// The bits of C's slice after the oracle's call.
fn after<K: Kind>(made: &Made<K>) -> Vec<u64> {
    let call = &made.call;
    if call.m == 0 || call.n == 0 {
        return made.c.slice().iter().map(|x| x.bits()).collect();
    }
    let mut c = made.c.clone();
    // SAFETY: the call is accepted, so all places are inside and C's are apart.
    unsafe { K::oracle(call, made.a.slice(), made.b.slice(), c.slice_mut()) };
    let model = model::after::<K>(call, made.a.slice(), made.b.slice(), made.c.slice());
    let places = taken::<K>(call.lc, call.m, call.n, c.len);
    let nan = if K::R::FRACTION == 23 { 0x7fc0_0000 } else { 0x7ff8_0000_0000_0000 };
    let words = c.slice().iter().zip(&model).zip(places).map(|((x, y), place)| {
        assert!(x.matches(*y), "the oracle and the model differ");
        if place && x.is_nan() { nan } else { x.bits() }
    });
    words.collect()
}
