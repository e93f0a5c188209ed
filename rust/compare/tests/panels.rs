//! Random panel files of both kinds, most of them damaged, and random places of panels, held against the file's layout written out
//! once more: the answer, and every bit of the destination and of the guards around it, NaN matching NaN where it is filled.
//!
//! HEWNSPANDREL_CALLS and HEWNSPANDREL_SEED as in differential.rs.

use compare::made::Lent;
use compare::panel::{causes, element, read, Stored};
use compare::random::{setting, Random};
use hewnspandrel::{Panel, Refusal, Shape};

/// A good file: its sides are small, or one is a number of two bytes.
fn good<R: Stored>(random: &mut Random) -> (Vec<u8>, usize) {
    let mut sides = [random.below(6) as u16, random.below(6) as u16];
    if random.once_in(10) {
        sides[random.below(2)] = random.between(250, 600) as u16;
    }
    let count = usize::from(sides[0]) * usize::from(sides[1]);
    let mut file = [b"IVP\x01\0".as_slice(), &[R::KIND], &sides[0].to_le_bytes(), &sides[1].to_le_bytes()].concat();
    let flavour = random.flavour();
    for _ in 0..count {
        file.extend(&random.number::<R>(flavour).bits().to_le_bytes()[..R::WIDTH]);
    }
    (file, count)
}

/// One thing done to a file or to its destination's length. It may leave the file good.
fn damage(random: &mut Random, file: &mut Vec<u8>, room: &mut usize) {
    match random.below(8) {
        0 => file.truncate(random.below(14)),
        1 => file.truncate(random.below(file.len() + 1)),
        2 => drop(file.pop()),
        3 => file.extend((0..random.between(1, 9)).map(|_| random.word() as u8).collect::<Vec<_>>()),
        4 => *room = random.below(*room + 1),
        5 => *room = room.saturating_sub(1),
        // the head, and then anything
        6 => change(random, file, 10),
        _ => change(random, file, usize::MAX),
    }
}

/// Another byte somewhere before an end: by one bit, to one of those that mean something elsewhere, or to any.
fn change(random: &mut Random, file: &mut [u8], end: usize) {
    if file.is_empty() {
        return;
    }
    let at = random.below(file.len().min(end));
    file[at] = match random.below(4) {
        0 => file[at] ^ 1 << random.below(8),
        1 => random.one_of(b"IVP\0\x01\x02\x03\xFF"),
        2 => file[random.below(file.len())],
        _ => random.word() as u8,
    };
}

/// How often each set of causes was met, as a number of six bits.
type Met = [usize; 64];

fn one_file<R: Stored>(random: &mut Random, what: &str, met: &mut Met) {
    let (mut file, count) = good::<R>(random);
    let mut room = count + random.one_of(&[0, 0, 1, 2, 7]);
    for _ in 0..random.one_of(&[0, 1, 1, 1, 2, 2, 3, 4]) {
        damage(random, &mut file, &mut room);
    }
    let before = Lent::<R>::new(random, room);
    let mut after = before.clone();
    let answer = R::ours(&file, after.slice_mut());
    let (numbers, expected) = read(&file, before.slice());
    let filled = expected.map_or(0, |[_, rows, columns]| (rows * columns) as usize);

    let Shape { rows, columns } = answer.map_or(Shape { rows: 0, columns: 0 }, |header| header.shape);
    let head = answer.map(|header| [header.version, rows, columns].map(u64::from));
    assert_eq!(head.map_err(Refusal::number), expected, "{what}: {file:?}, room {room}");
    let mut model = before.clone();
    model.slice_mut().copy_from_slice(&numbers);
    for (at, (x, y)) in after.buffer.iter().zip(&model.buffer).enumerate() {
        let inside = (before.from..before.from + filled).contains(&at);
        let at = at as isize - before.from as isize;
        assert!(x.bits() == y.bits() || inside && x.matches(*y), "{what}: number {at} is {x:?} ({:x}), {file:?}", x.bits());
    }
    met[causes::<R>(&file, room).iter().rev().fold(0, |set, cause| 2 * set + usize::from(*cause))] += 1;
    for _ in 0..4 {
        one_place(random, what, after.slice(), rows, columns);
    }
}

/// A place of the panel that was read, or of one with other sides.
fn one_place<R: Stored>(random: &mut Random, what: &str, numbers: &[R], rows: u16, columns: u16) {
    let side = |random: &mut Random, side| match random.below(6) {
        0 => random.one_of(&[0, 1, 255, 256, 32_768, u16::MAX]),
        1 => random.below(9) as u16,
        _ => side,
    };
    let (rows, columns) = (side(random, rows), side(random, columns));
    let index = |random: &mut Random, side: u16| match random.below(8) {
        0 => usize::from(side).wrapping_sub(random.below(3)),
        1 => random.one_of(&[1 << 16, 1 << 32, 1 << 63, usize::MAX / 2, usize::MAX]).wrapping_add(random.below(3)),
        2 => (usize::MAX / usize::from(side.max(1))).wrapping_add(random.below(2)),
        _ => random.below(usize::from(side) + 2),
    };
    let (row, column) = (index(random, rows), index(random, columns));
    let ours = Panel { numbers, rows, columns }.element(row, column).map_err(Refusal::number);
    let expected = element(numbers, rows, columns, row, column);
    let same = match (ours, expected) {
        (Ok(x), Ok(y)) => x.matches(y),
        (ours, expected) => ours == expected,
    };
    assert!(same, "{what}: ({row}, {column}) of {rows} by {columns} with {} numbers: {ours:?}, not {expected:?}", numbers.len());
}

fn files<R: Stored>() {
    let total = setting("HEWNSPANDREL_CALLS", 10_000);
    let seed = setting("HEWNSPANDREL_SEED", 1);
    let mut met = [0; 64];
    for i in 0..total {
        let mut random = Random::new(seed << 40 ^ u64::from(R::KIND) << 36 ^ i);
        // the generator's first numbers are alike for neighbouring seeds
        random.word();
        one_file::<R>(&mut random, &format!("{} file {i} of seed {seed}", R::NAME), &mut met);
    }
    let of = |causes: usize| met.iter().enumerate().filter(|(set, _)| set & causes == causes).map(|(_, n)| n).sum::<usize>();
    let first = |cause: usize| (0..64).filter(|set| set % (2 << cause) == 1 << cause).map(|set| met[set]).sum::<usize>();
    println!("{}: {} files read, refused with 21 to 26 {:?}", R::NAME, met[0], [0, 1, 2, 3, 4, 5].map(first));
    if total >= 10_000 {
        assert!(met[0] > 0);
        for (x, y) in (0..6).flat_map(|y| (0..=y).map(move |x| (x, y))) {
            assert!(of(1 << x | 1 << y) > 0, "{}: causes {} and {} never together", R::NAME, 21 + x, 21 + y);
            assert!(first(y) > 0, "{}: never refused with {}", R::NAME, 21 + y);
        }
    }
}

#[test]
fn files_of_f32() {
    files::<f32>();
}

#[test]
fn files_of_f64() {
    files::<f64>();
}
