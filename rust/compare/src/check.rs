//! One call checked in full: the answer, every bit of every slice and of the guards around it, the values.

use crate::kind::{Kind, Real};
use crate::made::{taken, Lent, Made};
use crate::statement::need;

fn same_bits<R: Real>(x: &[R], y: &[R]) -> bool {
    x.len() == y.len() && x.iter().zip(y).all(|(x, y)| x.bits() == y.bits())
}

/// Runs our call, which has to be answered with `expected`, and the oracle's. Returns C's buffer after ours.
pub fn check<K: Kind>(made: &Made<K>, expected: u32, what: &str) -> Lent<K::R> {
    let (a, b, mut c, mut pack) = (made.a.clone(), made.b.clone(), made.c.clone(), made.pack.clone());
    let call = made.call;
    let answer = K::ours(&call, a.slice(), b.slice(), c.slice_mut(), pack.slice_mut());
    assert_eq!(answer, expected, "{what}: {call:?}, lengths {:?}", made.lengths());
    assert!(same_bits(&a.buffer, &made.a.buffer) && same_bits(&b.buffer, &made.b.buffer), "{what}: A or B was written to");
    let full = expected == 0 && call.m * call.k * call.n > 0;
    let free = if full { need::<K>(call.m, call.k, call.n) * K::WIDTH } else { 0 };
    check_pack(made, &pack, free, what);
    if expected != 0 || call.m * call.n == 0 {
        assert!(same_bits(&c.buffer, &made.c.buffer), "{what}: C changed, {call:?}");
        return c;
    }
    let mut theirs = made.c.clone();
    // SAFETY: accepted by the statement, so all places are inside and C's are apart.
    unsafe { K::oracle(&call, a.slice(), b.slice(), theirs.slice_mut()) };
    check_c(made, &c, &theirs, what);
    c
}

/// The first `free` reals of the pack buffer may be anything.
pub fn check_pack<K: Kind>(made: &Made<K>, pack: &Lent<K::R>, free: usize, what: &str) {
    let (before, behind) = (pack.from, pack.from + free);
    let kept = same_bits(&pack.buffer[..before], &made.pack.buffer[..before])
        && same_bits(&pack.buffer[behind..], &made.pack.buffer[behind..]);
    assert!(kept, "{what}: the pack buffer changed where it must not, {:?}", made.call);
}

/// Places match the expected ones; every other real, guards among them, has its bits of before.
pub fn check_c<K: Kind>(made: &Made<K>, c: &Lent<K::R>, expected: &Lent<K::R>, what: &str) {
    let call = &made.call;
    let taken = taken::<K>(call.lc, call.m, call.n, c.len);
    let inside = c.from..c.from + c.len;
    for (at, x) in c.buffer.iter().enumerate() {
        let fine = if inside.contains(&at) && taken[at - c.from] {
            x.matches(expected.buffer[at])
        } else {
            x.bits() == made.c.buffer[at].bits()
        };
        let at = at as isize - c.from as isize;
        assert!(fine, "{what}: real {at} of C is {x:?} ({:x}), {call:?}", x.bits());
    }
}
