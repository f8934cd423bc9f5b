//! The plain twin of the Rattle program `pf_bench`: the same operations on the same numbers, in
//! plain Rust without proofs. Called as `plain OPERATION COUNT`, it makes the operation COUNT times
//! in a chain and prints the last number, and nothing else.
//!
//! A number is a whole number of units of 2^-24, held between -M and M, M = 2^55 - 1. ONE is 2^24.
//! `add` is `sat(a + b)`, `mul` is `sat(near(a * b, 2^24))`, `div` is `sat(near(a * 2^24, b))`:
//! exact, rounded to the nearest, a tie to the even one, held to the range. `div` by 0 is M, -M or
//! 0, as `a` is above, below or equal to 0. The paths are those of `pf_num`, a short one in 64 bits
//! and one over 128 bits for the rest, so that only the languages differ.
//!
//! # The recipes
//!
//! Each chain has a state `x` and goes over `i` from 0 to COUNT - 1, `i` of 64 bits. Every step
//! takes the `x` of the step before, and an operand that changes with `i`. In the table `i & m` is
//! the bitwise and, and each line is done in its order:
//!
//! | OPERATION  | start           | step                                                        |
//! |------------|-----------------|-------------------------------------------------------------|
//! | `add`      | x = 0           | y = (i & 0xffff) * 2^30; x = add(x, y); if x == M: x = -M   |
//! | `mul`      | x = 2^24        | y = 2^24 + (i & 0xffff); x = mul(x, y);                     |
//! |            |                 | if x > 2^30: x = 2^24                                       |
//! | `div`      | x = 2^30        | y = 2^24 + (i & 0xffff); x = div(x, y);                     |
//! |            |                 | if x < 2^20: x = x + 1072693248   (2^30 - 2^20)             |
//! | `mul-wide` | x = 2^50        | y = 2^24 + (i & 0xffff); x = mul(x, y);                     |
//! |            |                 | if x > 2^54: x = 2^50                                       |
//! | `div-wide` | x = 2^54        | y = 2^24 + (i & 0xffff); x = div(x, y);                     |
//! |            |                 | if x < 2^50: x = x + 2^53                                   |
//!
//! | `root`     | x = 2^24        | x = add(root(x), (i & 0xffff) * 2^16)                       |
//! | `length`   | x = 2^24        | x = length(x, (i & 0xffff) * 2^10);                         |
//! |            |                 | if x > 2^30: x = x - 1072693248                             |
//! | `turn`     | c = 2^24, s = 0 | (c, s) = turn((c, s), 2^24 + (i & 0xffff)); prints c        |
//!
//! Roots and lengths are by std's `isqrt`: `root(a)` is the whole root of `a * 2^24`, `length(x, y)` that of
//! `x * x + y * y`. `turn` is `unit(c - a * s, s + a * c)` with `a = w / 64`, and `unit` divides by the length.
//!
//! The corrections stay in the range, so plain and saturating sums are the same there. In `mul` and
//! `div` x stays between 2^20 and about 2^30, so every product and every numerator is below 2^55;
//! in the two wide ones x is at least about 2^50, so every product is above 2^62 and every
//! numerator above 2^64, and each step takes the exact path over 128 bits.
//!
//! The tasks on maps of commands, `plain TASK COUNT HELD`, are in `maps`, those on contact points and pairs of bodies
//! in `geometry`.

mod geometry;
mod maps;

use std::process::ExitCode;

const M: i64 = (1 << 55) - 1;
const ONE: i64 = 1 << 24;

/// `n` held between -M and M.
#[inline(always)]
fn sat(n: i64) -> i64 {
    n.clamp(-M, M)
}

#[inline(always)]
fn add(a: i64, b: i64) -> i64 {
    sat(a + b)
}

/// What rounding adds to a quotient with this remainder: 1 above a half, and at a half what makes the
/// quotient even.
#[inline(always)]
fn carry(n: u64, remainder: u64, divisor: u64) -> u64 {
    let rest = divisor - remainder;
    if remainder < rest {
        0
    } else if rest < remainder {
        1
    } else {
        n % 2
    }
}

/// The number nearest to `p / q`, at most M. Inlined, so that a division by a power of two becomes a
/// shift.
#[inline(always)]
fn nearest_wide(p: u128, q: u64) -> u64 {
    let wide = u128::from(q);
    let n = p / wide;
    if n > M as u128 {
        return M as u64;
    }
    let n = n as u64;
    (n + carry(n, (p % wide) as u64, q)).min(M as u64)
}

/// The number of this magnitude, negative where it is said so.
#[inline(always)]
fn signed(magnitude: u64, negative: bool) -> i64 {
    let magnitude = magnitude as i64;
    if negative {
        -magnitude
    } else {
        magnitude
    }
}

/// Whether a number is short: two short ones have a product within 2^62.
#[inline(always)]
fn is_short(a: i64) -> bool {
    (-(1 << 31)..1 << 31).contains(&a)
}

/// A product within 2^62, which is then at most 2^38 when it's rounded.
#[inline(always)]
fn shifted(p: i64) -> i64 {
    (p + 0x7f_ffff + ((p >> 24) & 1)) >> 24
}

/// A product of short numbers is rounded in 64 bits.
#[inline(always)]
fn mul(a: i64, b: i64) -> i64 {
    if is_short(a) && is_short(b) {
        shifted(a * b)
    } else {
        mul_long(a, b)
    }
}

/// The same where a factor isn't short.
#[cold]
#[inline(never)]
fn mul_long(a: i64, b: i64) -> i64 {
    match a.checked_mul(b) {
        Some(p) if p.unsigned_abs() <= 1 << 62 => shifted(p),
        _ => mul_wide(a, b),
    }
}

/// The product over 128 bits, for all numbers.
#[cold]
#[inline(never)]
fn mul_wide(a: i64, b: i64) -> i64 {
    let p = u128::from(a.unsigned_abs()) * u128::from(b.unsigned_abs());
    signed(nearest_wide(p, ONE as u64), (a < 0) != (b < 0))
}

/// A quotient's magnitude over 128 bits.
#[cold]
#[inline(never)]
fn div_wide(over: u64, under: u64) -> u64 {
    nearest_wide(u128::from(over) << 24, under)
}

/// A numerator below 2^63 is divided in 64 bits.
#[inline(always)]
fn div(a: i64, b: i64) -> i64 {
    if b == 0 {
        return a.signum() * M;
    }
    let (over, under) = (a.unsigned_abs(), b.unsigned_abs());
    let magnitude = if over < 1 << 39 {
        let p = over << 24;
        let n = p / under;
        (n + carry(n, p % under, under)).min(M as u64)
    } else {
        div_wide(over, under)
    };
    signed(magnitude, (a < 0) != (b < 0))
}

/// The operand of step `i` in products and quotients: 1 or a little above it.
#[inline(always)]
fn beside_one(i: u64) -> i64 {
    ONE + (i & 0xffff) as i64
}

/// The whole root, in 64 bits where the number fits them.
#[inline(always)]
fn whole_root(n: u128) -> i64 {
    match u64::try_from(n) {
        Ok(n) => n.isqrt() as i64,
        Err(_) => n.isqrt().min(M as u128) as i64,
    }
}

#[inline(always)]
fn root(a: i64) -> i64 {
    whole_root(u128::from(a.max(0) as u64) << 24)
}

#[inline(always)]
fn length(x: i64, y: i64) -> i64 {
    let (x, y) = (u128::from(x.unsigned_abs()), u128::from(y.unsigned_abs()));
    whole_root(x * x + y * y)
}

#[inline(always)]
fn turn(c: i64, s: i64, w: i64) -> (i64, i64) {
    let a = mul(1 << 18, w);
    if a == 0 {
        return (c, s);
    }
    let (c, s) = (sat(c - mul(a, s)), sat(s + mul(a, c)));
    match length(c, s) {
        0 => (ONE, 0),
        l => (div(c, l), div(s, l)),
    }
}

fn root_chain(count: u64) -> i64 {
    let mut x = ONE;
    for i in 0..count {
        x = add(root(x), ((i & 0xffff) as i64) << 16);
    }
    x
}

fn length_chain(count: u64) -> i64 {
    let mut x = ONE;
    for i in 0..count {
        x = length(x, ((i & 0xffff) as i64) << 10);
        if x > 1 << 30 {
            x -= (1 << 30) - (1 << 20);
        }
    }
    x
}

fn turn_chain(count: u64) -> i64 {
    let (mut c, mut s) = (ONE, 0);
    for i in 0..count {
        (c, s) = turn(c, s, beside_one(i));
    }
    c
}

fn add_chain(count: u64) -> i64 {
    let mut x = 0;
    for i in 0..count {
        x = add(x, ((i & 0xffff) as i64) << 30);
        if x == M {
            x = -M;
        }
    }
    x
}

/// Products with numbers beside 1, from `start` again where they are above `most`.
#[inline(always)]
fn mul_chain(count: u64, start: i64, most: i64) -> i64 {
    let mut x = start;
    for i in 0..count {
        x = mul(x, beside_one(i));
        if x > most {
            x = start;
        }
    }
    x
}

/// Quotients by numbers beside 1, raised by `back` where they are below `least`.
#[inline(always)]
fn div_chain(count: u64, start: i64, least: i64, back: i64) -> i64 {
    let mut x = start;
    for i in 0..count {
        x = div(x, beside_one(i));
        if x < least {
            x += back;
        }
    }
    x
}

fn chain(operation: &str, count: u64) -> Option<i64> {
    let step = (1 << 30) - (1 << 20);
    match operation {
        "add" => Some(add_chain(count)),
        "mul" => Some(mul_chain(count, 1 << 24, 1 << 30)),
        "div" => Some(div_chain(count, 1 << 30, 1 << 20, step)),
        "mul-wide" => Some(mul_chain(count, 1 << 50, 1 << 54)),
        "div-wide" => Some(div_chain(count, 1 << 54, 1 << 50, 1 << 53)),
        "root" => Some(root_chain(count)),
        "length" => Some(length_chain(count)),
        "turn" => Some(turn_chain(count)),
        _ => None,
    }
}

fn main() -> ExitCode {
    let words: Vec<String> = std::env::args().skip(1).collect();
    let words: Vec<&str> = words.iter().map(String::as_str).collect();
    let answer = match words.as_slice() {
        [operation, count] => count.parse().ok().and_then(|count| chain(operation, count)).map(i128::from),
        [task, count, held] => match (count.parse(), held.parse()) {
            (Ok(count), Ok(held)) if held > 0 => geometry::sum(task, count, held)
                .map(i128::from)
                .or_else(|| maps::sum(task, count, held).map(i128::from)),
            _ => None,
        },
        _ => None,
    };
    match answer {
        Some(number) => {
            println!("{number}");
            ExitCode::SUCCESS
        }
        None => {
            eprintln!("usage: plain OPERATION COUNT, or plain TASK COUNT HELD");
            ExitCode::from(2)
        }
    }
}
