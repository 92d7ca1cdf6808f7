//! Greatest common divisors, and numbers with two given residues.

/// The greatest common divisor of two numbers from 0; that of 0 and a is a.
pub fn gcd(mut a: i64, mut b: i64) -> i64 {
    while b != 0 {
        (a, b) = (b, a % b);
    }
    a
}

/// What times `a` leaves the greatest common divisor modulo `m`.
fn cofactor(a: i64, m: i64) -> i64 {
    let (mut old, mut new) = (a, m);
    let (mut old_factor, mut factor) = (1, 0);
    while new != 0 {
        let quotient = old / new;
        (old, new) = (new, old - quotient * new);
        (old_factor, factor) = (factor, old_factor - quotient * factor);
    }
    old_factor
}

/// The least number from 0 that leaves r by m and s by n, and the least common multiple; m and n are positive.
pub fn common(m: i64, r: i64, n: i64, s: i64) -> Option<(i64, i64)> {
    let divisor = gcd(m, n);
    if (s - r) % divisor != 0 {
        return None;
    }
    let period = n / divisor;
    let times = ((s - r) / divisor % period * (cofactor(m, n) % period)).rem_euclid(period);
    let multiple = m * period;
    Some((multiple, (r + m * times).rem_euclid(multiple)))
}
