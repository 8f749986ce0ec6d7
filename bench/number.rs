// The plain counterpart of crates/bench_number: the same operands and operations on pairs of
// `i64`, worked in `i128` and reduced by Euclid's algorithm.
use std::cmp::Ordering;
use std::time::Instant;

#[derive(Clone, Copy)]
struct Fraction {
    top: i64,
    bottom: i64,
}

const LIMIT: i128 = i64::MAX as i128;

fn divisor(a: i128, b: i128) -> i128 {
    let (mut x, mut y) = (a, b);
    while y != 0 {
        (x, y) = (y, x % y);
    }
    x
}

fn reduced(top: i128, bottom: i128) -> Option<Fraction> {
    let shared = divisor(top.abs(), bottom);
    let (top, bottom) = (top / shared, bottom / shared);
    if top > LIMIT || top < -LIMIT || bottom > LIMIT {
        return None;
    }
    Some(Fraction {
        top: top as i64,
        bottom: bottom as i64,
    })
}

impl Fraction {
    fn cross(self, other: Fraction) -> i128 {
        self.top as i128 * other.bottom as i128
    }

    fn bottoms(self, other: Fraction) -> i128 {
        self.bottom as i128 * other.bottom as i128
    }

    fn add(self, other: Fraction) -> Option<Fraction> {
        reduced(self.cross(other) + other.cross(self), self.bottoms(other))
    }

    fn sub(self, other: Fraction) -> Option<Fraction> {
        reduced(self.cross(other) - other.cross(self), self.bottoms(other))
    }

    fn mul(self, other: Fraction) -> Option<Fraction> {
        reduced(self.top as i128 * other.top as i128, self.bottoms(other))
    }

    fn div(self, other: Fraction) -> Option<Fraction> {
        let sign = if other.top < 0 { -1 } else { 1 };
        reduced(
            self.cross(other) * sign,
            self.bottom as i128 * (other.top as i128).abs(),
        )
    }

    fn order(self, other: Fraction) -> Ordering {
        self.cross(other).cmp(&other.cross(self))
    }
}

struct Source(u64);

impl Source {
    fn draw(&mut self) -> u64 {
        self.0 ^= self.0 << 13;
        self.0 ^= self.0 >> 7;
        self.0 ^= self.0 << 17;
        self.0
    }

    fn below(&mut self, bound: u64) -> i64 {
        (self.draw() % bound) as i64
    }

    fn fraction(&mut self, kind: &str) -> Option<Fraction> {
        let (top, bottom) = match kind {
            "whole" => (self.below(1048576), 1),
            "thousandths" => (self.below(1048576), 1000),
            "small" => (self.below(1048576), self.below(1048576) + 1),
            _ => (self.below(2147483647), self.below(2147483647) + 1),
        };
        let signed = if self.below(2) == 0 { top } else { -top };
        reduced(signed as i128, bottom as i128)
    }
}

fn of_answer(answer: Option<Fraction>) -> u64 {
    match answer {
        Some(x) => x.top.unsigned_abs().wrapping_mul(3) ^ x.bottom.unsigned_abs(),
        None => 1,
    }
}

fn digest(operation: &str, pairs: &[(Fraction, Fraction)], rounds: u64) -> u64 {
    let mut sum = 0u64;
    for _ in 0..rounds {
        for &(x, y) in pairs {
            let one = match operation {
                "add" => of_answer(x.add(y)),
                "sub" => of_answer(x.sub(y)),
                "mul" => of_answer(x.mul(y)),
                "div" if y.top == 0 => 0,
                "div" => of_answer(x.div(y)),
                _ => match x.order(y) {
                    Ordering::Less => 1,
                    Ordering::Equal => 2,
                    Ordering::Greater => 3,
                },
            };
            sum = sum.wrapping_mul(31).wrapping_add(one);
        }
    }
    sum
}

fn main() {
    let rounds: u64 = std::env::args().nth(1).map_or(1, |text| text.parse().unwrap());
    for kind in ["whole", "thousandths", "small", "large"] {
        let mut source = Source(88172645463325252);
        let mut pairs = Vec::new();
        for _ in 0..1024 {
            if let (Some(x), Some(y)) = (source.fraction(kind), source.fraction(kind)) {
                pairs.push((x, y));
            }
        }
        for operation in ["add", "sub", "mul", "div", "order"] {
            let start = Instant::now();
            let sum = digest(operation, &pairs, rounds);
            let tenths = start.elapsed().as_nanos() * 10 / (rounds as u128 * pairs.len() as u128).max(1);
            println!("{kind} {operation} {}.{} {sum}", tenths / 10, tenths % 10);
        }
    }
}
