//! The exact tests of a ray, by a triangle and by a box.

use crate::field::Triangle;
use std::cmp::Ordering;

pub type Point = [i64; 3];

/// A distance, not in lowest terms.
#[derive(Clone, Copy)]
pub struct Ratio {
    pub num: u64,
    pub den: u64,
}

impl Ratio {
    pub fn cmp(self, other: Ratio) -> Ordering {
        let left = u128::from(self.num) * u128::from(other.den);
        left.cmp(&(u128::from(other.num) * u128::from(self.den)))
    }

    pub fn reduced(self) -> Ratio {
        let divisor = greatest_common_divisor(self.num, self.den);
        Ratio {
            num: self.num / divisor,
            den: self.den / divisor,
        }
    }
}

/// By halvings and differences; `b` isn't 0.
fn greatest_common_divisor(mut a: u64, mut b: u64) -> u64 {
    if a == 0 {
        return b;
    }
    let twos = (a | b).trailing_zeros();
    a >>= a.trailing_zeros();
    loop {
        b >>= b.trailing_zeros();
        if a > b {
            std::mem::swap(&mut a, &mut b);
        }
        b -= a;
        if b == 0 {
            return a << twos;
        }
    }
}

pub struct Ray {
    pub origin: Point,
    pub dir: Point,
    pub tmin: u64,
    pub tmax: u64,
}

pub struct Hit {
    pub t: Ratio,
    pub u: Ratio,
    pub v: Ratio,
    pub triangle: u32,
    pub is_front: bool,
}

fn minus(a: Point, b: Point) -> Point {
    [a[0] - b[0], a[1] - b[1], a[2] - b[2]]
}

fn cross(a: Point, b: Point) -> Point {
    [
        a[1] * b[2] - a[2] * b[1],
        a[2] * b[0] - a[0] * b[2],
        a[0] * b[1] - a[1] * b[0],
    ]
}

fn dot(a: Point, b: Point) -> i64 {
    a[0] * b[0] + a[1] * b[1] + a[2] * b[2]
}

/// The side of an edge, with all ties broken.
fn side(volume: i64, normal: Point, a: Point, b: Point) -> Ordering {
    volume
        .cmp(&0)
        .then_with(|| normal.cmp(&[0, 0, 0]))
        .then_with(|| b.cmp(&a))
}

/// The edge's volume, if the ray passes on this side of it.
fn inside(ray: &Ray, sign: Ordering, [p, q]: [Point; 2], start: Point, end: Point) -> Option<u64> {
    let normal = cross(p, q);
    let volume = dot(ray.dir, normal);
    (side(volume, normal, start, end) == sign).then_some(volume.unsigned_abs())
}

#[inline(never)]
pub fn hit(ray: &Ray, triangle: &Triangle) -> Option<Hit> {
    let [a, b, c] = triangle
        .vertices
        .map(|v| [v[0] as i64, v[1] as i64, v[2] as i64]);
    let normal = cross(minus(b, a), minus(c, a));
    let den = dot(ray.dir, normal);
    if den == 0 {
        return None;
    }
    let sign = den.cmp(&0);
    let (from_a, from_b, from_c) = (
        minus(a, ray.origin),
        minus(b, ray.origin),
        minus(c, ray.origin),
    );
    inside(ray, sign, [from_b, from_c], b, c)?;
    let u = inside(ray, sign, [from_c, from_a], c, a)?;
    let v = inside(ray, sign, [from_a, from_b], a, b)?;
    let num = dot(from_a, normal) * den.signum();
    if num < 0 {
        return None;
    }
    let (num, den) = (num as u64, den.unsigned_abs());
    let least = u128::from(ray.tmin) * u128::from(den);
    let most = u128::from(ray.tmax) * u128::from(den);
    let at = 65536 * u128::from(num);
    if at < least || most < at {
        return None;
    }
    Some(Hit {
        t: Ratio { num, den }.reduced(),
        u: Ratio { num: u, den }.reduced(),
        v: Ratio { num: v, den }.reduced(),
        triangle: triangle.number,
        is_front: sign.is_lt(),
    })
}

/// From where the ray is in a box.
pub fn entry(ray: &Ray, lo: Point, hi: Point) -> Option<Ratio> {
    let mut entry = Ratio {
        num: ray.tmin,
        den: 65536,
    };
    let mut exit = Ratio {
        num: ray.tmax,
        den: 65536,
    };
    for k in 0..3 {
        let (o, m) = (ray.origin[k], ray.dir[k]);
        let (near, far) = if m < 0 {
            (o - hi[k], o - lo[k])
        } else {
            (lo[k] - o, hi[k] - o)
        };
        let den = m.unsigned_abs();
        if far < 0 || (near > 0 && den == 0) {
            return None;
        }
        let (later, sooner) = (
            Ratio {
                num: near as u64,
                den,
            },
            Ratio {
                num: far as u64,
                den,
            },
        );
        if near > 0 && entry.cmp(later).is_lt() {
            entry = later;
        }
        if den != 0 && sooner.cmp(exit).is_lt() {
            exit = sooner;
        }
    }
    entry.cmp(exit).is_le().then_some(entry)
}
