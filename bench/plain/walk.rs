//! The walk of a ray, nearest first.

use crate::exact::{entry, hit, Hit, Ratio, Ray};
use crate::field::{Bounds, Scene, WideNode};
use std::cmp::Ordering;
use std::collections::BinaryHeap;

/// A node that waits. The one that is entered first is the greatest.
pub struct Turn {
    at: Ratio,
    first: u32,
    count: u32,
}

impl Ord for Turn {
    fn cmp(&self, other: &Turn) -> Ordering {
        other.at.cmp(self.at)
    }
}

impl PartialOrd for Turn {
    fn partial_cmp(&self, other: &Turn) -> Option<Ordering> {
        Some(self.cmp(other))
    }
}

impl PartialEq for Turn {
    fn eq(&self, other: &Turn) -> bool {
        self.cmp(other).is_eq()
    }
}

impl Eq for Turn {}

/// On one axis, where the ray is at a distance, rounded down and up.
fn rounded(o: i64, m: i64, t: Ratio) -> (i32, i32) {
    let moved = i128::from(o) * i128::from(t.den) + i128::from(t.num) * i128::from(m);
    let den = i128::from(t.den);
    let (low, high) = if moved.unsigned_abs() < 1 << 63 && den < 1 << 63 {
        let (n, d) = (moved as i64, den as i64);
        (i128::from(n.div_euclid(d)), -i128::from((-n).div_euclid(d)))
    } else {
        (moved.div_euclid(den), -(-moved).div_euclid(den))
    };
    (
        low.clamp(-(1 << 30), 1 << 30) as i32,
        high.clamp(-(1 << 30), 1 << 30) as i32,
    )
}

/// Whole numbers around where the ray is from tmin to a distance.
fn window(ray: &Ray, last: Ratio) -> Bounds {
    let mut window = Bounds {
        lo: [0; 3],
        hi: [0; 3],
    };
    for k in 0..3 {
        let first = rounded(
            ray.origin[k],
            ray.dir[k],
            Ratio {
                num: ray.tmin,
                den: 65536,
            },
        );
        let last = rounded(ray.origin[k], ray.dir[k], last);
        window.lo[k] = first.0.min(last.0);
        window.hi[k] = first.1.max(last.1);
    }
    window
}

fn is_beyond(best: &Option<Hit>, at: Ratio) -> bool {
    best.as_ref().is_some_and(|best| best.t.cmp(at).is_lt())
}

/// At one distance the triangle of the least number counts.
fn is_nearer(best: &Option<Hit>, hit: &Hit) -> bool {
    match best {
        Some(best) => hit
            .t
            .cmp(best.t)
            .then(hit.triangle.cmp(&best.triangle))
            .is_lt(),
        None => true,
    }
}

pub fn trace(scene: &Scene, ray: &Ray, turns: &mut BinaryHeap<Turn>) -> Option<Hit> {
    let mut best: Option<Hit> = None;
    let mut seen = window(
        ray,
        Ratio {
            num: ray.tmax,
            den: 65536,
        },
    );
    turns.clear();
    turns.push(Turn {
        at: Ratio { num: 0, den: 1 },
        first: 0,
        count: 0,
    });
    while let Some(turn) = turns.pop() {
        if is_beyond(&best, turn.at) {
            break;
        }
        if turn.count == 0 {
            let node = &scene.nodes[turn.first as usize];
            let mut met = node.overlap(&seen);
            while met != 0 {
                let k = met.trailing_zeros() as usize;
                met &= met - 1;
                let (lo, hi) = (WideNode::corner(&node.lo, k), WideNode::corner(&node.hi, k));
                if let Some(at) = entry(ray, lo, hi) {
                    if !is_beyond(&best, at) {
                        turns.push(Turn {
                            at,
                            first: node.first[k],
                            count: node.count[k],
                        });
                    }
                }
            }
        } else {
            let leaf = turn.first as usize..(turn.first + turn.count) as usize;
            for triangle in &scene.triangles[leaf] {
                let Bounds { lo, hi } = Bounds::of(triangle);
                if (0..3).any(|k| seen.hi[k] < lo[k] || hi[k] < seen.lo[k]) {
                    continue;
                }
                if let Some(hit) = hit(ray, triangle) {
                    if is_nearer(&best, &hit) {
                        seen = window(ray, hit.t);
                        best = Some(hit);
                    }
                }
            }
        }
    }
    best
}
