//! The traces of `ray_bench_traces traces N` in plain Rust, with no proof and no contract, so that
//! `bench/run` can say how the proved program's speed compares on the machine where both run: the
//! same field, the same rays, the same exact tests, a tree of eight boxes a node over leaves of up
//! to four triangles, and a walk nearest first. It knows no instances, transforms, flags, masks or
//! clients, which the proved program looks at for each ray. It prints the same line. A third word is
//! the number of cells a side, 256 where there is none.
//!
//! `gen SIDE LAYERS RAYS` prints the recording of a made-up scene, `run` reads one that `gen` made, runs it
//! and prints the same text as the proved program, and `selfrun SIDE LAYERS RAYS` does both and prints the
//! line of counts; no rule is looked at. `check` reads a recording and looks at those rules that commands
//! of `gen` and of two kinds of `bench/scenes` can break, without running it.

mod exact;
mod field;
mod json;
mod made;
mod order;
mod recording;
mod rules;
mod walk;

use std::collections::BinaryHeap;
use std::io::{Read, Write};

fn main() {
    let words: Vec<String> = std::env::args().skip(1).collect();
    match words.as_slice() {
        [work, times] if work == "traces" => traces(number(times), 256),
        [work, times, side] if work == "traces" => traces(number(times), number(side)),
        [work] if work == "run" => print(&recording::run(&input()).0),
        [work] if work == "check" => print(&format!("{}\n", check(&input()))),
        [work, scene @ ..] if work == "gen" => print(&size(scene).text()),
        [work, scene @ ..] if work == "selfrun" => {
            print(&recording::run(size(scene).text().as_bytes()).1.line());
        }
        _ => panic!("{WORDS}"),
    }
}

const WORDS: &str =
    "the words are: traces N [SIDE], run, check, or gen or selfrun SIDE LAYERS RAYS";

fn check(text: &[u8]) -> String {
    rules::check(json::read(text).items())
}

fn input() -> Vec<u8> {
    let mut text = Vec::new();
    std::io::stdin().read_to_end(&mut text).expect("an input");
    text
}

fn print(text: &str) {
    std::io::stdout()
        .write_all(text.as_bytes())
        .expect("an output");
}

fn size(words: &[String]) -> made::Size {
    let [side, layers, rays] = words else {
        panic!("{WORDS}");
    };
    made::Size {
        side: number(side),
        layers: number(layers),
        rays: number(rays),
    }
}

fn traces(times: u32, side: i32) {
    let scene = field::field(side);
    let mut turns = BinaryHeap::new();
    let (rays, width) = (16384, 8 * i64::from(side) + 8);
    let mut hits = 0;
    for _ in 0..times {
        hits = 0;
        for r in 0..rays {
            let origin = [(37 * r + 3) % width, (53 * r + 1) % width, 4096];
            let ray = exact::Ray {
                origin,
                dir: [0, 0, -1],
                tmin: 0,
                tmax: 1 << 29,
            };
            if let Some(hit) = walk::trace(&scene, &ray, &mut turns) {
                // What a hit tells is made, as the proved program makes it.
                std::hint::black_box((hit.u.num, hit.u.den, hit.v.num, hit.v.den));
                hits += 1;
            }
        }
    }
    println!("traces {times} rays {rays} hits {hits}");
}

fn number<N: std::str::FromStr>(word: &str) -> N {
    word.parse().ok().expect("a number")
}
