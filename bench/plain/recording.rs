//! A whole run of a recording as `gen` writes it: read, built, traced and printed. It looks at no
//! rule and at no barrier, and knows one instance that stays where it is.

use crate::exact::{Hit, Ray};
use crate::field::{Scene, Triangle};
use crate::json::{self, Value};
use crate::walk;
use std::collections::{BinaryHeap, HashMap};
use std::fmt::Write;

/// A bottom structure: its scene, and the number of the first triangle of each geometry.
struct Bottom {
    scene: Scene,
    firsts: Vec<u32>,
}

/// The one instance of a top structure.
struct Instance {
    custom: u32,
    offset: u32,
    bottom: usize,
}

#[derive(Default)]
struct Device {
    buffers: HashMap<usize, Vec<u8>>,
    bottoms: HashMap<usize, Bottom>,
    tops: HashMap<usize, Instance>,
    /// The lines of the hits that a trace left, by the place of the first.
    hits: HashMap<(usize, usize), String>,
    counts: Counts,
}

/// What rays met: a triangle from its front, from its back, nothing.
#[derive(Clone, Copy, Default)]
pub struct Counts {
    front: usize,
    back: usize,
    none: usize,
}

impl Counts {
    /// The line of a self run.
    pub fn line(&self) -> String {
        let Counts { front, back, none } = *self;
        let tri = front + back;
        let rays = tri + none;
        format!("rays {rays} tri {tri} box 0 none {none} front {front} back {back}\n")
    }
}

/// The text that a run of a recording prints, and what its rays met.
pub fn run(text: &[u8]) -> (String, Counts) {
    let commands = json::read(text);
    let mut device = Device::default();
    let mut shown = String::new();
    for command in commands.items() {
        match command.text("op") {
            "buffer" => device.make(command),
            "build" => command
                .member("infos")
                .items()
                .iter()
                .for_each(|it| device.build(it)),
            "trace" => device.trace(command),
            "read" => {
                let place = (command.number("buffer"), command.number("offset"));
                shown += &device.hits[&place];
            }
            _ => {}
        }
    }
    (shown, device.counts)
}

fn digit(byte: u8) -> u8 {
    match byte {
        b'0'..=b'9' => byte - b'0',
        b'a'..=b'f' => byte - b'a' + 10,
        _ => panic!("no digit"),
    }
}

/// The 32 bits from a place on.
fn word(bytes: &[u8], at: usize) -> u32 {
    u32::from_le_bytes(bytes[at..at + 4].try_into().expect("four bytes"))
}

fn signed(bytes: &[u8], at: usize) -> i32 {
    word(bytes, at) as i32
}

impl Device {
    fn make(&mut self, command: &Value) {
        if command.get("data").is_none() {
            return;
        }
        let digits = command.text("data").as_bytes();
        let mut bytes: Vec<u8> = digits
            .chunks_exact(2)
            .map(|pair| digit(pair[0]) << 4 | digit(pair[1]))
            .collect();
        bytes.resize(command.number("size"), 0);
        self.buffers.insert(command.number("id"), bytes);
    }

    fn build(&mut self, info: &Value) {
        let geometries = info.member("geometries").items();
        let dst = info.number("dst");
        if geometries[0].text("kind") == "instances" {
            let data = geometries[0].member("data");
            let bytes = &self.buffers[&data.number("buffer")][data.number("offset")..];
            let matrix: Vec<i32> = (0..12).map(|k| signed(bytes, 4 * k)).collect();
            assert!(
                matrix == [1, 0, 0, 0, 0, 1, 0, 0, 0, 0, 1, 0],
                "a transform"
            );
            let instance = Instance {
                custom: word(bytes, 48) & 0xff_ffff,
                offset: word(bytes, 52) & 0xff_ffff,
                bottom: word(bytes, 56) as usize / 256 - 1,
            };
            self.tops.insert(dst, instance);
            return;
        }
        let (mut triangles, mut firsts) = (Vec::new(), Vec::new());
        for geometry in geometries {
            firsts.push(triangles.len() as u32);
            self.read_triangles(geometry, &mut triangles);
        }
        let scene = Scene::over(triangles);
        self.bottoms.insert(dst, Bottom { scene, firsts });
    }

    fn read_triangles(&self, geometry: &Value, triangles: &mut Vec<Triangle>) {
        let (vertex, index) = (geometry.member("vertex"), geometry.member("index"));
        let vertices = &self.buffers[&vertex.number("buffer")][vertex.number("offset")..];
        let indices = &self.buffers[&index.number("buffer")][index.number("offset")..];
        let stride = geometry.number("stride");
        for k in 0..geometry.number("count") {
            let corner = |c| {
                let at = stride * word(indices, 4 * (3 * k + c)) as usize;
                [0, 4, 8].map(|axis| signed(vertices, at + axis))
            };
            let number = triangles.len() as u32;
            triangles.push(Triangle {
                vertices: [0, 1, 2].map(corner),
                number,
            });
        }
    }

    fn trace(&mut self, command: &Value) {
        let (rays, hits) = (command.member("rays"), command.member("hits"));
        let bytes = &self.buffers[&rays.number("buffer")][rays.number("offset")..];
        let instance = &self.tops[&command.number("top")];
        let bottom = &self.bottoms[&instance.bottom];
        let mut turns = BinaryHeap::new();
        let mut lines = String::new();
        for k in 0..command.number("count") {
            let ray = read_ray(bytes, 40 * k);
            let hit = walk::trace(&bottom.scene, &ray, &mut turns);
            match &hit {
                Some(hit) if hit.is_front => self.counts.front += 1,
                Some(_) => self.counts.back += 1,
                None => self.counts.none += 1,
            }
            print(&mut lines, k, hit, bottom, instance);
        }
        self.hits
            .insert((hits.number("buffer"), hits.number("offset")), lines);
    }
}

fn read_ray(bytes: &[u8], at: usize) -> Ray {
    let numbers = |from: usize| [0, 4, 8].map(|axis| i64::from(signed(bytes, at + from + axis)));
    let time = |from: usize| {
        u64::from(word(bytes, at + from)) | u64::from(word(bytes, at + from + 4)) << 32
    };
    Ray {
        origin: numbers(0),
        dir: numbers(12),
        tmin: time(24),
        tmax: time(32),
    }
}

fn print(lines: &mut String, k: usize, hit: Option<Hit>, bottom: &Bottom, i: &Instance) {
    let Some(hit) = hit else {
        writeln!(lines, "{k} none").expect("room");
        return;
    };
    let geometry = bottom
        .firsts
        .partition_point(|first| *first <= hit.triangle)
        - 1;
    let primitive = hit.triangle - bottom.firsts[geometry];
    let face = u8::from(hit.is_front);
    let (custom, offset) = (i.custom, i.offset);
    let (t, u, v) = (hit.t, hit.u, hit.v);
    writeln!(
        lines,
        "{k} tri inst 0 custom {custom} sbt {offset} geom {geometry} prim {primitive} face {face} \
         t {}/{} u {}/{} v {}/{}",
        t.num, t.den, u.num, u.den, v.num, v.den
    )
    .expect("room");
}
