//! What was done to each thing, and how far it is covered and ordered: for each stage and way of writing
//! the number below which all is, at each stage and to each access. Barriers are of everything, and waits
//! of the host; commands are on one queue.

use std::collections::BTreeMap;

pub const STAGES: [&str; 5] = ["transfer", "build", "structure_copy", "compute", "host"];
pub const ACCESSES: [&str; 8] = [
    "transfer_read",
    "transfer_write",
    "shader_read",
    "shader_write",
    "structure_read",
    "structure_write",
    "host_read",
    "host_write",
];
pub const DEVICE_STAGES: usize = 4;

/// The stages and accesses of one side of a barrier, bit by bit.
#[derive(Clone, Copy)]
pub struct Side {
    pub stages: u32,
    pub accesses: u32,
}

/// A stage and an access there, by their numbers.
#[derive(Clone, Copy, PartialEq)]
pub struct Way {
    pub stage: usize,
    pub access: usize,
}

/// The ways in which commands write.
const WRITES: [Way; 3] = [
    Way {
        stage: 0,
        access: 1,
    },
    Way {
        stage: 1,
        access: 5,
    },
    Way {
        stage: 3,
        access: 3,
    },
];

/// How far what was written in one way is handed on, and to which accesses it is covered.
#[derive(Clone, Copy, Default)]
struct Front {
    handed: [u32; 5],
    covered: [[u32; 8]; 5],
}

#[derive(Default)]
pub struct Fronts {
    writes: [Front; 3],
    ordered: [[u32; 5]; DEVICE_STAGES],
}

impl Fronts {
    /// Goes on past a barrier by its number.
    pub fn pass(&mut self, number: u32, src: Side, dst: Side) {
        let taken = |within: bool, handed: &[u32; 5]| match within {
            true => number,
            false => bits(src.stages).map(|s| handed[s]).max().unwrap_or(0),
        };
        for (stage, ordered) in self.ordered.iter_mut().enumerate() {
            let up = taken(src.stages >> stage & 1 == 1, ordered);
            bits(dst.stages).for_each(|d| ordered[d] = ordered[d].max(up));
        }
        for (way, front) in WRITES.iter().zip(&mut self.writes) {
            let within = src.stages >> way.stage & src.accesses >> way.access & 1 == 1;
            let up = taken(within, &front.handed);
            for d in bits(dst.stages) {
                front.handed[d] = front.handed[d].max(up);
                for access in bits(dst.accesses) {
                    front.covered[d][access] = front.covered[d][access].max(up);
                }
            }
        }
    }

    /// Goes on past a wait of the host: all before it is done, and covered on the device.
    pub fn wait(&mut self, number: u32) {
        for stage in 0..DEVICE_STAGES {
            for from in &mut self.ordered {
                from[stage] = number;
            }
            for front in &mut self.writes {
                front.handed[stage] = number;
                front.covered[stage] = [number; 8];
            }
        }
    }
}

fn bits(set: u32) -> impl Iterator<Item = usize> {
    (0..8).filter(move |bit| set >> bit & 1 == 1)
}

/// What was done last to a thing, or to a stretch of bytes: numbers of commands, each one more than it
/// is, or 0.
#[derive(Clone, Copy, Default)]
pub struct Past {
    written: u32,
    way: usize,
    read: [u32; DEVICE_STAGES],
}

impl Past {
    /// The rule by which a read is at odds with what was done.
    pub fn at_read(&self, fronts: &Fronts, by: Way) -> Option<u32> {
        let covered = self.written <= fronts.writes[self.way].covered[by.stage][by.access];
        match covered {
            true => None,
            false if by.stage == 4 => Some(32),
            false => Some(25),
        }
    }

    /// The rule by which a write is.
    pub fn at_write(&self, fronts: &Fronts, by: Way) -> Option<u32> {
        if self.written > fronts.writes[self.way].covered[by.stage][by.access] {
            return Some(26);
        }
        let ordered = |(stage, read): (usize, &u32)| *read <= fronts.ordered[stage][by.stage];
        (!self.read.iter().enumerate().all(ordered)).then_some(27)
    }

    pub fn read(&mut self, number: u32, by: Way) {
        self.read[by.stage] = number + 1;
    }

    pub fn write(&mut self, number: u32, by: Way) {
        self.written = number + 1;
        self.way = WRITES
            .iter()
            .position(|way| *way == by)
            .expect("a way to write");
    }
}

/// What was done to the bytes of a buffer: stretches by their first byte, each with its end.
pub struct Bytes {
    stretches: BTreeMap<u64, (u64, Past)>,
}

impl Bytes {
    pub fn new(size: u64) -> Bytes {
        Bytes {
            stretches: BTreeMap::from([(0, (size, Past::default()))]),
        }
    }

    /// Cuts the stretch in which a byte stands in front of it.
    fn cut(&mut self, at: u64) {
        let Some((from, (end, past))) = self.stretches.range_mut(..at).next_back() else {
            return;
        };
        if *from < at && at < *end {
            let rest = (*end, *past);
            *end = at;
            self.stretches.insert(at, rest);
        }
    }

    /// Whether a read or a write of bytes is at odds with what was done, by which rule.
    pub fn at_odds(&self, from: u64, end: u64, test: impl Fn(&Past) -> Option<u32>) -> Option<u32> {
        let met = self.stretches.range(..end).rev();
        met.take_while(|(_, (e, _))| from < *e)
            .find_map(|(_, (_, past))| test(past))
    }

    pub fn read(&mut self, from: u64, end: u64, number: u32, by: Way) {
        if from < end {
            self.cut(from);
            self.cut(end);
            let within = self.stretches.range_mut(from..end);
            within.for_each(|(_, (_, past))| past.read(number, by));
        }
    }

    /// A write forgets what was done before, which is ordered before it.
    pub fn write(&mut self, from: u64, end: u64, number: u32, by: Way) {
        if from < end {
            self.cut(from);
            self.cut(end);
            while let Some((inside, _)) = self.stretches.range(from..end).next() {
                let inside = *inside;
                self.stretches.remove(&inside);
            }
            let mut past = Past::default();
            past.write(number, by);
            self.stretches.insert(from, (end, past));
        }
    }
}
