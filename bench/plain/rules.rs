//! Whether a recording breaks a rule: the static rules and those on hazards, as far as commands can
//! break them that `gen`, and `bench/scenes` by `copies` and `uses`, make: buffers, structures, copies
//! and fills, builds anew of triangles with indices and of instances, traces, barriers that name no
//! buffer, reads. It tells a rule that the first such command breaks, not always its least.

mod building;

use crate::json::Value;
use crate::made::{scratch_size, structure_size};
use crate::order::{Bytes, Fronts, Past, Side, Way, ACCESSES, DEVICE_STAGES, STAGES};
use building::are_apart;
use std::collections::{BTreeMap, HashMap, HashSet};

const USAGES: [&str; 6] = [
    "transfer_src",
    "transfer_dst",
    "input",
    "scratch",
    "storage",
    "structure",
];
const TRANSFER_SRC: u32 = 1;
const TRANSFER_DST: u32 = 2;
const INPUT: u32 = 4;
const SCRATCH: u32 = 8;
const STORAGE: u32 = 16;
const STRUCTURE: u32 = 32;

/// The flags of a trace of which at most one may stand: what `opaque` means, and what is left out.
const EXCLUSIVE: [&[&str]; 3] = [
    &["opaque", "no_opaque", "cull_opaque", "cull_no_opaque"],
    &["skip_triangles", "cull_back_facing", "cull_front_facing"],
    &["skip_triangles", "skip_aabbs"],
];

/// The accesses that each stage supports, by their numbers.
const SUPPORTED: [&[usize]; 5] = [
    &[0, 1],
    &[0, 1, 2, 4, 5],
    &[4, 5, 0, 1],
    &[2, 3, 4],
    &[6, 7],
];

const fn way(stage: usize, access: usize) -> Way {
    Way { stage, access }
}

const COPY_READ: Way = way(0, 0);
const COPY_WRITE: Way = way(0, 1);
const INPUT_READ: Way = way(1, 2);
const BUILD_READ: Way = way(1, 4);
const BUILD_WRITE: Way = way(1, 5);
const RAY_READ: Way = way(3, 2);
const TRACE_READ: Way = way(3, 4);
const HIT_WRITE: Way = way(3, 3);
const HOST_READ: Way = way(4, 6);

struct Buffer {
    size: u64,
    usage: u32,
    past: Bytes,
}

/// What a structure was built by: the command, and the structures to which its instances may refer.
struct Built {
    stamp: u32,
    uses: Vec<usize>,
}

struct Structure {
    is_top: bool,
    size: u64,
    built: Option<Built>,
    past: Past,
}

#[derive(Clone, Copy, PartialEq)]
enum Phase {
    Idle,
    Begun,
    Ended,
}

/// Bytes of a buffer.
#[derive(Clone, Copy)]
struct Span {
    buffer: usize,
    from: u64,
    size: u64,
}

pub struct Rules {
    buffers: HashMap<usize, Buffer>,
    live_bytes: u64,
    /// The structures as they were made, and which stands under an id.
    structures: Vec<Structure>,
    ids: HashMap<usize, usize>,
    /// Where structures stand: by buffer and first byte, the end.
    places: BTreeMap<(usize, u64), u64>,
    phase: Phase,
    pending: bool,
    fronts: Fronts,
}

type Kept = Result<(), u32>;

fn must(holds: bool, rule: u32) -> Kept {
    if holds {
        Ok(())
    } else {
        Err(rule)
    }
}

fn at_odds(rule: Option<u32>) -> Kept {
    rule.map_or(Ok(()), Err)
}

/// The line of a check.
pub fn check(commands: &[Value]) -> String {
    let mut rules = Rules {
        buffers: HashMap::new(),
        live_bytes: 0,
        structures: Vec::new(),
        ids: HashMap::new(),
        places: BTreeMap::new(),
        phase: Phase::Idle,
        pending: false,
        fronts: Fronts::default(),
    };
    for (number, command) in commands.iter().enumerate() {
        if let Err(rule) = rules.pass(number as u32, command) {
            return format!("refused {number} V{rule}");
        }
    }
    match rules.phase {
        Phase::Idle => "ok".to_string(),
        _ => format!("refused {} V28", commands.len()),
    }
}

/// The bytes from a place on, where it is a member of this name.
fn span(value: &Value, name: &str, size: u64) -> Span {
    let place = value.member(name);
    Span {
        buffer: place.number("buffer"),
        from: place.number("offset") as u64,
        size,
    }
}

/// The set of words by their numbers in a table.
fn set_of(words: &[Value], table: &[&str]) -> u32 {
    let number = |word: &Value| table.iter().position(|it| *it == word.word());
    words
        .iter()
        .fold(0, |set, word| set | 1 << number(word).expect("a word"))
}

/// A side of a barrier, and whether a stage of it supports each access that it names.
fn side(command: &Value, stages: &str, accesses: &str) -> Result<Side, u32> {
    let words = command.member(stages).items();
    let all = words.iter().any(|word| word.word() == "all");
    let others: Vec<&Value> = words.iter().filter(|word| word.word() != "all").collect();
    let number = |word: &&Value| STAGES.iter().position(|it| *it == word.word());
    let start = if all { (1 << DEVICE_STAGES) - 1 } else { 0 };
    let stages = others.iter().fold(start, |set, word| {
        set | 1u32 << number(word).expect("a stage")
    });
    let supported = |access: usize| {
        (0..STAGES.len()).any(|s| stages >> s & 1 == 1 && SUPPORTED[s].contains(&access))
    };
    let mut set = 0;
    for word in command.member(accesses).items() {
        match word.word() {
            "memory_read" | "memory_write" => {
                must(stages != 0, 24)?;
                let first = usize::from(word.word() == "memory_write");
                (first..ACCESSES.len())
                    .step_by(2)
                    .for_each(|a| set |= 1 << a);
            }
            name => {
                let access = ACCESSES
                    .iter()
                    .position(|it| *it == name)
                    .expect("an access");
                must(supported(access), 24)?;
                set |= 1 << access;
            }
        }
    }
    Ok(Side {
        stages,
        accesses: set,
    })
}

impl Rules {
    /// Goes on past a command, which has to keep the rules.
    fn pass(&mut self, number: u32, command: &Value) -> Kept {
        let op = command.text("op");
        let needed = match op {
            "submit" => Phase::Ended,
            "end" | "fill" | "copy" | "build" | "barrier" | "trace" => Phase::Begun,
            "buffer" | "structure" | "begin" | "wait" | "read" => Phase::Idle,
            _ => panic!("no rules for {op}"),
        };
        must(self.phase == needed, 28)?;
        match op {
            "buffer" => self.make_buffer(command),
            "structure" => self.make_structure(command),
            "begin" => self.enter(Phase::Begun),
            "end" => self.enter(Phase::Ended),
            "submit" => {
                self.pending = true;
                self.enter(Phase::Idle)
            }
            "wait" => {
                self.pending = false;
                self.fronts.wait(number);
                Ok(())
            }
            "barrier" => {
                assert!(command.get("buffers").is_none(), "a barrier names buffers");
                let src = side(command, "src_stages", "src_access")?;
                let dst = side(command, "dst_stages", "dst_access")?;
                self.fronts.pass(number, src, dst);
                Ok(())
            }
            "fill" => self.fill(number, command),
            "copy" => self.copy(number, command),
            "build" => self.build(number, command.member("infos").items()),
            "trace" => self.trace(number, command),
            _ => self.show(command),
        }
    }

    fn enter(&mut self, phase: Phase) -> Kept {
        self.phase = phase;
        Ok(())
    }

    fn make_buffer(&mut self, command: &Value) -> Kept {
        let (id, size) = (command.number("id"), command.number("size") as u64);
        must(!self.buffers.contains_key(&id), 1)?;
        let digits = command
            .get("data")
            .map(|_| command.text("data").len() as u64);
        must(size > 0 && digits.unwrap_or(0) <= 2 * size, 2)?;
        must(size <= (1 << 28) - self.live_bytes, 2)?;
        let usage = set_of(command.member("usage").items(), &USAGES);
        let is_private = usage & (SCRATCH | STRUCTURE) != 0;
        must(usage != 0, 3)?;
        must(
            !is_private || (usage.count_ones() == 1 && digits.is_none()),
            3,
        )?;
        self.live_bytes += size;
        let past = Bytes::new(size);
        self.buffers.insert(id, Buffer { size, usage, past });
        Ok(())
    }

    fn make_structure(&mut self, command: &Value) -> Kept {
        let id = command.number("id");
        let (buffer, from) = (command.number("buffer"), command.number("offset") as u64);
        let size = command.number("size") as u64;
        must(!self.ids.contains_key(&id), 1)?;
        must(size > 0, 2)?;
        self.lies_in(Span { buffer, from, size }, STRUCTURE, 6)?;
        must(from % 256 == 0, 6)?;
        let before = self.places.range(..(buffer, from + size)).next_back();
        must(
            before.is_none_or(|((b, _), end)| *b != buffer || *end <= from),
            6,
        )?;
        must(self.ids.len() < 4096, 10)?;
        self.places.insert((buffer, from), from + size);
        self.ids.insert(id, self.structures.len());
        self.structures.push(Structure {
            is_top: command.text("kind") == "top",
            size,
            built: None,
            past: Past::default(),
        });
        Ok(())
    }

    /// Whether bytes stand in a live buffer of a usage; where they don't end in it, a rule is broken.
    fn lies_in(&self, span: Span, usage: u32, rule: u32) -> Kept {
        let buffer = self.buffers.get(&span.buffer).ok_or(1u32)?;
        must(buffer.usage & usage != 0, 3)?;
        must(
            u128::from(span.from) + u128::from(span.size) <= u128::from(buffer.size),
            rule,
        )
    }

    fn structure_at(&self, id: usize) -> Result<usize, u32> {
        self.ids.get(&id).copied().ok_or(1)
    }

    fn may_read(&self, span: Span, by: Way) -> Kept {
        let past = &self.buffers[&span.buffer].past;
        at_odds(past.at_odds(span.from, span.from + span.size, |it| {
            it.at_read(&self.fronts, by)
        }))
    }

    fn may_write(&self, span: Span, by: Way) -> Kept {
        let past = &self.buffers[&span.buffer].past;
        at_odds(past.at_odds(span.from, span.from + span.size, |it| {
            it.at_write(&self.fronts, by)
        }))
    }

    fn bytes(&mut self, span: Span) -> &mut Bytes {
        &mut self
            .buffers
            .get_mut(&span.buffer)
            .expect("a live buffer")
            .past
    }

    fn read(&mut self, span: Span, number: u32, by: Way) {
        self.bytes(span)
            .read(span.from, span.from + span.size, number, by);
    }

    fn write(&mut self, span: Span, number: u32, by: Way) {
        self.bytes(span)
            .write(span.from, span.from + span.size, number, by);
    }

    fn fill(&mut self, number: u32, command: &Value) -> Kept {
        let (buffer, from) = (command.number("buffer"), command.number("offset") as u64);
        let size = command.number("size") as u64;
        let span = Span { buffer, from, size };
        self.lies_in(span, TRANSFER_DST, 4)?;
        must(from % 4 == 0 && size % 4 == 0 && size > 0, 31)?;
        self.may_write(span, COPY_WRITE)?;
        self.write(span, number, COPY_WRITE);
        Ok(())
    }

    fn copy(&mut self, number: u32, command: &Value) -> Kept {
        let (src, dst) = (command.number("src"), command.number("dst"));
        let (mut sources, mut targets) = (Vec::new(), Vec::new());
        for region in command.member("regions").items() {
            let part = |buffer, name| Span {
                buffer,
                from: region.number(name) as u64,
                size: region.number("size") as u64,
            };
            sources.push(part(src, "src_offset"));
            targets.push(part(dst, "dst_offset"));
        }
        for (source, target) in sources.iter().zip(&targets) {
            self.lies_in(*source, TRANSFER_SRC, 4)?;
            self.lies_in(*target, TRANSFER_DST, 4)?;
            must(source.size > 0, 31)?;
        }
        must(
            are_apart(&targets, if src == dst { &sources } else { &[] }),
            16,
        )?;
        sources
            .iter()
            .try_for_each(|it| self.may_read(*it, COPY_READ))?;
        targets
            .iter()
            .try_for_each(|it| self.may_write(*it, COPY_WRITE))?;
        sources
            .iter()
            .for_each(|it| self.read(*it, number, COPY_READ));
        targets
            .iter()
            .for_each(|it| self.write(*it, number, COPY_WRITE));
        Ok(())
    }
}
