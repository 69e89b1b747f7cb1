//! The rules on builds, traces and reads.

use super::*;

/// What an info reads, writes and makes.
struct Work {
    dst: usize,
    inputs: Vec<Span>,
    scratch: Span,
    uses: Vec<usize>,
}

impl Rules {
    pub(super) fn build(&mut self, number: u32, infos: &[Value]) -> Kept {
        must(infos.len() <= 4096, 10)?;
        let works: Vec<Work> = infos
            .iter()
            .map(|it| self.work_of(it))
            .collect::<Result<_, _>>()?;
        let mut written = HashSet::new();
        must(works.iter().all(|it| written.insert(it.dst)), 16)?;
        let uses_written = |it: &Work| it.uses.iter().any(|used| written.contains(used));
        must(!works.iter().any(uses_written), 16)?;
        let scratch: Vec<Span> = works.iter().map(|it| it.scratch).collect();
        must(are_apart(&scratch, &[]), 16)?;
        works.iter().try_for_each(|it| self.may_build(it))?;
        works.into_iter().for_each(|it| self.built(number, it));
        Ok(())
    }

    /// What an info does, which keeps the rules on the info alone.
    fn work_of(&self, info: &Value) -> Result<Work, u32> {
        assert!(info.text("mode") == "build", "an update");
        let dst = self.structure_at(info.number("dst"))?;
        let geometries = info.member("geometries").items();
        let used = info.get("uses").map_or(&[][..], Value::items);
        let ids = used.iter().map(|id| self.structure_at(id.as_number()));
        let uses: Vec<usize> = ids.collect::<Result<_, _>>()?;
        let (is_top, size) = (self.structures[dst].is_top, self.structures[dst].size);
        must(is_top || uses.is_empty(), 7)?;
        must(uses.iter().all(|it| !self.structures[*it].is_top), 7)?;
        let is_boxes = |it: &Value| it.text("kind") == "boxes";
        assert!(!geometries.iter().any(is_boxes), "boxes");
        let kind = if is_top { "instances" } else { "triangles" };
        must(geometries.iter().all(|it| it.text("kind") == kind), 8)?;
        must(!is_top || geometries.len() == 1, 8)?;
        let count: u64 = geometries.iter().map(|it| it.number("count") as u64).sum();
        let most = if is_top { 1 << 16 } else { 1 << 20 };
        must(
            geometries.len() <= 256 && count <= most && uses.len() <= 4096,
            10,
        )?;
        must(
            structure_size(geometries.len() as u32, count as u32) <= size,
            11,
        )?;
        let scratch = span(info, "scratch", scratch_size(count as u32));
        must(scratch.from % 256 == 0, 5)?;
        self.lies_in(scratch, SCRATCH, 12)?;
        let mut inputs = Vec::new();
        for geometry in geometries {
            inputs.extend(self.inputs_of(geometry)?);
        }
        must(
            uses.iter().all(|it| self.structures[*it].built.is_some()),
            17,
        )?;
        let work = Work {
            dst,
            inputs,
            scratch,
            uses,
        };
        Ok(work)
    }

    /// What a geometry reads.
    fn inputs_of(&self, geometry: &Value) -> Result<Vec<Span>, u32> {
        let count = geometry.number("count") as u64;
        let skipped = geometry.number("primitive_offset") as u64;
        if geometry.text("kind") == "instances" {
            let mut data = span(geometry, "data", 64 * count);
            must(data.from % 16 == 0 && skipped % 16 == 0, 5)?;
            data.from += skipped;
            self.lies_in(data, INPUT, 4)?;
            return Ok(vec![data]);
        }
        assert!(geometry.get("transform").is_none(), "a transform");
        let (component, bytes) = match geometry.text("format") {
            "s32x3" => (4, 12),
            "s32x2" => (4, 8),
            _ => (2, 6),
        };
        let index_size = if geometry.member("index").text("type") == "u32" {
            4
        } else {
            2
        };
        let (stride, first) = (
            geometry.number("stride") as u64,
            geometry.number("first_vertex") as u64,
        );
        let mut index = span(geometry, "index", 3 * count * index_size);
        let whole = stride * geometry.number("max_vertex") as u64 + bytes;
        let mut vertex = span(geometry, "vertex", whole);
        must(vertex.from % component == 0 && stride % component == 0, 5)?;
        must(index.from % index_size == 0 && skipped % index_size == 0, 5)?;
        index.from += skipped;
        self.lies_in(index, INPUT, 4)?;
        self.lies_in(vertex, INPUT, 4)?;
        vertex.from += first * stride;
        let end = self.buffers[&vertex.buffer].size;
        vertex.size = vertex.size.min(end.saturating_sub(vertex.from));
        Ok(if count == 0 {
            Vec::new()
        } else {
            vec![index, vertex]
        })
    }

    fn may_build(&self, work: &Work) -> Kept {
        work.inputs
            .iter()
            .try_for_each(|it| self.may_read(*it, INPUT_READ))?;
        for used in &work.uses {
            at_odds(
                self.structures[*used]
                    .past
                    .at_read(&self.fronts, BUILD_READ),
            )?;
        }
        self.may_read(work.scratch, BUILD_READ)?;
        at_odds(
            self.structures[work.dst]
                .past
                .at_write(&self.fronts, BUILD_WRITE),
        )?;
        self.may_write(work.scratch, BUILD_WRITE)
    }

    fn built(&mut self, number: u32, work: Work) {
        work.inputs
            .iter()
            .for_each(|it| self.read(*it, number, INPUT_READ));
        for used in &work.uses {
            self.structures[*used].past.read(number, BUILD_READ);
        }
        self.write(work.scratch, number, BUILD_WRITE);
        let dst = &mut self.structures[work.dst];
        dst.past.write(number, BUILD_WRITE);
        dst.built = Some(Built {
            stamp: number,
            uses: work.uses,
        });
    }

    pub(super) fn trace(&mut self, number: u32, command: &Value) -> Kept {
        let top = self.structure_at(command.number("top"))?;
        let count = command.number("count") as u64;
        let (rays, hits) = (
            span(command, "rays", 40 * count),
            span(command, "hits", 80 * count),
        );
        self.lies_in(rays, STORAGE, 4)?;
        self.lies_in(hits, STORAGE, 4)?;
        must(rays.from % 8 == 0 && hits.from % 8 == 0, 5)?;
        must(self.structures[top].is_top, 7)?;
        must(count <= 1 << 20, 10)?;
        must(are_apart(&[hits], &[rays]), 16)?;
        let built = self.structures[top].built.take().ok_or(20u32)?;
        let kept = self.may_meet(number, &built);
        self.structures[top].built = Some(built);
        kept?;
        let flags = command.member("flags").items();
        let several =
            |table: &&[&str]| flags.iter().filter(|it| table.contains(&it.word())).count() > 1;
        must(!EXCLUSIVE.iter().any(several), 22)?;
        at_odds(self.structures[top].past.at_read(&self.fronts, TRACE_READ))?;
        self.may_read(rays, RAY_READ)?;
        self.may_write(hits, HIT_WRITE)?;
        self.structures[top].past.read(number, TRACE_READ);
        self.read(rays, number, RAY_READ);
        self.write(hits, number, HIT_WRITE);
        Ok(())
    }

    /// Whether the structures that a trace may meet are built, and not later than the top was, and may be
    /// read; then they are.
    fn may_meet(&mut self, number: u32, top: &Built) -> Kept {
        for used in &top.uses {
            let structure = &mut self.structures[*used];
            let fresh = |built: &Built| built.stamp <= top.stamp;
            must(structure.built.as_ref().is_some_and(fresh), 21)?;
            at_odds(structure.past.at_read(&self.fronts, TRACE_READ))?;
            structure.past.read(number, TRACE_READ);
        }
        Ok(())
    }

    pub(super) fn show(&mut self, command: &Value) -> Kept {
        let size = command.number("size") as u64;
        let (buffer, from) = (command.number("buffer"), command.number("offset") as u64);
        let span = Span { buffer, from, size };
        self.lies_in(span, !(SCRATCH | STRUCTURE), 4)?;
        must(!self.pending, 29)?;
        let record = match command.text("form") {
            "hits" => 80,
            "u64" => 8,
            _ => 1,
        };
        must(size > 0 && size % record == 0, 31)?;
        self.may_read(span, HOST_READ)
    }
}

/// Whether no two of these bytes, nor any of them and of others, are the same.
pub(super) fn are_apart(spans: &[Span], others: &[Span]) -> bool {
    let mut ends: Vec<&Span> = spans.iter().filter(|it| it.size > 0).collect();
    ends.sort_unstable_by_key(|it| (it.buffer, it.from));
    let meet = |a: &Span, b: &Span| {
        a.buffer == b.buffer && a.from < b.from + b.size && b.from < a.from + a.size
    };
    if ends.windows(2).any(|pair| meet(pair[0], pair[1])) {
        return false;
    }
    others.iter().filter(|it| it.size > 0).all(|other| {
        let behind = ends
            .partition_point(|it| (it.buffer, it.from) < (other.buffer, other.from + other.size));
        behind == 0 || !meet(ends[behind - 1], other)
    })
}
