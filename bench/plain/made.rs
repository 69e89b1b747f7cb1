//! The recording that `gen` makes up: layers of triangles over a grid of cells, one instance of them,
//! and rays from above.

use std::fmt::Write;

pub struct Size {
    pub side: u32,
    pub layers: u32,
    pub rays: u32,
}

const FULL_BARRIER: &str = r#",{"dst_access":["memory_read","memory_write"],"dst_stages":["all"],"op":"barrier","src_access":["memory_write"],"src_stages":["all"]}"#;

impl Size {
    fn vertices(&self) -> u32 {
        (self.side + 1) * (self.side + 1)
    }

    fn triangles(&self) -> u32 {
        2 * self.side * self.side
    }

    /// Where the vertices of a layer stand, and behind those of all layers the indices.
    fn offset_of(&self, layer: u32) -> u32 {
        12 * layer * self.vertices()
    }

    fn instance_offset(&self) -> u32 {
        (self.offset_of(self.layers) + 12 * self.triangles()).next_multiple_of(16)
    }

    fn hits_offset(&self) -> u32 {
        (40 * self.rays).next_multiple_of(16)
    }

    /// The words of the vertices, the indices and the instance.
    fn inputs(&self) -> Vec<u32> {
        let mut words = Vec::new();
        for layer in 0..self.layers {
            for j in 0..=self.side {
                for i in 0..=self.side {
                    words.extend([8 * i, 8 * j, 64 * layer + (5 * i + 3 * j) % 7]);
                }
            }
        }
        for j in 0..self.side {
            for i in 0..self.side {
                let (low, high) = (j * (self.side + 1) + i, (j + 1) * (self.side + 1) + i);
                words.extend([low, low + 1, high + 1, low, high + 1, high]);
            }
        }
        words.resize(words.len().next_multiple_of(4), 0);
        words.extend([1, 0, 0, 0, 0, 1, 0, 0, 0, 0, 1, 0, 255 << 24, 0, 256, 0]);
        words
    }

    fn ray_words(&self) -> Vec<u32> {
        let width = 8 * self.side + 8;
        let ray = |r| {
            let (x, y) = ((37 * r + 3) % width, (53 * r + 1) % width);
            [x, y, 4096, 0, 0, u32::MAX, 0, 0, 1 << 29, 0]
        };
        (0..self.rays).flat_map(ray).collect()
    }

    /// The text of the recording.
    pub fn text(&self) -> String {
        let mut text = String::from("[");
        self.write(&mut text).expect("room");
        text
    }

    fn write(&self, text: &mut String) -> std::fmt::Result {
        let Size { layers, rays, .. } = *self;
        let (all, instance, hits) = (
            layers * self.triangles(),
            self.instance_offset(),
            self.hits_offset(),
        );
        let (bottom, top) = (structure_size(layers, all), structure_size(1, 1));
        let (memory, scratch) = (bottom + top, scratch_size(all));
        add_buffer(text, 0, instance + 64, "input", &self.inputs())?;
        write!(
            text,
            r#",{{"id":1,"op":"buffer","size":{memory},"usage":["structure"]}}"#
        )?;
        write!(
            text,
            r#",{{"id":2,"op":"buffer","size":{scratch},"usage":["scratch"]}},"#
        )?;
        add_buffer(text, 3, hits + 80 * rays, "storage", &self.ray_words())?;
        write!(
            text,
            r#",{{"buffer":1,"id":0,"kind":"bottom","offset":0,"op":"structure","size":{bottom}}}"#
        )?;
        write!(
            text,
            r#",{{"buffer":1,"id":1,"kind":"top","offset":{bottom},"op":"structure","size":{top}}}"#
        )?;
        text.push_str(r#",{"op":"begin"},{"infos":[{"dst":0,"flags":[],"geometries":["#);
        for layer in 0..layers {
            self.add_triangles(text, layer)?;
        }
        text.push_str(r#"],"mode":"build","scratch":{"buffer":2,"offset":0}}],"op":"build"}"#);
        text.push_str(FULL_BARRIER);
        write!(
            text,
            r#",{{"infos":[{{"dst":1,"flags":[],"geometries":[{{"count":1,"data":{{"buffer":0,"offset":{instance}}},"#
        )?;
        text.push_str(r#""kind":"instances","primitive_offset":0}],"mode":"build","scratch":{"buffer":2,"offset":0},"uses":[0]}],"op":"build"}"#);
        text.push_str(FULL_BARRIER);
        write!(
            text,
            r#",{{"count":{rays},"flags":[],"hits":{{"buffer":3,"offset":{hits}}},"mask":255,"op":"trace","#
        )?;
        text.push_str(r#""rays":{"buffer":3,"offset":0},"script":[{"do":"confirm"}],"top":1}"#);
        text.push_str(r#",{"dst_access":["host_read"],"dst_stages":["host"],"op":"barrier","src_access":["memory_write"],"src_stages":["all"]}"#);
        text.push_str(r#",{"op":"end"},{"op":"submit"},{"op":"wait"}"#);
        let size = 80 * rays;
        writeln!(
            text,
            r#",{{"buffer":3,"form":"hits","offset":{hits},"op":"read","size":{size}}}]"#
        )
    }

    fn add_triangles(&self, text: &mut String, layer: u32) -> std::fmt::Result {
        if layer > 0 {
            text.push(',');
        }
        let (count, max_vertex, opaque) = (self.triangles(), self.vertices() - 1, layer % 2 == 0);
        let (index, vertex) = (self.offset_of(self.layers), self.offset_of(layer));
        write!(
            text,
            r#"{{"count":{count},"first_vertex":0,"format":"s32x3","index":{{"buffer":0,"offset":{index},"type":"u32"}},"#
        )?;
        write!(
            text,
            r#""kind":"triangles","max_vertex":{max_vertex},"opaque":{opaque},"primitive_offset":0,"stride":12,"#
        )?;
        write!(
            text,
            r#""transform_offset":0,"vertex":{{"buffer":0,"offset":{vertex}}}}}"#
        )
    }
}

fn add_buffer(
    text: &mut String,
    id: u32,
    size: u32,
    usage: &str,
    words: &[u32],
) -> std::fmt::Result {
    text.push_str(r#"{"data":""#);
    for byte in words.iter().flat_map(|word| word.to_le_bytes()) {
        for digit in [byte >> 4, byte & 15] {
            text.push(char::from(b"0123456789abcdef"[usize::from(digit)]));
        }
    }
    write!(
        text,
        r#"","id":{id},"op":"buffer","size":{size},"usage":["{usage}"]}}"#
    )
}

/// The size of a structure of so many geometries and primitives, and of the scratch memory of a build.
pub fn structure_size(geometries: u32, primitives: u32) -> u64 {
    (128 + 32 * u64::from(geometries) + 128 * u64::from(primitives)).next_multiple_of(256)
}

pub fn scratch_size(primitives: u32) -> u64 {
    (256 + 64 * u64::from(primitives)).next_multiple_of(256)
}
