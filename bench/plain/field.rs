//! The field of `gen 256 1`, with a tree of eight boxes a node.

use crate::exact::Point;

pub type Short = [i32; 3];

#[derive(Clone, Copy)]
pub struct Triangle {
    pub vertices: [Short; 3],
    pub number: u32,
}

#[derive(Clone, Copy)]
pub struct Bounds {
    pub lo: Short,
    pub hi: Short,
}

impl Bounds {
    pub fn of(triangle: &Triangle) -> Bounds {
        let [a, b, c] = triangle.vertices;
        let mut bounds = Bounds { lo: a, hi: a };
        for k in 0..3 {
            bounds.lo[k] = a[k].min(b[k]).min(c[k]);
            bounds.hi[k] = a[k].max(b[k]).max(c[k]);
        }
        bounds
    }

    fn and(self, other: Bounds) -> Bounds {
        let mut both = self;
        for k in 0..3 {
            both.lo[k] = self.lo[k].min(other.lo[k]);
            both.hi[k] = self.hi[k].max(other.hi[k]);
        }
        both
    }

    fn area(self) -> i64 {
        let [x, y, z] = [0, 1, 2].map(|k| i64::from(self.hi[k] - self.lo[k]));
        x * y + y * z + z * x
    }
}

enum Tree {
    Leaf {
        bounds: Bounds,
        first: u32,
        count: u32,
    },
    Inner {
        bounds: Bounds,
        halves: Box<[Tree; 2]>,
    },
}

impl Tree {
    /// The tree by halves over triangles, which it puts in its order. The first stands at a place.
    fn over(triangles: &mut [Triangle], first: u32) -> Tree {
        let bounds = triangles
            .iter()
            .map(Bounds::of)
            .reduce(Bounds::and)
            .expect("a triangle");
        let count = triangles.len();
        if count <= 4 {
            return Tree::Leaf {
                bounds,
                first,
                count: count as u32,
            };
        }
        let widest = (0..3)
            .max_by_key(|k| bounds.hi[*k] - bounds.lo[*k])
            .expect("an axis");
        triangles.select_nth_unstable_by_key(count / 2, |t| {
            let bounds = Bounds::of(t);
            (bounds.lo[widest] + bounds.hi[widest], t.number)
        });
        let (lower, upper) = triangles.split_at_mut(count / 2);
        let middle = first + lower.len() as u32;
        let halves = Box::new([Tree::over(lower, first), Tree::over(upper, middle)]);
        Tree::Inner { bounds, halves }
    }

    fn bounds(&self) -> Bounds {
        match self {
            Tree::Leaf { bounds, .. } | Tree::Inner { bounds, .. } => *bounds,
        }
    }

    /// Puts the wide node of this tree, and those below it, behind others. Gives its number.
    fn widen(&self, nodes: &mut Vec<WideNode>) -> u32 {
        let number = nodes.len();
        nodes.push(WideNode::EMPTY);
        for (k, child) in self.children().into_iter().enumerate() {
            let bounds = child.bounds();
            let (first, count) = match child {
                Tree::Leaf { first, count, .. } => (*first, *count),
                Tree::Inner { .. } => (child.widen(nodes), 0),
            };
            nodes[number].put(k, bounds, first, count);
        }
        number as u32
    }

    /// Up to eight subtrees: the one with the largest box is opened, as long as there is room.
    fn children(&self) -> Vec<&Tree> {
        let mut children = vec![self];
        while children.len() < 8 {
            let inner = |k: &usize| matches!(children[*k], Tree::Inner { .. });
            let largest = (0..children.len())
                .filter(inner)
                .max_by_key(|k| children[*k].bounds().area());
            let Some(k) = largest else { break };
            if let Tree::Inner { halves, .. } = children[k] {
                children[k] = &halves[0];
                children.push(&halves[1]);
            }
        }
        children
    }
}

/// A node of up to eight boxes. Below box k is another node where `count[k]` is 0, by its number in
/// `first[k]`, and else a leaf of so many triangles.
#[derive(Clone, Copy)]
#[repr(align(64))]
pub struct WideNode {
    pub lo: [[i32; 8]; 3],
    pub hi: [[i32; 8]; 3],
    pub first: [u32; 8],
    pub count: [u32; 8],
}

impl WideNode {
    const EMPTY: WideNode = WideNode {
        lo: [[i32::MAX; 8]; 3],
        hi: [[i32::MIN; 8]; 3],
        first: [0; 8],
        count: [0; 8],
    };

    fn put(&mut self, k: usize, bounds: Bounds, first: u32, count: u32) {
        for axis in 0..3 {
            self.lo[axis][k] = bounds.lo[axis];
            self.hi[axis][k] = bounds.hi[axis];
        }
        self.first[k] = first;
        self.count[k] = count;
    }

    /// A bit for each child that a window overlaps.
    pub fn overlap(&self, window: &Bounds) -> u8 {
        let mut met = [true; 8];
        for axis in 0..3 {
            for k in 0..8 {
                met[k] &=
                    (self.lo[axis][k] <= window.hi[axis]) & (window.lo[axis] <= self.hi[axis][k]);
            }
        }
        (0..8).fold(0, |bits, k| bits | u8::from(met[k]) << k)
    }

    pub fn corner(numbers: &[[i32; 8]; 3], k: usize) -> Point {
        [
            numbers[0][k] as i64,
            numbers[1][k] as i64,
            numbers[2][k] as i64,
        ]
    }
}

pub struct Scene {
    pub nodes: Vec<WideNode>,
    pub triangles: Vec<Triangle>,
}

impl Scene {
    /// The wide tree over triangles, which it puts in its order.
    pub fn over(mut triangles: Vec<Triangle>) -> Scene {
        let tree = Tree::over(&mut triangles, 0);
        let mut nodes = Vec::new();
        tree.widen(&mut nodes);
        Scene { nodes, triangles }
    }
}

/// Square cells of two triangles, 8 to a side, with heights from 0 to 6.
pub fn field(side: i32) -> Scene {
    let vertex = |i, j| [8 * i, 8 * j, (5 * i + 3 * j) % 7];
    let mut triangles = Vec::new();
    for (j, i) in (0..side).flat_map(|j| (0..side).map(move |i| (j, i))) {
        let (near, far) = (vertex(i, j), vertex(i + 1, j + 1));
        for vertices in [[near, vertex(i + 1, j), far], [near, far, vertex(i, j + 1)]] {
            let number = triangles.len() as u32;
            triangles.push(Triangle { vertices, number });
        }
    }
    Scene::over(triangles)
}
