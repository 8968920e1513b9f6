//! The images that both sides work on.

/// Numbers that are the same in every run (xorshift64*).
pub struct Random(u64);

impl Random {
    pub fn new(seed: u64) -> Self {
        Self(seed.wrapping_mul(0x9E37_79B9_7F4A_7C15) | 1)
    }

    pub fn below(&mut self, n: usize) -> usize {
        self.0 ^= self.0 >> 12;
        self.0 ^= self.0 << 25;
        self.0 ^= self.0 >> 27;
        ((self.0.wrapping_mul(0x2545_F491_4F6C_DD1D) >> 33) as usize) % n
    }
}

/// Entries, and whether the files' places rise with their numbers.
pub const KINDS: [(usize, bool); 6] =
    [(16, true), (16, false), (1024, true), (1024, false), (16384, true), (16384, false)];

pub fn order(sorted: bool) -> &'static str {
    if sorted { "sorted" } else { "unsorted" }
}

pub const FST_OFFSET: usize = 0x2440;

/// Free bytes behind the table, so that it can grow.
const TABLE_SLACK: usize = 0x10000;

#[derive(Clone)]
pub struct Node {
    pub name: Vec<u8>,
    pub is_directory: bool,
    /// Offset, or the directory it is in.
    pub first: u32,
    /// Size, or next.
    pub second: u32,
}

/// Where the parts of a master lie.
pub struct Plan {
    pub nodes: Vec<Node>,
    pub path_of: Vec<Vec<u8>>,
    /// The file that is moved and resized.
    pub file: u32,
    /// A free place of the file's size and more, behind all files.
    pub free: u32,
    /// A free place between two files in the middle of all, of the size that was asked for.
    pub gap: u32,
    pub disc_end: u32,
}

/// The name of an entry by its number, and whether it is a directory.
pub type Naming = fn(u32, bool) -> Vec<u8>;

fn plain(number: u32, is_directory: bool) -> Vec<u8> {
    match is_directory {
        true => format!("folder_{number}").into(),
        false => format!("file_{number:06}.bin").into(),
    }
}

/// Directories of about twelve entries each, nested up to eight deep; the root is entry 0.
fn tree(n: usize, random: &mut Random, naming: Naming) -> Vec<Node> {
    let root = Node { name: vec![], is_directory: true, first: 0, second: n as u32 };
    let mut nodes = vec![root];
    let mut open = vec![0u32];
    while nodes.len() < n {
        if open.len() > 1 && random.below(13) == 0 {
            let shut = open.pop().unwrap() as usize;
            nodes[shut].second = nodes.len() as u32;
            continue;
        }
        let number = nodes.len() as u32;
        let parent = *open.last().unwrap();
        let is_directory = open.len() < 8 && random.below(12) == 0 || number == 1;
        let name = naming(number, is_directory);
        nodes.push(Node { name, is_directory, first: parent, second: number + 1 });
        if is_directory {
            open.push(number);
        }
    }
    for shut in open {
        nodes[shut as usize].second = n as u32;
    }
    nodes
}

fn paths(nodes: &[Node]) -> Vec<Vec<u8>> {
    let mut paths: Vec<Vec<u8>> = vec![];
    let mut open: Vec<usize> = vec![];
    for (i, node) in nodes.iter().enumerate() {
        while open.last().is_some_and(|&d| nodes[d].second as usize <= i) {
            open.pop();
        }
        let mut path = match open.last() {
            Some(&0) | None => vec![],
            Some(&d) => [&paths[d][..], b"/"].concat(),
        };
        path.extend(&node.name);
        paths.push(path);
        if node.is_directory {
            open.push(i);
        }
    }
    paths
}

pub fn table_of(nodes: &[Node]) -> Vec<u8> {
    let (mut table, mut texts) = (vec![], vec![]);
    for (i, node) in nodes.iter().enumerate() {
        let name = if i == 0 { 0 } else { texts.len() as u32 };
        table.extend((u32::from(node.is_directory) << 24 | name).to_be_bytes());
        table.extend(node.first.to_be_bytes());
        table.extend(node.second.to_be_bytes());
        if i > 0 {
            texts.extend(&node.name);
            texts.push(0);
        }
    }
    table.extend(texts);
    table
}

fn up(n: usize, align: usize) -> usize {
    n.div_ceil(align) * align
}

/// The plan of a master whose files are all empty.
pub fn plan_of_empty_files(nodes: Vec<Node>) -> Plan {
    let table = table_of(&nodes).len();
    let disc_end = up(FST_OFFSET + table + 0x20000, 0x8000) as u32;
    Plan { nodes, path_of: vec![], file: 0, free: 0, gap: 0, disc_end }
}

/// A master of `n` entries. Files are of 32 to 95 bytes, about half of them with free bytes behind; one in the middle of the table has
/// `size` bytes. Their places rise with their numbers, or are in no order.
pub fn plan(n: usize, sorted: bool, size: u32) -> Plan {
    plan_with_gap(n, sorted, size, 0)
}

/// The same, and `gap` bytes free between two files in the middle of all.
pub fn plan_with_gap(n: usize, sorted: bool, size: u32, gap: usize) -> Plan {
    laid_out(n, sorted, size, gap, None, plain)
}

/// As `plan`, with just `room` bytes free between the file of `size` bytes and the next.
pub fn plan_with_room(n: usize, sorted: bool, size: u32, room: usize) -> Plan {
    laid_out(n, sorted, size, 0, Some(room), plain)
}

/// As `plan`, with names of another kind, and the file in the middle of 64 bytes.
pub fn plan_with_names(n: usize, sorted: bool, naming: Naming) -> Plan {
    laid_out(n, sorted, 64, 0, None, naming)
}

fn laid_out(
    n: usize,
    sorted: bool,
    size: u32,
    gap: usize,
    room: Option<usize>,
    naming: Naming,
) -> Plan {
    let mut random = Random::new(n as u64);
    let mut nodes = tree(n, &mut random, naming);
    let files: Vec<usize> = (0..n).filter(|&i| !nodes[i].is_directory).collect();
    let file = files[files.len() / 2];
    let mut order = files.clone();
    if !sorted {
        for i in (1..order.len()).rev() {
            order.swap(i, random.below(i + 1));
        }
    }
    let mut at = up(FST_OFFSET + table_of(&nodes).len() + TABLE_SLACK, 0x8000);
    let (middle, mut gap_at) = (order.len() / 2, 0);
    for (k, i) in order.into_iter().enumerate() {
        if k == middle {
            gap_at = at;
            at += gap;
        }
        let length = if i == file { size as usize } else { 32 + random.below(64) };
        nodes[i].first = at as u32;
        nodes[i].second = length as u32;
        at += length;
        let is_apart = random.below(2) == 0;
        match room {
            Some(room) if i == file => at += room,
            _ if is_apart || i == file => at = up(at + 1, 32),
            _ => (),
        }
    }
    let free = up(at, 0x8000);
    let disc_end = up(free + size as usize + 0x20000, 0x8000);
    let path_of = paths(&nodes);
    let [file, free, gap, disc_end] = [file, free, gap_at, disc_end].map(|n| n as u32);
    Plan { nodes, path_of, file, free, gap, disc_end }
}

pub fn write_header(image: &mut [u8], fst_size: usize, disc_end: u32) {
    image[..6].copy_from_slice(b"GBNE01");
    image[0x1c..0x20].copy_from_slice(&0xc2339f3du32.to_be_bytes());
    image[0x20..0x25].copy_from_slice(b"bench");
    image[0x424..0x428].copy_from_slice(&(FST_OFFSET as u32).to_be_bytes());
    image[0x428..0x42c].copy_from_slice(&(fst_size as u32).to_be_bytes());
    image[0x434..0x438].copy_from_slice(&disc_end.to_be_bytes());
}

/// Header, table and the files' bytes, over an image that is all zeros.
pub fn write(plan: &Plan, image: &mut [u8]) {
    let table = table_of(&plan.nodes);
    write_header(image, table.len(), plan.disc_end);
    image[FST_OFFSET..FST_OFFSET + table.len()].copy_from_slice(&table);
    for (i, node) in plan.nodes.iter().enumerate().filter(|(_, node)| !node.is_directory) {
        let at = node.first as usize;
        let mut word = i as u64;
        for chunk in image[at..at + node.second as usize].chunks_mut(8) {
            word = word.wrapping_add(0x9E37_79B9_7F4A_7C15);
            chunk.copy_from_slice(&word.to_le_bytes()[..chunk.len()]);
        }
    }
}

pub fn image(plan: &Plan) -> Vec<u8> {
    let mut image = vec![0; plan.disc_end as usize];
    write(plan, &mut image);
    image
}

/// Bytes of a program, its header of 0x100 bytes included.
pub const PROGRAM: usize = 0x800;

/// A place for a program: behind the table and before all files.
pub fn behind(plan: &Plan) -> usize {
    up(FST_OFFSET + table_of(&plan.nodes).len(), 0x100)
}

/// A program of two text and three data sections, at a place that is free.
pub fn put_program(image: &mut [u8], at: usize) {
    let mut put = |at: usize, word: usize| {
        image[at..at + 4].copy_from_slice(&(word as u32).to_be_bytes());
    };
    put(0x420, at);
    let size = (PROGRAM - 0x100) / 5 / 4 * 4;
    for (k, section) in [0, 1, 7, 8, 9].into_iter().enumerate() {
        let end = if k == 4 { PROGRAM } else { 0x100 + (k + 1) * size };
        put(at + 4 * section, 0x100 + k * size);
        put(at + 0x48 + 4 * section, 0x8000_3100 + k * size);
        put(at + 0x90 + 4 * section, end - (0x100 + k * size));
    }
    put(at + 0xe0, 0x8000_3100);
    for (i, byte) in image[at + 0x100..at + PROGRAM].iter_mut().enumerate() {
        *byte = (i % 251) as u8;
    }
}
