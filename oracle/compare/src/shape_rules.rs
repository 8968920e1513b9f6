//! A second writing of every small table, by docs/RULES.md and docs/FORMAT.md alone: what is left of all
//! lists of files and nexts where those are taken out that cause 10 refuses an entry of, and the bytes of
//! their tables.

use crate::pair_rules::Item;

/// Of each entry, the root first, a directory's next; none of a file.
pub type Shape = Vec<Option<usize>>;

/// The most entries of a small table.
pub const MOST: usize = 8;

/// How many shapes there are, by docs/RULES.md.
const NUMBERS: [usize; MOST] = [1, 2, 6, 22, 90, 394, 1806, 8558];

/// The directory that entry k is in: the last one before it whose next is above its number.
pub fn parent(shape: &[Option<usize>], k: usize) -> usize {
    (0..k).rev().find(|d| shape[*d].is_some_and(|next| next > k)).unwrap_or(0)
}

/// Whether each next is behind its own entry, at most the count, and at most that of the parent.
pub fn is_shape(shape: &[Option<usize>]) -> bool {
    let good = |k: usize, next: usize| {
        k < next && next <= shape.len() && Some(next) <= shape[parent(shape, k)]
    };
    (1..shape.len()).all(|k| shape[k].is_none_or(|next| good(k, next)))
}

/// All lists of so many entries behind a root, files or directories with a next of up to `most`; entry 1
/// changes first.
pub fn lists(count: usize, most: usize) -> impl Iterator<Item = Shape> {
    let kinds = most + 2;
    (0..kinds.pow(count as u32 - 1)).map(move |mut number| {
        let mut shape = vec![Some(count)];
        for _ in 1..count {
            shape.push((number % kinds).checked_sub(1));
            number /= kinds;
        }
        shape
    })
}

/// All shapes of so many entries, by the entries from 1 on: a file before a directory, then the smaller next
/// first.
pub fn shapes(count: usize) -> Vec<Shape> {
    let mut all: Vec<Shape> = lists(count, count).filter(|shape| is_shape(shape)).collect();
    let place = |next: &Option<usize>| (next.is_some(), next.unwrap_or(0));
    all.sort_by_key(|shape| shape.iter().skip(1).map(place).collect::<Vec<_>>());
    assert_eq!(all.len(), NUMBERS[count - 1]);
    all
}

/// The name of entry k: the k-th lower-case letter; the root has none.
fn name(k: usize) -> Vec<u8> {
    ('a'..='z').skip(k.wrapping_sub(1)).take(k.min(1)).map(|letter| letter as u8).collect()
}

/// Its table written anew, with files of offset and size 0.
pub fn table(shape: &[Option<usize>]) -> Vec<u8> {
    let (mut records, mut texts) = (vec![], vec![]);
    for (k, next) in shape.iter().enumerate() {
        let words = match next {
            None => [texts.len(), 0, 0],
            Some(next) => [1 << 24 | texts.len(), parent(shape, k), *next],
        };
        records.extend(words.map(|word| (word as u32).to_be_bytes()).concat());
        if k > 0 {
            texts.extend([name(k), vec![0]].concat());
        }
    }
    [records, texts].concat()
}

/// The tree that it nests, from entry k on.
fn nested(shape: &[Option<usize>], k: usize) -> Item {
    if shape[k].is_none() {
        return Item::file(&name(k), 0, 0);
    }
    let inside = (k + 1..shape.len()).filter(|entry| parent(shape, *entry) == k);
    Item::directory(&name(k), inside.map(|entry| nested(shape, entry)).collect())
}

/// The tree that it nests: as many entries, with these nexts.
pub fn tree(shape: &[Option<usize>]) -> Item {
    let tree = nested(shape, 0);
    let nexts =
        tree.entries().into_iter().map(|entry| entry.directory.then_some(entry.size as usize));
    assert!(nexts.eq(shape.iter().copied()), "{shape:?} nests otherwise");
    tree
}
