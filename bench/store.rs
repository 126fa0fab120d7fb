// What crates/store_bench does, with the standard library's HashMap: adds as many different nodes as
// its argument says and finds them again. The map has its memory before the clock starts.
use std::collections::HashMap;
use std::time::Instant;

#[derive(Clone, Copy, PartialEq, Eq, Hash)]
enum Root {
    Inner(u32),
    Leaf(u32),
}

#[derive(Clone, Copy, PartialEq, Eq, Hash)]
struct Node {
    fact: u8,
    low: Root,
    high: Root,
}

const LAYER: u32 = 25_000;
const COLUMNS: u32 = 125;

fn nth(i: u32) -> Node {
    let layer = i / LAYER;
    let row = i % LAYER / COLUMNS;
    let column = i % COLUMNS;
    let fact = (39 - layer % 40) as u8;
    if layer == 0 {
        return Node { fact, low: Root::Leaf(row), high: Root::Leaf(column) };
    }
    let below = (layer - 1) * LAYER;
    Node { fact, low: Root::Inner(below + row * COLUMNS), high: Root::Inner(below + column * 199) }
}

fn main() {
    let count: u32 = std::env::args().nth(1).and_then(|word| word.parse().ok()).expect("usage: store COUNT");
    let mut map: HashMap<Node, usize> = HashMap::with_capacity(count as usize);
    let start = Instant::now();
    for i in 0..count {
        let next = map.len();
        map.entry(nth(i)).or_insert(next);
    }
    let mut found = 0;
    for i in 0..count {
        if map.get(&nth(i)) == Some(&(i as usize)) {
            found += 1;
        }
    }
    let nanoseconds = start.elapsed().as_nanos();
    assert_eq!(found, count);
    println!("{nanoseconds}");
}
