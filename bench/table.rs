// What crates/table_bench does, with the standard library's HashMap: adds as many distinct keys as
// its argument says and finds them again. The map has its memory before the clock starts.
use std::collections::HashMap;
use std::time::Instant;

fn nth(i: u64) -> u64 {
    i.wrapping_mul(0x9e37_79b9_7f4a_7c15)
}

fn main() {
    let count: u64 = std::env::args().nth(1).and_then(|word| word.parse().ok()).expect("usage: table COUNT");
    let mut map: HashMap<u64, usize> = HashMap::with_capacity(count as usize);
    let start = Instant::now();
    for i in 0..count {
        let next = map.len();
        map.entry(nth(i)).or_insert(next);
    }
    let mut found = 0;
    for i in 0..count {
        if map.get(&nth(i)).is_some() {
            found += 1;
        }
    }
    let nanoseconds = start.elapsed().as_nanos();
    assert_eq!(found, count);
    println!("{nanoseconds}");
}
