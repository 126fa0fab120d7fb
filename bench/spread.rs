// How well the hash of nodes spreads them. For families of a million nodes such as diagrams have,
// and tables of three sizes, it counts how many nodes a search for each node looks at on the
// average when those that fall on one cell form a chain, and divides by what a random function
// would give, 1 + (n - 1) / (2 * cells). The worst of these numbers comes last.
#[derive(Clone, Copy)]
struct Node {
    fact: u64,
    low: u64,
    high: u64,
}

// a root as one number: twice its own, and one more for a leaf
fn inner(number: u64) -> u64 {
    number * 2
}

fn leaf(value: u64) -> u64 {
    (value & 0xffff_ffff) * 2 + 1
}

// what crates/storage/src/spread.rt computes
fn hash(node: &Node) -> u32 {
    let front = (node.fact << 33) + node.low;
    let sum = front.wrapping_mul(0x9e37_79b9_7f4a_7c15).wrapping_add(node.high.wrapping_mul(0xc2b2_ae3d_27d4_eb4f));
    let folded = sum ^ (sum >> 32);
    (folded.wrapping_mul(0xd6e8_feb8_6659_fd93) >> 32) as u32
}

fn looks(nodes: &[Node], cells: usize) -> f64 {
    let mut chain = vec![0u64; cells];
    let mut all = 0;
    for node in nodes {
        let home = hash(node) as usize % cells;
        chain[home] += 1;
        all += chain[home];
    }
    all as f64 / nodes.len() as f64
}

fn family(node: fn(u64) -> Node, count: u64) -> Vec<Node> {
    (0..count).map(node).collect()
}

// a scattered number, for the family without a pattern
fn scattered(i: u64) -> u64 {
    let x = i.wrapping_mul(0x9fb2_1c65_1e98_df25);
    (x ^ (x >> 28)).wrapping_mul(0xd6e8_feb8_6659_fd93) >> 20
}

fn main() {
    let families: [(&str, fn(u64) -> Node); 9] = [
        ("children without a pattern", |i| Node { fact: i % 40, low: inner(scattered(2 * i) % (i + 1)), high: inner(i) }),
        ("children i and i + 1", |i| Node { fact: i % 40, low: inner(i), high: inner(i + 1) }),
        ("rows and columns over each next fact", |i| Node { fact: 39 - i / 25_000 % 40, low: inner(i / 125 * 125), high: inner(i / 25_000 * 25_000 + i % 125 * 199) }),
        ("a square of one fact", |i| Node { fact: 7, low: inner(i / 1000), high: inner(i % 1000) }),
        ("one pair of children, then the next, at 40 facts", |i| Node { fact: i % 40, low: inner(i / 40), high: leaf(1) }),
        ("low any, high 1", |i| Node { fact: 3, low: inner(i), high: leaf(1) }),
        ("low 0, high any", |i| Node { fact: 3, low: leaf(0), high: inner(i) }),
        ("leaves v and -v", |i| Node { fact: 3, low: leaf(i), high: leaf(i.wrapping_neg()) }),
        ("leaves that are multiples of 4096", |i| Node { fact: 3, low: leaf(i * 4096), high: leaf(0) }),
    ];
    let mut worst: f64 = 0.0;
    for (name, node) in families {
        for (count, cells) in [(1_000_000, 1_048_576), (1_000_000, 1_000_000), (500_000, 500_009)] {
            let random = 1.0 + (count - 1) as f64 / (2 * cells) as f64;
            let ratio = looks(&family(node, count), cells) / random;
            println!("{name}: {count} nodes, {cells} cells, {ratio:.3}");
            worst = worst.max(ratio);
        }
    }
    println!("spread / random, worst {worst:.3}");
}
