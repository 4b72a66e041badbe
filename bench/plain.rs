// The same tables in plain Rust: prints, for the same two plants as the program `speed`, the list's hours and gain, and the microseconds of
// the quickest of five solves.
use std::time::Instant;

const BUDGET: usize = 1000;
const WIDTH: usize = BUDGET + 1;

#[derive(Clone, Copy)]
enum Shape {
    Leaf(usize),
    Series(usize, usize),
    Parallel(usize, usize),
}

#[derive(Clone, Copy)]
struct Node {
    shape: Shape,
    left: usize,
    right: usize,
}

struct Plant {
    hours: Vec<usize>,
    gain: Vec<i64>,
    lines: Vec<(usize, usize, i64)>,
    nodes: Vec<Node>,
}

impl Plant {
    fn leaf(&mut self, k: usize) -> usize {
        let (from, to, _) = self.lines[k];
        self.nodes.push(Node { shape: Shape::Leaf(k), left: from, right: to });
        self.nodes.len() - 1
    }

    fn parallel(&mut self, a: usize, b: usize) -> usize {
        let (left, right) = (self.nodes[a].left, self.nodes[a].right);
        self.nodes.push(Node { shape: Shape::Parallel(a, b), left, right });
        self.nodes.len() - 1
    }

    fn hops(&mut self, from: usize, to: usize) -> usize {
        if to - from == 1 {
            let (a, b) = (self.leaf(2 * from), self.leaf(2 * from + 1));
            let pair = self.parallel(a, b);
            if from < 2 {
                let c = self.leaf(126 + from);
                return self.parallel(pair, c);
            }
            return pair;
        }
        let middle = (from + to) / 2;
        let a = self.hops(from, middle);
        let b = self.hops(middle, to);
        let (left, right) = (self.nodes[a].left, self.nodes[b].right);
        self.nodes.push(Node { shape: Shape::Series(a, b), left, right });
        self.nodes.len() - 1
    }
}

fn plant(lowest: usize, spread: usize) -> Plant {
    let hours = (0..64).map(|k| lowest + k * 37 % spread).collect();
    let gain = (0..64).map(|k| (k * 7919 % 1000) as i64).collect();
    let lines = (0..128)
        .map(|k| {
            let from = if k < 126 { k / 2 } else { k - 126 };
            (from, from + 1, (k * 104_729 % 500) as i64)
        })
        .collect();
    let mut p = Plant { hours, gain, lines, nodes: Vec::new() };
    p.hops(0, 63);
    p
}

fn row(v: usize, l: usize, r: usize) -> usize {
    (4 * v + 2 * l + r) * WIDTH
}

// The best sum of a cell of each half in h hours, both halves cut to what their inner stations can take.
fn best(first: &[Option<i64>], second: &[Option<i64>], between: i64, spent: usize, h: usize, mut best: Option<i64>) -> Option<i64> {
    if h < spent {
        return best;
    }
    let rest = h - spent;
    let low = (rest + 1).saturating_sub(second.len());
    let high = first.len().min(rest + 1);
    for i in low..high {
        if let (Some(p), Some(q)) = (first[i], second[rest - i]) {
            let sum = p + q + between;
            if best.map_or(true, |b| sum > b) {
                best = Some(sum);
            }
        }
    }
    best
}

fn solve(p: &Plant, cells: &mut [Option<i64>]) -> (usize, i64) {
    let mut reach = vec![0usize; p.nodes.len()];
    for (v, node) in p.nodes.iter().enumerate() {
        let inside = match node.shape {
            Shape::Leaf(_) => 0,
            Shape::Series(a, b) => reach[a] + reach[b] + p.hours[p.nodes[a].right],
            Shape::Parallel(a, b) => reach[a] + reach[b],
        };
        reach[v] = inside.min(BUDGET);
        let (done, open) = cells.split_at_mut(row(v, 0, 0));
        for l in 0..2 {
            for r in 0..2 {
                let out = &mut open[(2 * l + r) * WIDTH..][..WIDTH];
                for h in 0..WIDTH {
                    out[h] = if h > reach[v] {
                        None
                    } else {
                        match node.shape {
                            Shape::Leaf(k) => if h == 0 { Some(if l == 1 && r == 1 { p.lines[k].2 } else { 0 }) } else { None },
                            Shape::Series(a, b) => {
                                let mid = p.nodes[a].right;
                                let shut = best(&done[row(a, l, 0)..][..reach[a] + 1], &done[row(b, 0, r)..][..reach[b] + 1], 0, 0, h, None);
                                best(&done[row(a, l, 1)..][..reach[a] + 1], &done[row(b, 1, r)..][..reach[b] + 1], p.gain[mid], p.hours[mid], h, shut)
                            }
                            Shape::Parallel(a, b) => best(&done[row(a, l, r)..][..reach[a] + 1], &done[row(b, l, r)..][..reach[b] + 1], 0, 0, h, None),
                        }
                    };
                }
            }
        }
    }
    let root = p.nodes.len() - 1;
    let (first, last) = (p.nodes[root].left, p.nodes[root].right);
    let mut found: Option<(i64, usize)> = None;
    for l in 0..2 {
        for r in 0..2 {
            for h in 0..WIDTH {
                let Some(x) = cells[row(root, l, r) + h] else { continue };
                let hours = h + l * p.hours[first] + r * p.hours[last];
                let gain = x + l as i64 * p.gain[first] + r as i64 * p.gain[last];
                if hours <= BUDGET && found.map_or(true, |(g, t)| gain > g || gain == g && hours < t) {
                    found = Some((gain, hours));
                }
            }
        }
    }
    let (gain, hours) = found.unwrap();
    (hours, gain)
}

fn main() {
    for (name, lowest, spread) in [("small-hours", 1, 29), ("large-hours", 40, 900)] {
        let p = plant(lowest, spread);
        let mut cells = vec![None; p.nodes.len() * 4 * WIDTH];
        let mut quickest = u128::MAX;
        let mut answer = (0, 0);
        for _ in 0..5 {
            let start = Instant::now();
            answer = solve(&p, &mut cells);
            quickest = quickest.min(start.elapsed().as_micros());
        }
        println!("{name} {} {} {quickest}", answer.0, answer.1);
    }
}
