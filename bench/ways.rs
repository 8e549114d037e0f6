// Least ways: the proved library against a plain Rust Dijkstra by array scan, on the same random nets of 64 boxes with at most 8 roads each.
// Answers are compared on thousands of nets; then both are timed in the same run.
use std::hint::black_box;
use std::time::Instant;

const BOXES: usize = 64;
const ROADS_AT_A_BOX: usize = 8;
type Costs = Vec<[u16; BOXES]>;

extern "C" {
    fn router_least_ways(n: u8, me: u8, counts: *const u64, counts_len: usize, tags: *const u64, tags_len: usize, costs: *const [u16; BOXES], costs_len: usize, dist: *mut u32, dist_len: usize, next: *mut u8, next_len: usize) -> u8;
}

#[inline(never)]
fn proved(me: usize, words: &[u64; BOXES], costs: &Costs, dist: &mut [u32; BOXES], next: &mut [u8; BOXES]) -> u8 {
    unsafe {
        router_least_ways(BOXES as u8, me as u8, words.as_ptr(), BOXES, words.as_ptr(), BOXES, costs.as_ptr(), costs.len(), dist.as_mut_ptr(), BOXES, next.as_mut_ptr(), BOXES)
    }
}

#[inline(never)]
fn plain(me: usize, costs: &Costs, dist: &mut [u32; BOXES], next: &mut [u8; BOXES]) {
    let mut done = [false; BOXES];
    *dist = [u32::MAX; BOXES];
    *next = [255; BOXES];
    dist[me] = 0;
    loop {
        let mut near = None;
        for e in 0..BOXES {
            if !done[e] && dist[e] != u32::MAX && near.map_or(true, |v: usize| dist[e] < dist[v]) {
                near = Some(e);
            }
        }
        let Some(v) = near else { return };
        done[v] = true;
        for e in 0..BOXES {
            let cost = costs[v][e];
            if cost == 0 || costs[e][v] == 0 || done[e] {
                continue;
            }
            let sum = dist[v] + cost as u32;
            let first = if v == me { e as u8 } else { next[v] };
            if sum < dist[e] || (sum == dist[e] && first < next[e]) {
                dist[e] = sum;
                next[e] = first;
            }
        }
    }
}

struct Random(u64);

impl Random {
    fn below(&mut self, n: u64) -> u64 {
        self.0 ^= self.0 << 13;
        self.0 ^= self.0 >> 7;
        self.0 ^= self.0 << 17;
        self.0 % n
    }
}

// A net with so many roads, none at a box that has eight already; costs up to `most`, so that small ones make ties.
fn net(random: &mut Random, roads: usize, most: u64) -> Costs {
    let mut costs = vec![[0u16; BOXES]; BOXES];
    let mut at = [0usize; BOXES];
    let mut laid = 0;
    for _try in 0..100_000 {
        if laid == roads {
            break;
        }
        let (a, e) = (random.below(64) as usize, random.below(64) as usize);
        if a != e && costs[a][e] == 0 && at[a] < ROADS_AT_A_BOX && at[e] < ROADS_AT_A_BOX {
            costs[a][e] = 1 + random.below(most) as u16;
            costs[e][a] = 1 + random.below(most) as u16;
            at[a] += 1;
            at[e] += 1;
            laid += 1;
        }
    }
    costs
}

fn main() {
    let words = [1u64; BOXES];
    let mut random = Random(88_172_645_463_325_252);
    let (mut d, mut n, mut dp, mut np) = ([0u32; BOXES], [0u8; BOXES], [0u32; BOXES], [0u8; BOXES]);
    for roads in [96, 128, 255] {
        let nets: Vec<Costs> = (0..1000).map(|k| net(&mut random, roads, if k % 2 == 0 { 65_535 } else { 4 })).collect();
        let mut differ = 0;
        for costs in &nets {
            for me in [0, 31, 63] {
                assert_eq!(proved(me, &words, costs, &mut d, &mut n), 0);
                plain(me, costs, &mut dp, &mut np);
                differ += (d != dp || n != np) as usize;
            }
        }
        let mut best = [f64::MAX; 2];
        for _ in 0..9 {
            let begun = Instant::now();
            for costs in &nets {
                proved(7, &words, black_box(costs), black_box(&mut d), black_box(&mut n));
            }
            best[0] = best[0].min(begun.elapsed().as_secs_f64() * 1e6 / nets.len() as f64);
            let begun = Instant::now();
            for costs in &nets {
                plain(7, black_box(costs), black_box(&mut dp), black_box(&mut np));
            }
            best[1] = best[1].min(begun.elapsed().as_secs_f64() * 1e6 / nets.len() as f64);
        }
        println!("{roads:3} roads: {differ} of {} answers differ; proved {:.2} us, plain {:.2} us, ratio {:.2}", nets.len() * 3, best[0], best[1], best[0] / best[1]);
    }
}
