// The same join in plain Rust: rows in blocks of 64 points, the widest leaf, and the condition with the least left mixed.
use std::collections::HashSet;
use std::env;

fn rows(count: usize, points: usize, sparse: u64, seed: u64) -> Vec<Vec<u64>> {
    let mut state = seed;
    (0..count)
        .map(|_| {
            let mut row = vec![0u64; points.div_ceil(64)];
            for point in 0..points {
                state = state.wrapping_mul(6364136223846793005).wrapping_add(1442695040888963407);
                if (state >> 33) % sparse == 0 {
                    row[point / 64] |= 1 << (point % 64);
                }
            }
            row
        })
        .collect()
}

fn distinct(rows: Vec<Vec<u64>>) -> Vec<Vec<u64>> {
    let mut seen = HashSet::new();
    rows.into_iter().filter(|row| seen.insert(row.clone())).collect()
}

fn count(row: &[u64]) -> u64 {
    row.iter().map(|block| u64::from(block.count_ones())).sum()
}

fn joint(a: &[u64], b: &[u64]) -> u64 {
    a.iter().zip(b).map(|(x, y)| u64::from((x & y).count_ones())).sum()
}

fn join(points: Vec<u64>, goods: &[Vec<u64>], conditions: &[Vec<u64>]) -> Option<u64> {
    let size = count(&points);
    let leaf = goods.iter().max_by_key(|leaf| joint(leaf, &points))?;
    let good: Vec<u64> = leaf.iter().zip(&points).map(|(x, y)| x & y).collect();
    let all_good = count(&good);
    if all_good == size {
        return Some(1);
    }
    let mut best: Option<(u64, u64, &Vec<u64>)> = None;
    for row in conditions {
        let (there, good_there) = (joint(row, &points), joint(row, &good));
        let (here, good_here) = (size - there, all_good - good_there);
        if there == 0 || here == 0 {
            continue;
        }
        let mixed = good_there * (there - good_there) * here + good_here * (here - good_here) * there;
        let sizes = there * here;
        if best.is_none_or(|(least, least_sizes, _)| mixed * least_sizes < least * sizes) {
            best = Some((mixed, sizes, row));
        }
    }
    let (_, _, row) = best?;
    let there = points.iter().zip(row).map(|(x, y)| x & y).collect();
    let here = points.iter().zip(row).map(|(x, y)| x & !y).collect();
    Some(join(there, goods, conditions)? + join(here, goods, conditions)?)
}

fn main() {
    let words: Vec<usize> = env::args().skip(1).map(|word| word.parse().unwrap()).collect();
    let (points, leaves, tests) = (words[0], words[1], words[2]);
    let goods = distinct(rows(leaves, points, 16, 1));
    let conditions = distinct(rows(tests, points, 2, 2));
    let all = (0..points.div_ceil(64))
        .map(|block| if points - block * 64 >= 64 { u64::MAX } else { (1 << (points % 64)) - 1 })
        .collect();
    match join(all, &goods, &conditions) {
        Some(count) => println!("tree of {count} leaves"),
        None => println!("uncovered"),
    }
}
