// The same bank in plain Rust: terms by size, one for each row of values at the points, found in a hashed set of rows.
use std::collections::HashSet;
use std::env;
use std::rc::Rc;

#[derive(Clone, Copy)]
enum Op {
    And,
    Or,
    Xor,
    Add,
    Sub,
    Mul,
    Udiv,
    Urem,
    Shl,
    Lshr,
}

const OPERATORS: [Op; 10] =
    [Op::And, Op::Or, Op::Xor, Op::Add, Op::Sub, Op::Mul, Op::Udiv, Op::Urem, Op::Shl, Op::Lshr];

#[allow(dead_code)]
enum Term {
    Variable(usize),
    Apply(Op, Rc<Kept>, Rc<Kept>),
}

#[allow(dead_code)]
struct Kept {
    term: Term,
    row: Rc<Vec<u32>>,
}

fn applied(operator: Op, x: u32, y: u32) -> u32 {
    match operator {
        Op::And => x & y,
        Op::Or => x | y,
        Op::Xor => x ^ y,
        Op::Add => x.wrapping_add(y),
        Op::Sub => x.wrapping_sub(y),
        Op::Mul => x.wrapping_mul(y),
        Op::Udiv => x.checked_div(y).unwrap_or(u32::MAX),
        Op::Urem => x.checked_rem(y).unwrap_or(x),
        Op::Shl => x.checked_shl(y).unwrap_or(0),
        Op::Lshr => x.checked_shr(y).unwrap_or(0),
    }
}

fn next(state: u64) -> u64 {
    state.wrapping_mul(6364136223846793005).wrapping_add(1442695040888963407)
}

/// The kept terms by size, the rows that they have, and how many terms were tried.
struct Bank {
    levels: Vec<Vec<Rc<Kept>>>,
    rows: HashSet<Rc<Vec<u32>>>,
    tried: usize,
}

impl Bank {
    fn offer(&mut self, fresh: &mut Vec<Rc<Kept>>, row: Vec<u32>, term: impl FnOnce() -> Term) {
        self.tried += 1;
        if self.rows.contains(&row) {
            return;
        }
        let row = Rc::new(row);
        self.rows.insert(Rc::clone(&row));
        fresh.push(Rc::new(Kept { term: term(), row }));
    }

    fn choose(&mut self, fresh: &mut Vec<Rc<Kept>>, operator: Op, size: usize) {
        for first in 1..size.saturating_sub(1) {
            for i in 0..self.levels[first].len() {
                for j in 0..self.levels[size - 1 - first].len() {
                    let x = Rc::clone(&self.levels[first][i]);
                    let y = Rc::clone(&self.levels[size - 1 - first][j]);
                    let row = x.row.iter().zip(y.row.iter()).map(|(x, y)| applied(operator, *x, *y)).collect();
                    self.offer(fresh, row, || Term::Apply(operator, x, y));
                }
            }
        }
    }
}

fn main() {
    let words: Vec<usize> = env::args().skip(1).filter_map(|word| word.parse().ok()).collect();
    let (count, upto) = (words[0], words[1]);
    let mut state = 1;
    let points: Vec<[u32; 4]> = (0..count)
        .map(|_| {
            [(); 4].map(|_| {
                let value = (state >> 32) as u32;
                state = next(state);
                value
            })
        })
        .collect();
    let mut bank = Bank { levels: Vec::new(), rows: HashSet::new(), tried: 0 };
    for size in 0..=upto {
        let mut fresh = Vec::new();
        if size == 1 {
            for position in 0..4 {
                let row = points.iter().map(|point| point[position]).collect();
                bank.offer(&mut fresh, row, || Term::Variable(position));
            }
        }
        for operator in OPERATORS {
            bank.choose(&mut fresh, operator, size);
        }
        bank.levels.push(fresh);
    }
    let kept: usize = bank.levels.iter().map(Vec::len).sum();
    println!("tried {} kept {}", bank.tried, kept);
}
