// The same method in plain Rust: dense rows over fractions of 128 bits in lowest terms, with Bland's rule, on the same chain.
use std::env;

#[derive(Clone, Copy)]
struct Frac {
    num: i128,
    den: i128,
}

const ZERO: Frac = Frac { num: 0, den: 1 };

fn gcd(mut a: u128, mut b: u128) -> u128 {
    while b != 0 {
        (a, b) = (b, a % b);
    }
    a
}

fn lowest(num: i128, den: i128) -> Option<Frac> {
    let common = gcd(num.unsigned_abs(), den.unsigned_abs()) as i128;
    let sign = if den < 0 { -1 } else { 1 };
    Some(Frac { num: sign * (num / common), den: sign * (den / common) })
}

impl Frac {
    fn add(self, o: Frac) -> Option<Frac> {
        let left = self.num.checked_mul(o.den)?;
        let right = o.num.checked_mul(self.den)?;
        lowest(left.checked_add(right)?, self.den.checked_mul(o.den)?)
    }

    fn negated(self) -> Frac {
        Frac { num: -self.num, den: self.den }
    }

    fn mul(self, o: Frac) -> Option<Frac> {
        lowest(self.num.checked_mul(o.num)?, self.den.checked_mul(o.den)?)
    }

    fn div(self, o: Frac) -> Option<Frac> {
        lowest(self.num.checked_mul(o.den)?, self.den.checked_mul(o.num)?)
    }

    fn is_below(self, o: Frac) -> Option<bool> {
        Some(self.num.checked_mul(o.den)? < o.num.checked_mul(self.den)?)
    }
}

struct Tableau {
    vars: usize,
    columns: Vec<usize>,
    basics: Vec<usize>,
    rows: Vec<Vec<Frac>>,
    values: Vec<Frac>,
    bounds: Vec<Frac>,
}

impl Tableau {
    fn leaving(&self) -> Option<Option<usize>> {
        let mut best: Option<usize> = None;
        for (row, &variable) in self.basics.iter().enumerate() {
            if variable >= self.vars
                && self.values[row].is_below(self.bounds[variable - self.vars])?
                && best.is_none_or(|other| variable < self.basics[other])
            {
                best = Some(row);
            }
        }
        Some(best)
    }

    fn entering(&self, row: usize) -> Option<usize> {
        (0..self.columns.len())
            .filter(|&j| {
                let num = self.rows[row][j].num;
                num > 0 || num < 0 && self.columns[j] < self.vars
            })
            .min_by_key(|&j| self.columns[j])
    }

    fn rest(&self, variable: usize) -> Frac {
        if variable < self.vars { ZERO } else { self.bounds[variable - self.vars] }
    }

    fn exchange(&mut self, row: usize, column: usize) -> Option<()> {
        let leaves = self.basics[row];
        let enters = self.columns[column];
        let pivot = self.rows[row][column];
        let gap = self.bounds[leaves - self.vars].add(self.values[row].negated())?;
        let shift = gap.div(pivot)?;
        let entered = self.rest(enters).add(shift)?;
        let mut solved = Vec::with_capacity(self.columns.len());
        for j in 0..self.columns.len() {
            solved.push(if j == column {
                (Frac { num: 1, den: 1 }).div(pivot)?
            } else {
                self.rows[row][j].div(pivot.negated())?
            });
        }
        for i in 0..self.rows.len() {
            let factor = self.rows[i][column];
            if i == row || factor.num == 0 {
                continue;
            }
            self.values[i] = self.values[i].add(factor.mul(shift)?)?;
            self.rows[i][column] = ZERO;
            for j in 0..solved.len() {
                if solved[j].num != 0 {
                    self.rows[i][j] = self.rows[i][j].add(factor.mul(solved[j])?)?;
                }
            }
        }
        self.values[row] = entered;
        self.rows[row] = solved;
        self.basics[row] = enters;
        self.columns[column] = leaves;
        Some(())
    }
}

fn chain(count: usize) -> Tableau {
    let mut rows = vec![vec![ZERO; count]; count];
    for i in 0..count {
        rows[i][i] = Frac { num: 1, den: 1 };
        if i > 0 {
            rows[i][i - 1] = Frac { num: -1, den: 1 };
        }
    }
    Tableau {
        vars: count,
        columns: (0..count).collect(),
        basics: (count..2 * count).collect(),
        rows,
        values: vec![ZERO; count],
        bounds: vec![Frac { num: 1, den: 1 }; count],
    }
}

fn run(mut tableau: Tableau) -> Option<i128> {
    while let Some(row) = tableau.leaving()? {
        let column = tableau.entering(row)?;
        tableau.exchange(row, column)?;
    }
    let last = tableau.vars - 1;
    let value = tableau.basics.iter().position(|&v| v == last).map_or(ZERO, |row| tableau.values[row]);
    Some(value.num)
}

fn main() {
    let count = env::args().nth(1).and_then(|word| word.parse().ok()).unwrap_or(300);
    match run(chain(count)) {
        Some(value) => println!("{value}"),
        None => println!("none"),
    }
}
