// The same measurement in plain Rust: the same random terms, and a tree walker that takes no memory.
use std::env;

#[derive(Clone, Copy)]
enum Op {
    Ite,
    Add,
    Sub,
    Lt,
    BvAdd,
    BvSub,
    BvAnd,
    BvOr,
    BvXor,
    BvMul,
    BvLshr,
    BvUlt,
}

#[derive(Clone, Copy)]
struct Word {
    width: u8,
    bits: u64,
}

#[derive(Clone, Copy)]
enum Value {
    Truth(bool),
    Whole(i128),
    Bits(Word),
}

enum Term {
    Const(Value),
    Var(u32),
    App(Op, Vec<Term>),
}

struct Kit {
    vectors: bool,
    binary: &'static [Op],
    less: Op,
}

impl Kit {
    fn value(&self, number: u64) -> Value {
        if self.vectors {
            Value::Bits(Word { width: 64, bits: number })
        } else {
            Value::Whole(i128::from(number))
        }
    }
}

fn truth(value: Value) -> bool {
    matches!(value, Value::Truth(true))
}

fn whole(value: Value) -> i128 {
    match value {
        Value::Whole(number) => number,
        _ => 0,
    }
}

fn word(value: Value) -> Word {
    match value {
        Value::Bits(word) => word,
        _ => Word { width: 1, bits: 0 },
    }
}

fn lowest(width: u8, bits: u64) -> Word {
    Word { width, bits: bits & (u64::MAX >> (64 - width)) }
}

fn evaluate(term: &Term, values: &[Value]) -> Option<Value> {
    match term {
        Term::Const(value) => Some(*value),
        Term::Var(position) => Some(values[*position as usize]),
        Term::App(op, arguments) => apply(*op, arguments, values),
    }
}

/// An operation on integers, from the left.
fn wholes(
    arguments: &[Term],
    values: &[Value],
    step: fn(i128, i128) -> Option<i128>,
) -> Option<Value> {
    let mut total = whole(evaluate(&arguments[0], values)?);
    for argument in &arguments[1..] {
        total = step(total, whole(evaluate(argument, values)?))?;
    }
    Some(Value::Whole(total))
}

/// An operation on vectors of one width, from the left.
fn words(arguments: &[Term], values: &[Value], step: impl Fn(u64, u64) -> u64) -> Option<Value> {
    let mut total = word(evaluate(&arguments[0], values)?);
    for argument in &arguments[1..] {
        let next = word(evaluate(argument, values)?);
        total = lowest(total.width, step(total.bits, next.bits));
    }
    Some(Value::Bits(total))
}

fn apply(op: Op, arguments: &[Term], values: &[Value]) -> Option<Value> {
    match op {
        Op::Ite => {
            let test = truth(evaluate(&arguments[0], values)?);
            let there = evaluate(&arguments[1], values)?;
            let here = evaluate(&arguments[2], values)?;
            Some(if test { there } else { here })
        }
        Op::Add => wholes(arguments, values, |x, y| x.checked_add(y)),
        Op::Sub => wholes(arguments, values, |x, y| x.checked_sub(y)),
        Op::Lt => {
            let first = whole(evaluate(&arguments[0], values)?);
            let second = whole(evaluate(&arguments[1], values)?);
            Some(Value::Truth(first < second))
        }
        Op::BvAdd => words(arguments, values, |x, y| x.wrapping_add(y)),
        Op::BvSub => words(arguments, values, |x, y| x.wrapping_sub(y)),
        Op::BvAnd => words(arguments, values, |x, y| x & y),
        Op::BvOr => words(arguments, values, |x, y| x | y),
        Op::BvXor => words(arguments, values, |x, y| x ^ y),
        Op::BvMul => words(arguments, values, |x, y| x.wrapping_mul(y)),
        Op::BvLshr => words(arguments, values, |x, y| if y < 64 { x >> y } else { 0 }),
        Op::BvUlt => {
            let first = word(evaluate(&arguments[0], values)?).bits;
            let second = word(evaluate(&arguments[1], values)?).bits;
            Some(Value::Truth(first < second))
        }
    }
}

fn next(state: u64) -> u64 {
    state.wrapping_mul(6364136223846793005).wrapping_add(1442695040888963407)
}

fn leaf(kit: &Kit, pick: u64) -> Term {
    match pick % 4 {
        3 => Term::Const(kit.value(pick / 4 % 100)),
        position => Term::Var(position as u32),
    }
}

fn over(kit: &Kit, pick: u64, first: Term, second: Term, level: &mut Vec<Term>) -> Term {
    if pick % 8 == 0 {
        if let Some(third) = level.pop() {
            let test = Term::App(kit.less, vec![first, second]);
            return Term::App(Op::Ite, vec![test, third, Term::Var(0)]);
        }
    }
    let place = ((pick / 8 % 7) as usize).min(kit.binary.len() - 1);
    Term::App(kit.binary[place], vec![first, second])
}

fn random_term(kit: &Kit, leaves: u32) -> Option<Term> {
    let mut state = 1;
    let mut level = Vec::new();
    for _ in 0..leaves {
        state = next(state);
        level.push(leaf(kit, state >> 33));
    }
    while level.len() > 1 {
        let mut above = Vec::new();
        while let Some(first) = level.pop() {
            above.push(match level.pop() {
                Some(second) => {
                    state = next(state);
                    over(kit, state >> 33, first, second, &mut level)
                }
                None => first,
            });
        }
        level = above;
    }
    level.pop()
}

fn nodes(term: &Term) -> u64 {
    match term {
        Term::App(_, arguments) => 1 + arguments.iter().map(nodes).sum::<u64>(),
        _ => 1,
    }
}

fn main() {
    let args: Vec<String> = env::args().collect();
    let (leaves, rounds) = (args[2].parse().unwrap(), args[3].parse().unwrap());
    let kit = if args[1] == "lia" {
        Kit { vectors: false, binary: &[Op::Add, Op::Sub], less: Op::Lt }
    } else {
        let binary = &[
            Op::BvAdd, Op::BvSub, Op::BvAnd, Op::BvOr, Op::BvXor, Op::BvMul, Op::BvLshr,
        ];
        Kit { vectors: true, binary, less: Op::BvUlt }
    };
    let term = random_term(&kit, leaves).unwrap();
    let mut total = 0i128;
    for round in 0..rounds {
        let values = vec![kit.value(round), kit.value(round / 3), kit.value(round ^ 21)];
        total = match evaluate(&term, &values) {
            Some(Value::Whole(number)) => total.wrapping_add(number),
            Some(Value::Bits(word)) => total.wrapping_add(i128::from(word.bits)),
            _ => total,
        };
    }
    println!("nodes {} sum {total}", nodes(&term));
}
