#!/usr/bin/env python3
"""Times the calls of `Frac` and of `solve_lp`, in a scratch folder outside the repository.

Usage: tools/time_lp.py FOLDER. It copies the crates xn_frac and xn_lp into FOLDER, with what earlier checks kept of them, writes two
programs beside them, has them proved and built, and runs them: `calls` prints the best time of each call of `Frac` over numbers of four
shapes below 2^31 (40 rounds of 50,000 calls each); `large` solves one program of each size and prints its time and the most memory
that the process held. Remove FOLDER afterwards.
"""

import pathlib
import shutil
import subprocess
import sys
import time

CALLS = '''// Times the calls of Frac over varied numbers below 2^31.
#![tactic(auto)]

mod numbers;

use numbers::{Shape, numbers};
use std::io;
use std::time::Instant;
use xn_frac::Frac;

const ROUNDS: u32 = 40;
const REPEATS: u32 = 50;

#[derive(Clone, Copy, Debug)]
enum Op {
    Add,
    Sub,
    Mul,
    Div,
    Less,
    None,
}

fn num_of(found: Result<Frac, xn_frac::Wide>) -> i128 {
    match found {
        Ok(f) => f.num(),
        Err(_) => 1,
    }
}

#[inline(never)]
fn run(op: Op, left: &[Frac], right: &[Frac]) -> i128 {
    let mut seen: i128 = 0;
    for _ in 0..REPEATS {
        for (a, b) in left.iter().zip(right) {
            let num = match op {
                Op::Add => num_of(a.add(*b)),
                Op::Sub => num_of(a.sub(*b)),
                Op::Mul => num_of(a.mul(*b)),
                Op::Div => {
                    if b.num() != 0 {
                        num_of(a.div(*b))
                    } else {
                        0
                    }
                }
                Op::Less => {
                    if a.less(*b) {
                        1
                    } else {
                        0
                    }
                }
                Op::None => a.num(),
            };
            seen = seen.wrapping_add(num);
        }
    }
    seen
}

fn main(rt: HostRuntime) -> io::Result<()> {
    for shape in [Shape::Full, Shape::Varied, Shape::Ten, Shape::Small] {
        let left = numbers(rt.alloc(), shape, 7)?;
        let right = numbers(rt.alloc(), shape, 11)?;
        println!(rt; "{shape:?}")?;
        for op in [Op::Add, Op::Sub, Op::Mul, Op::Div, Op::Less, Op::None] {
            let mut best = u128::MAX;
            let mut seen: i128 = 0;
            for _ in 0..ROUNDS {
                let start = Instant::now(&rt)?;
                seen = seen.wrapping_add(run(op, left.as_slice(), right.as_slice()));
                let time = start.elapsed(&rt)?.as_nanos();
                best = best.min(time);
            }
            let tenths = best / 5_000;
            println!(rt; "{op:?} {}.{} ns sum {seen}", tenths / 10, tenths % 10)?;
        }
    }
    Ok(())
}
'''

NUMBERS = '''// Fractions by a seeded congruence.
use std::alloc::{AllocError, Global};
use xn_frac::Frac;

/// Which numbers.
#[derive(Clone, Copy, Debug)]
pub enum Shape {
    Full,
    Varied,
    Ten,
    Small,
}

fn next(state: &mut u64) -> u64 {
    *state = state
        .wrapping_mul(6_364_136_223_846_793_005)
        .wrapping_add(1_442_695_040_888_963_407);
    *state >> 33
}

fn number(state: &mut u64, shape: Shape) -> u64 {
    let bits = next(state);
    match shape {
        Shape::Full => bits,
        Shape::Varied => bits >> (next(state) % 31),
        Shape::Ten => bits >> 21,
        Shape::Small => bits >> 27,
    }
}

pub fn numbers(alloc: Global, shape: Shape, seed: u64) -> Result<Vec<Frac>, AllocError> {
    let mut state: u64 = seed;
    let mut list = Vec::new(alloc);
    for _ in 0..1000u32 {
        let num = number(&mut state, shape) as i128;
        let den = number(&mut state, shape).max(1) as i128;
        let negative = next(&mut state) & 1 == 1;
        list.push(Frac::new(if negative { -num } else { num }, den))?;
    }
    Ok(list)
}
'''

LARGE = '''// Solves one large program, or a smaller one where no argument is given.
#![tactic(auto)]

mod programs;

use programs::{Size, program};
use std::env;
use std::io;
use std::time::Instant;
use xn_lp::{LpAnswer, LpErr, solve_lp};

fn main(rt: HostRuntime) -> io::Result<()> {
    let mut size = Size::Hundred;
    for word in env::args(&rt)? {
        size = match word.as_str() {
            "sparse" => Size::Sparse,
            "tight" => Size::Tight,
            "wide" => Size::Wide,
            _ => size,
        };
    }
    let lp = program(rt.alloc(), size)?;
    println!(rt; "{} rows {} columns", lp.rows.len(), lp.cost.len())?;
    if !lp.names_columns() {
        return Ok(());
    }
    let start = Instant::now(&rt)?;
    let answer = solve_lp(rt.alloc(), &lp);
    let time = start.elapsed(&rt)?.as_micros();
    let name = match answer {
        Ok(LpAnswer::Best { point: _p, duals: _d }) => "best",
        Ok(LpAnswer::Nothing { ray: _r }) => "nothing",
        Err(LpErr::Wide(_, _)) => "wide",
        Err(LpErr::PivotCap(_)) => "cap",
        Err(LpErr::TooLarge {
            rows: _r,
            columns: _c,
        }) => "large",
        Err(LpErr::Memory) => "memory",
    };
    println!(rt; "{name} in {time} us")?;
    Ok(())
}
'''

PROGRAMS = '''// Programs by a seeded congruence.
use std::alloc::{AllocError, Global};
use xn_lp::{Items, Lp, LpRow};

/// Which program.
#[derive(Clone, Copy, Debug)]
pub enum Size {
    /// 100 rows of 5 terms over 300 columns.
    Hundred,
    /// 200 rows of 5 terms over 2,000 columns.
    Sparse,
    /// 200 rows of 40 terms over 2,000 columns.
    Wide,
    /// 200 rows of 15 terms with coefficient 1 over 2,000 columns, each to reach 1.
    Tight,
}

fn next(state: &mut u64) -> u64 {
    *state = state
        .wrapping_mul(6_364_136_223_846_793_005)
        .wrapping_add(1_442_695_040_888_963_407);
    *state >> 33
}

// The row of the crate's own test.
fn test_row(alloc: Global, state: &mut u64) -> Result<LpRow, AllocError> {
    let mut list = Vec::new(alloc);
    let mut least: i64 = 0;
    for k in 0..5u32 {
        *state = state
            .wrapping_mul(6_364_136_223_846_793_005)
            .wrapping_add(1_442_695_040_888_963_407);
        let column = (*state >> 33) % 60 * 5 + u64::from(k);
        let coefficient = ((*state >> 50) % 9) as i64 + 1;
        list.push((column as u32, coefficient))?;
        if column % 3 == 0 {
            least = least.wrapping_add(coefficient);
        }
    }
    Ok(LpRow {
        terms: Items::new(list),
        least,
    })
}

fn row(alloc: Global, state: &mut u64, size: Size) -> Result<LpRow, AllocError> {
    let (terms, columns): (u64, u64) = match size {
        Size::Hundred => (5, 300),
        Size::Sparse => (5, 2_000),
        Size::Wide => (40, 2_000),
        Size::Tight => (15, 2_000),
    };
    let mut list = Vec::new(alloc);
    let mut least: i64 = 0;
    let mut column: u64 = 0;
    for _ in 0..terms {
        column = column.wrapping_add(next(state) % (columns / 41)) % columns;
        let coefficient = match size {
            Size::Tight => 1,
            _ => (next(state) % 9) as i64 + 1,
        };
        list.push((column as u32, coefficient))?;
        if column % 3 == 0 {
            least = least.wrapping_add(coefficient);
        }
        column = column.wrapping_add(1) % columns;
    }
    if let Size::Tight = size {
        least = 1;
    }
    Ok(LpRow {
        terms: Items::new(list),
        least,
    })
}

pub fn program(alloc: Global, size: Size) -> Result<Lp, AllocError> {
    let (rows, columns): (u32, i64) = match size {
        Size::Hundred => (100, 300),
        _ => (200, 2_000),
    };
    let mut state: u64 = 1;
    let mut list = Vec::new(alloc);
    for _ in 0..rows {
        let row = match size {
            Size::Hundred => test_row(alloc, &mut state)?,
            _ => row(alloc, &mut state, size)?,
        };
        list.push(row)?;
    }
    let mut cost = Vec::new(alloc);
    for j in 0..columns {
        cost.push(j % 7 + 1)?;
    }
    Ok(Lp {
        cost: Items::new(cost),
        rows: Items::new(list),
    })
}
'''



def write(folder, name, files):
    """Writes the program crate."""
    source = folder / "crates" / name / "src"
    source.mkdir(parents=True, exist_ok=True)
    for file, text in files.items():
        (source / file).write_text(text)


def build(folder, name):
    """Proves, builds and runs the program once; gives the path of what was built."""
    crate = folder / "crates" / name
    done = subprocess.run(["rt", "run"], cwd=crate, stdin=subprocess.DEVNULL, capture_output=True, text=True)
    program = crate / "out" / name
    if not program.exists():
        sys.exit(done.stdout + done.stderr)
    return program


def held(process):
    """The most memory that the process has held."""
    try:
        status = pathlib.Path(f"/proc/{process}/status").read_text()
    except FileNotFoundError:
        return None
    return next((line.split(":")[1].strip() for line in status.splitlines() if line.startswith("VmHWM")), None)


def main():
    folder = pathlib.Path(sys.argv[1])
    here = pathlib.Path(__file__).resolve().parent.parent
    for name in ("xn_frac", "xn_lp"):
        shutil.copytree(here / "crates" / name, folder / "crates" / name, dirs_exist_ok=True)
    (folder / "crates.txt").write_text("xn_frac:\nxn_lp: xn_frac\ncalls: xn_frac\nlarge: xn_lp\n")
    write(folder, "calls", {"main.rt": CALLS, "numbers.rt": NUMBERS})
    write(folder, "large", {"main.rt": LARGE, "programs.rt": PROGRAMS})
    subprocess.run([build(folder, "calls")], check=True)
    program = build(folder, "large")
    for size in ("hundred", "sparse", "tight", "wide"):
        child = subprocess.Popen([program, size])
        most = "too short to see"
        while child.poll() is None:
            most = held(child.pid) or most
            time.sleep(0.01)
        print(f"{size}: memory at most {most}", flush=True)


main()
