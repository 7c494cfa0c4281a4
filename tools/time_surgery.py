#!/usr/bin/env python3
"""Times 1,000,000 calls each of add_edge and delete_edge on a map of 100,000 segments: python3 tools/time_surgery.py

The map is a cycle. A round adds a segment beside one of it, within the face between the two, and deletes the older one, so
that the last segment takes its number. Each round asks same_face first, since add_edge wants one face, and it is timed
too: here it takes one step. The program is proved, built and run outside the repository, over copies of the crates.
"""
import pathlib
import shutil
import subprocess
import tempfile

PROGRAM = """
//! Times calls that change a map.
#![tactic(auto)]

use std::alloc::{AllocError, Global};
use std::io;
use std::time::Instant;
use xn_euler::delete_edge;
use xn_graph::Web;
use xn_map::{Corner, Map};

const SEGMENTS: u32 = 100_000;
const ROUNDS: u32 = 1_000_000;

/// A cycle: segment s leads from node s to the next.
fn cycle(alloc: Global) -> Result<Option<Map>, AllocError> {
    let mut ends = Vec::new(alloc);
    let mut next = Vec::new(alloc);
    for s in 0..SEGMENTS {
        ends.push((s, (s + 1) % SEGMENTS))?;
        next.push((2 * s + 2 * SEGMENTS - 1) % (2 * SEGMENTS))?;
        next.push((2 * s + 2) % (2 * SEGMENTS))?;
    }
    let Ok(web) = Web::make(SEGMENTS, ends) else {
        return Ok(None);
    };
    Ok(Map::make(alloc, web, next.as_slice()).ok())
}

/// Adds a segment beside that of the dart after d, and deletes that.
fn replace(map: &mut Map, d: u32) -> Result<bool, AllocError> {
    let segments = map.web().segments();
    if segments >= 1 << 30 || d >= 2 * segments {
        return Ok(false);
    }
    let e = map.next(d) ^ 1;
    if e >= 2 * segments || map.tail(d) == map.tail(e) {
        return Ok(false);
    }
    if !map.same_face(Corner::After(d), Corner::After(e)) {
        return Ok(false);
    }
    map.add_edge(Corner::After(d), Corner::After(e))?;
    if e / 2 >= map.web().segments() {
        return Ok(false);
    }
    delete_edge(map, e / 2);
    Ok(true)
}

/// Goes through the darts in long steps. Answers whether each round was made.
fn replace_many(map: &mut Map) -> Result<bool, AllocError> {
    let mut d = 0;
    for _ in 0..ROUNDS {
        if !replace(map, d)? {
            return Ok(false);
        }
        d = (d % (2 * SEGMENTS) + 123_457) % (2 * SEGMENTS);
    }
    Ok(true)
}

fn main(rt: HostRuntime) -> io::Result<()> {
    let Some(mut map) = cycle(rt.alloc())? else {
        println!(rt; "no map")?;
        return Ok(());
    };
    let start = Instant::now(&rt)?;
    let all = replace_many(&mut map)?;
    let milliseconds = start.elapsed(&rt)?.as_millis();
    let flat = map.is_flat(rt.alloc())?;
    println!(rt; "{ROUNDS} rounds in {milliseconds} ms, all made: {all}, flat: {flat}, segments: {}", map.web().segments())?;
    Ok(())
}
"""


def below(name, lines):
    """The crates that a crate stands on, and itself, lowest first."""
    own = [n for n in lines[name] if n in lines]
    return list(dict.fromkeys([m for n in own for m in below(n, lines)] + [name]))


top = pathlib.Path(__file__).resolve().parent.parent
lines = {}
for line in (top / "crates.txt").read_text().splitlines():
    if ":" in line and not line.startswith("#"):
        name, needs = line.split(":")
        lines[name.split()[0]] = needs.split()
with tempfile.TemporaryDirectory() as room:
    folder = pathlib.Path(room)
    names = below("xn_euler", lines)
    for name in names:
        shutil.copytree(top / "crates" / name, folder / "crates" / name, symlinks=True)
    (folder / "crates.txt").write_text(
        "".join(f"{n}: {' '.join(lines[n])}\n" for n in names) + "surgery_time: xn_euler xn_map xn_graph\n"
    )
    shutil.copy(top / "HANDLES", folder)
    subprocess.run(["git", "init", "-q", folder], check=True)
    program = folder / "crates" / "surgery_time"
    (program / "src").mkdir(parents=True)
    (program / "src" / "main.rt").write_text(PROGRAM.lstrip())
    raise SystemExit(subprocess.run(["rt", "run"], cwd=program).returncode)
