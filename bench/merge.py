#!/usr/bin/env python3
"""Times `merged` of dest_prop. Run by hand: bench/merge.py.

It copies the crates to a scratch folder, proves and builds a program over them there, and runs it: bodies of 10,000 blocks, each of which goes to
the next one, and as many locals. In the first each block copies a local of its own to the result while all later ones are live, so that the
result conflicts with all but the last; in the second each block copies the local of the block before it to its own, so that all share one. It
prints a line for each (the time of `merged`, how many statements are left) and the program's greatest memory in kilobytes.
"""
import scratch

# The files of the program's crate.
FILES = {
    "src/main.rt": """//! Times `merged` on a body whose locals conflict and on one whose locals share one.
#![tactic(auto)]

use dest_prop::merged;
use flow_rows::{End, Line, block, is_ready, program};
use mir_syntax::{Body, List, OutOfMemory, TyId};
use std::alloc::Global;
use std::io;
use std::time::Instant;

const COUNT: u32 = 10000;

fn end(number: u32) -> End {
    let next = number.saturating_add(1);
    if next == COUNT {
        End::Return
    } else {
        End::Goto(next)
    }
}

fn line(number: u32, is_one: bool) -> Line {
    if is_one {
        Line::Copy(number, number.saturating_sub(1))
    } else {
        Line::Copy(0, number)
    }
}

fn body(alloc: Global, ty: TyId, is_one: bool) -> Result<Body, OutOfMemory> {
    let mut locals = List::new(alloc);
    let mut blocks = List::new(alloc);
    for number in 0..COUNT {
        locals.push(ty)?;
        let lines = [line(number, is_one)];
        blocks.push(block(alloc, lines.as_slice(), end(number))?)?;
    }
    Ok(Body {
        args: 0,
        locals,
        blocks,
    })
}

fn main(rt: HostRuntime) -> io::Result<()> {
    let alloc = rt.alloc();
    let Ok(made) = program(alloc) else {
        return println!(rt; "out of memory");
    };
    for is_one in [false, true] {
        let Ok(body) = body(alloc, made.byte, is_one) else {
            return println!(rt; "out of memory");
        };
        if body.blocks.is_empty() || !is_ready(&made.program, &body) {
            return println!(rt; "not ready");
        }
        let start = Instant::now(&rt)?;
        let Ok(left) = merged(alloc, &made.program, body) else {
            return println!(rt; "out of memory");
        };
        let time = start.elapsed(&rt)?;
        let mut count = 0usize;
        for block in left.blocks.as_slice() {
            count = count.saturating_add(block.stmts.len());
        }
        let name = if is_one { "one" } else { "apart" };
        println!(rt; "{name}: {time:?}, {count} statements are left")?;
    }
    Ok(())
}
""",
}

if __name__ == "__main__":
    scratch.run("merge_bench", ["mir_syntax", "dest_prop", "flow_rows"], FILES)
