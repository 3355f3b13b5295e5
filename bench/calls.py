#!/usr/bin/env python3
"""Times the components of call_graph. Run by hand: bench/calls.py.

It copies the crates to a scratch folder, proves and builds a program over them there, and runs it: bodies of 10,000 blocks, each of which goes to the
next one, and the last of which returns or goes back to the second. Whether one qualifies is told by the components of its blocks. It prints a
line for each (the time of `qualif` and its answer) and the program's greatest memory in kilobytes.
"""
import scratch

# The files of the program's crate.
FILES = {
    "src/main.rt": """//! Times `qualif` on a long way of blocks, with a loop and without.
#![tactic(auto)]

use call_graph::qualif;
use flow_rows::{End, Line, block, is_ready, program};
use mir_syntax::{Body, List, OutOfMemory, TyId};
use std::alloc::Global;
use std::io;
use std::time::Instant;

const COUNT: u32 = 10000;

fn end(number: u32, loops: bool) -> End {
    let next = number.saturating_add(1);
    if next < COUNT {
        End::Goto(next)
    } else if loops {
        End::Goto(1)
    } else {
        End::Return
    }
}

fn body(alloc: Global, ty: TyId, loops: bool) -> Result<Body, OutOfMemory> {
    let mut locals = List::new(alloc);
    let mut blocks = List::new(alloc);
    locals.push(ty)?;
    for number in 0..COUNT {
        let lines = [Line::Copy(0, 0)];
        blocks.push(block(alloc, lines.as_slice(), end(number, loops))?)?;
    }
    Ok(Body {
        args: 0,
        locals,
        blocks,
    })
}

fn main(rt: HostRuntime) -> io::Result<()> {
    let alloc = rt.alloc();
    let Ok(made) = program(alloc) else {
        return println!(rt; "out of memory");
    };
    for loops in [false, true] {
        let Ok(body) = body(alloc, made.byte, loops) else {
            return println!(rt; "out of memory");
        };
        if body.blocks.is_empty() || !is_ready(&made.program, &body) {
            return println!(rt; "not ready");
        }
        let start = Instant::now(&rt)?;
        let Ok(answer) = qualif(alloc, &body) else {
            return println!(rt; "out of memory");
        };
        let time = start.elapsed(&rt)?;
        let name = if loops { "loop" } else { "way" };
        println!(rt; "{name}: {time:?}, qualifies: {answer}")?;
    }
    Ok(())
}
""",
}

if __name__ == "__main__":
    scratch.run("calls_bench", ["mir_syntax", "call_graph", "flow_rows"], FILES)
