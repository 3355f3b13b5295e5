#!/usr/bin/env python3
"""Times `live` of liveness. Run by hand: bench/live.py.

It copies the crates to a scratch folder, proves and builds a program over them there, and runs it: bodies of 10,000 blocks and as many locals,
in which each block copies a local of its own to the result. In the chain each block goes to the next one; in the ladder each may go back to the
one before it, too, so that all blocks but the last lie on loops. It prints a line for each (the time of `live`, how many locals are live at the
start of bb0) and the program's greatest memory in kilobytes.
"""
import scratch

# The files of the program's crate.
FILES = {
    "src/main.rt": """//! Times `live` on a chain of blocks and on a ladder of loops.
#![tactic(auto)]

use flow_rows::{End, Line, block, is_ready, program};
use liveness::live;
use mir_syntax::{Body, List, OutOfMemory, TyId};
use std::alloc::Global;
use std::io;
use std::time::Instant;

const COUNT: u32 = 10000;

fn end(number: u32, is_ladder: bool) -> End {
    let next = number.saturating_add(1);
    if next == COUNT {
        End::Return
    } else if is_ladder {
        End::Choose(number, number.saturating_sub(1), next)
    } else {
        End::Goto(next)
    }
}

fn body(alloc: Global, ty: TyId, is_ladder: bool) -> Result<Body, OutOfMemory> {
    let mut locals = List::new(alloc);
    let mut blocks = List::new(alloc);
    for number in 0..COUNT {
        locals.push(ty)?;
        let lines = [Line::Copy(0, number)];
        blocks.push(block(alloc, lines.as_slice(), end(number, is_ladder))?)?;
    }
    Ok(Body {
        args: 0,
        locals,
        blocks,
    })
}

fn main(rt: HostRuntime) -> io::Result<()> {
    let alloc = rt.alloc();
    let Ok(made) = program(alloc) else {
        return println!(rt; "out of memory");
    };
    for is_ladder in [false, true] {
        let Ok(body) = body(alloc, made.byte, is_ladder) else {
            return println!(rt; "out of memory");
        };
        if body.blocks.is_empty() || !is_ready(&made.program, &body) {
            return println!(rt; "not ready");
        }
        let start = Instant::now(&rt)?;
        let Ok(rows) = live(alloc, &made.program, &body) else {
            return println!(rt; "out of memory");
        };
        let time = start.elapsed(&rt)?;
        let mut count = 0u32;
        for local in 0..COUNT {
            if rows.starts.has(0, local) {
                count = count.saturating_add(1);
            }
        }
        let name = if is_ladder { "ladder" } else { "chain" };
        println!(rt; "{name}: {time:?}, {count} locals are live at the start")?;
    }
    Ok(())
}
""",
}

if __name__ == "__main__":
    scratch.run("live_bench", ["mir_syntax", "liveness", "bit_rows", "flow_rows"], FILES)
