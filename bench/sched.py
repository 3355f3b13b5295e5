#!/usr/bin/env python3
"""Times `weave` of sched_core. Run by hand: bench/sched.py.

It copies the crates to a scratch folder, proves and builds a program over them there, and runs it: 80,000 queries, each of which needs the query of
half its number, and 64 workers, which take 4,096 turns of a schedule and then turns in order to the end. It prints the program's line (answers,
events of the trail, the time of the weave) and its greatest memory in kilobytes.
"""
import scratch

# The files of the program's crate.
FILES = {
    "specs/Lib.antt": """pub mod Halves
pub mod Laws
""",
    "specs/Halves.antt": """-- Each query but the first needs the query of half its number. All are roots.
use Rattle.std.specs.Prelude.{◌≡◌, ℕ, zero, suc, ◌/◌, List, [], ◌∷◌, Option, Some, None}
use Rattle.sched_core.specs.Plan.{Plan}

abbrev pub needs : ℕ → List ℕ
needs zero = []
needs (suc q) = (suc q) / 2 ∷ []

abbrev pub plan : Plan
plan = record { queries = 80000; roots = 80000; root = λ i. i; needs = needs; steals = λ q. None; rank = λ q. q }

-- what the work was given, if anything, is what its query needs
abbrev pub IsWork : ℕ → Option ℕ → Type 0
IsWork q None = Unit {0}
IsWork q (Some n) = needs q ≡ n ∷ []
""",
    "specs/Laws.antt": """-- The plan is lawful.
use Rattle.std.specs.Prelude.{◌≡◌, ◌≢◌, ℕ, zero, suc, ◌+◌, ◌<◌, ◌/◌, Bool, true, false, ◌==◌, List, [], ◌∷◌, ◌++◌, Option, Some, None, refl}
use Rattle.std.proofs.Common.{arith, sym, ap, ◌∙◌}
use Rattle.std.proofs.lemmas.Bool.Decides.{nat_tests}
use Rattle.sched_core.specs.Plan.{Plan, IsLawful, has}
use Rattle.sched_bench.specs.Halves.{needs, plan}

halves : (q n : ℕ) → has n (needs q) ≡ true → n < q
halves zero n h = absurd (cc)
halves (suc q) n h = let k : n ≡ (suc q) / 2 = grind (arith, nat_tests) in omega (arith, k)

pub lawful : IsLawful plan
lawful = record {
  roots_below = λ i h. h;
  needs_below = λ q n h k. let l = halves q n k in omega (arith, l);
  no_cycle = λ q n h. halves q n h;
  one_thief = λ s q r h k. absurd (cc);
  distinct_roots = λ i j h k e. e;
  roots_stay = λ i q h. (cc);
  thief_waits = λ s q r h k. absurd (cc);
  stolen_last = λ s q h. absurd (cc);
}
""",
    "proofs/Lib.antt": """pub mod Works
""",
    "proofs/Works.antt": """-- What a work needs next.
use Rattle.std.proofs.Common.{◌≡◌, ◌≢◌, ℕ, zero, suc, ◌+◌, ◌<◌, ◌/◌, Bool, true, false, List, [], ◌∷◌, refl, sym, ap, ◌∙◌, subst, arith}
use Rattle.std.proofs.lemmas.Bool.Decides.{nat_tests}
use Rattle.std.specs.Prelude.{Option, Some, None, option_to_list}
use Rattle.sched_core.specs.Plan.{next_need}
use Rattle.sched_bench.specs.Halves.{needs, IsWork}

same_is_none : (n : ℕ) → next_need (n ∷ []) (n ∷ []) ≡ None
same_is_none n = grind (arith, nat_tests)

pub next_given : (q n : ℕ) → IsWork q (Some n) → next_need (needs q) (n ∷ []) ≡ None
next_given q n w = ap (λ (xs : List ℕ). next_need xs (n ∷ [])) w ∙ same_is_none n

pub next_first : (q : ℕ) → 0 < q → next_need (needs q) [] ≡ Some (q / 2)
next_first zero h = absurd (omega arith)
next_first (suc q) h = refl

none_of_some : {A : Type 0} (o : Option ℕ) (n : ℕ) → o ≡ None → o ≡ Some n → A
none_of_some o n e f = absurd (cc)

pub gave : (q need : ℕ) (o : Option ℕ) → IsWork q o → next_need (needs q) (option_to_list o) ≡ Some need → (needs q ≡ need ∷ []) × (o ≡ None)
gave q need (Some n) w h = none_of_some (next_need (needs q) (n ∷ [])) need (next_given q n w) h
gave zero need None w h = absurd (cc)
gave (suc q) need None w h = (ap (λ (x : ℕ). x ∷ []) (cc), refl)
""",
    "proofs/drawn/Invariants.antt": """use Rattle.std.proofs.Common.{◌<◌, All}
use Rattle.sched_bench.proofs.drawn.Given as goal

abbrev pub invariant-loop : goal.invariant-loop
invariant-loop l = All (λ w. w < 64) l.schedule
""",
    "src/main.rt": """//! Answers 80,000 queries by 64 workers.
#![tactic(auto)]
ghost use Rattle.std.specs.Prelude.{◌≡◌, ◌<◌, All, List, [], IfOk, option_to_list};
ghost use Rattle.sched_bench.specs.Halves.{plan, IsWork};
ghost use Rattle.sched_bench.specs.Laws.{lawful};

use mir_syntax::{List, OutOfMemory};
use sched_core::{Jobs, weave};
use std::alloc::Global;
use std::io;
use std::time::Instant;

#[derive(Drop)]
struct Halves {}

#[derive(Drop)]
struct Work {
    given: Option<u32>,
}

impl Jobs for Halves {
    type Answer = u32;

    type Work = Work;

    ghost plan = { λ _. plan };

    ghost out = { λ _ q. q };

    ghost is_work = { λ _ q work. IsWork q work.given };

    ghost given = { λ work. option_to_list work.given };

    fn queries(&self) -> u32 {
        80000
    }

    fn roots(&self) -> u32 {
        80000
    }

    fn root(&self, i: u32) -> u32 {
        i
    }

    fn steals(&self, _q: u32) -> Option<u32> {
        None
    }

    fn begin(&self, _q: u32) -> Result<Work, OutOfMemory> {
        Ok(Work { given: None })
    }

    #[tactic(auto, using(crate::proofs::Works::next_given, crate::proofs::Works::next_first))]
    fn next(&self, q: u32, work: &Work) -> Option<u32> {
        match work.given {
            Some(_) => None,
            None => {
                if q > 0 {
                    Some(q / 2)
                } else {
                    None
                }
            }
        }
    }

    #[tactic(auto, using(crate::proofs::Works::gave))]
    fn give(
        &self,
        _q: u32,
        work: &mut Work,
        need: u32,
        _answer: &u32,
    ) -> Result<(), OutOfMemory> {
        work.given = Some(need);
        Ok(())
    }

    fn finish(&self, q: u32, _work: Work, _taken: Option<u32>) -> Result<u32, OutOfMemory>
        ensures { IfOk result (λ answer. answer ≡ q) }
    {
        Ok(q)
    }

    ghost lawful = { λ _. lawful };
}

fn drawn(alloc: Global) -> Result<List<u32>, OutOfMemory>
    ensures { IfOk result (λ schedule. All (λ w. w < 64) schedule) }
{
    let mut schedule = List::new(alloc);
    let mut state: u32 = 1;
    for _ in 0..4096 {
        state = state.wrapping_mul(1664525).wrapping_add(1013904223);
        schedule.push((state >> 16) % 64)?;
    }
    Ok(schedule)
}

fn main(rt: HostRuntime) -> io::Result<()> {
    let alloc = rt.alloc();
    let Ok(schedule) = drawn(alloc) else {
        return Ok(());
    };
    let start = Instant::now(&rt)?;
    let Ok(woven) = weave(alloc, &Halves {}, 64, schedule.as_slice()) else {
        return println!(rt; "out of memory");
    };
    let time = start.elapsed(&rt)?;
    println!(rt; "{} answers, {} events, {time:?}", woven.answers.len(), woven.trail.len())?;
    Ok(())
}
""",
}

if __name__ == "__main__":
    scratch.run("sched_bench", ["mir_syntax", "sched_core"], FILES)
