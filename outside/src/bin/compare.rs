//! Compares the implementations on random cases, always the same ones under a seed.
//!
//! compare CASES SEED [--require-all] [--trace] [--program PATH] [--program-three PATH]
//! compare --case SEED NUMBER [--program PATH] [--program-three PATH]

use outside::arguments::Arguments;
use outside::hosts::{hosts, Host, Run};
use outside::rng::Rng;
use outside::seen::{tell, Seen};
use std::panic::{catch_unwind, AssertUnwindSafe};
use std::process::exit;

const USAGE: &str =
    "compare CASES SEED [--require-all] [--trace] [--program PATH] [--program-three PATH]
compare --case SEED NUMBER [--program PATH] [--program-three PATH]";

/// What the cases are run on.
struct On<'a> {
    hosts: &'a [Host],
    program: Option<&'a str>,
    program_three: Option<&'a str>,
}

/// Runs one case; on a difference tells it and ends with 1.
fn run(seed: u64, case: u64, on: &On, seen: &mut Seen) {
    let mut rng = Rng::of_case(seed, case);
    let &On { hosts, program, program_three } = on;
    let mut run = Run { hosts, program, program_three, seen };
    let outcome = catch_unwind(AssertUnwindSafe(|| run.case(&mut rng)));
    let text = match outcome {
        Ok(Ok(())) => return,
        Ok(Err(text)) => text,
        Err(_) => "panic".into(),
    };
    println!("different: {text}");
    let program = program.map_or(String::new(), |x| format!(" --program {x}"));
    let three = program_three.map_or(String::new(), |x| format!(" --program-three {x}"));
    println!("replay: compare --case {seed} {case}{program}{three}");
    exit(1)
}

fn main() {
    let mut args = Arguments::new(USAGE);
    let require_all = args.flag("--require-all", 0).is_some();
    let trace = args.flag("--trace", 0).is_some();
    let one_case = args.flag("--case", 2);
    let mut path = |name: &str| args.flag(name, 1).map(|x| x[0].clone());
    let (program, program_three) = (path("--program"), path("--program-three"));
    let (program, program_three) = (program.as_deref(), program_three.as_deref());
    let hosts = hosts();
    let on = On { hosts: &hosts, program, program_three };
    let names = hosts.iter().map(|x| x.name).chain(program).chain(program_three);
    let names: Vec<&str> = names.collect();
    println!("comparing engineer, {}", names.join(", "));
    let mut seen = Seen::default();

    if let Some(words) = one_case {
        args.numbers(0);
        run(args.number(&words[0]), args.number(&words[1]), &on, &mut seen);
        println!("1 cases, 0 different");
        return;
    }

    let numbers = args.numbers(2);
    let (cases, seed) = (numbers[0], numbers[1]);
    for case in 0..cases {
        if trace {
            eprintln!("case {case}");
        }
        run(seed, case, &on, &mut seen);
    }

    let mut counts = seen.counts();
    if program.is_some() {
        counts.push(("programs run".into(), seen.programs));
    }
    if program_three.is_some() {
        counts.push(("three: programs run".into(), seen.three.programs));
    }
    let all_seen = tell(&counts);
    if require_all && !all_seen {
        exit(1);
    }
    println!("{cases} cases, 0 different");
}
