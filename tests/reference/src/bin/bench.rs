//! Times the calls on one diagram: `bench FILE REPETITIONS`. Prints the median
//! nanoseconds per call of the reference and, if built as below with the
//! archive `libcapi.a` in the folder DIR, of the C library in the same run,
//! alternating, and the ratio library / reference.
//!
//! touch src/foreign.rs
//! RUSTFLAGS="-L native=DIR" cargo build --release --features compare --bin bench

use std::hint::black_box;
use std::time::Instant;

/// A repetition makes as many calls as fill this time.
const NANOSECONDS: u128 = 100_000;

/// Nanoseconds per call over so many calls.
fn time(calls: u32, call: &mut dyn FnMut()) -> f64 {
    let start = Instant::now();
    for _ in 0..calls {
        call();
    }
    start.elapsed().as_nanos() as f64 / f64::from(calls)
}

/// The number of calls that fill the time of a repetition.
fn calls(call: &mut dyn FnMut()) -> u32 {
    let mut calls = 1;
    while calls < 1 << 20 && time(calls, call) * f64::from(calls) < NANOSECONDS as f64 {
        calls *= 2;
    }
    calls
}

fn median(mut times: Vec<f64>) -> f64 {
    times.sort_by(f64::total_cmp);
    times[times.len() / 2]
}

/// Times the sides in turn and prints their medians.
fn measure(name: &str, repetitions: usize, sides: &mut [&mut dyn FnMut()]) {
    let counts: Vec<u32> = sides.iter_mut().map(|side| calls(side)).collect();
    let mut times = vec![Vec::new(); sides.len()];
    for _ in 0..repetitions.max(1) {
        for (i, side) in sides.iter_mut().enumerate() {
            times[i].push(time(counts[i], side));
        }
    }
    let medians: Vec<f64> = times.into_iter().map(median).collect();
    print!("{name}: reference {:.0} ns", medians[0]);
    if let Some(library) = medians.get(1) {
        print!(
            ", library {library:.0} ns, ratio {:.3}",
            library / medians[0]
        );
    }
    println!();
}

/// Measures a call of the reference, and that of the library if linked.
macro_rules! both {
    ($repetitions:expr, $call:ident, $input:expr, $lent:expr) => {{
        let mut space = $lent;
        let mut ours = || {
            let _ = black_box(reference::$call(black_box($input), &mut space));
        };
        #[cfg(feature = "compare")]
        {
            let mut space = $lent;
            let mut theirs = || {
                let _ = black_box(reference::foreign::$call(black_box($input), &mut space));
            };
            let name = stringify!($call);
            measure(name, $repetitions, &mut [&mut ours, &mut theirs]);
        }
        #[cfg(not(feature = "compare"))]
        measure(stringify!($call), $repetitions, &mut [&mut ours]);
    }};
}

fn main() {
    let arguments: Vec<String> = std::env::args().collect();
    let repetitions = arguments.get(2).and_then(|word| word.parse().ok());
    let (Some(file), Some(repetitions)) = (arguments.get(1), repetitions) else {
        println!("bench FILE REPETITIONS");
        std::process::exit(2);
    };
    let text = std::fs::read(file).expect("the file is readable");
    let mut table = vec![0; 900];
    both!(repetitions, read, &text, table.clone());
    let read = reference::read(&text, &mut table);
    let Ok(length) = read else {
        println!("{read:?}");
        return;
    };
    let table = &table[..length];
    both!(repetitions, check, table, vec![0; 208]);
    let mut cells = Vec::new();
    if let Err(refusal) = reference::populate(table, &mut cells) {
        if refusal.number == 8 {
            cells.resize(refusal.place as usize, 0);
        }
    }
    both!(repetitions, populate, table, cells.clone());
    match reference::populate(table, &mut cells) {
        Ok(_) => both!(repetitions, validate, table, cells.clone()),
        Err(refusal) => println!("{refusal:?}"),
    }
}
