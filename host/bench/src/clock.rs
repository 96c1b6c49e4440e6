//! The stop watch: ours and the Rust's in turns, the best round of each.

use judge::Rng;
use std::hint::black_box;
use std::time::{Duration, Instant};

/// So many that the processor does not learn by heart which way each of them goes.
const INPUTS: usize = 32_768;
const ROUNDS: usize = 15;
const SHORTEST_ROUND: Duration = Duration::from_millis(2);

pub struct Clock {
    pub rows: usize,
    only: String,
}

impl Clock {
    pub fn new(only: String, source: &str) -> Clock {
        println!("Rust: {source}; best of {ROUNDS} rounds from 4 places over up to {INPUTS} inputs; only the ratio is a claim");
        println!(
            "{:<36} {:>9} {:>9} {:>6}",
            "row", "ours ns", "Rust's ns", "ratio"
        );
        Clock { rows: 0, only }
    }

    /// Times both on the same inputs, after a look that they agree on them.
    pub fn row<I, B: Clone + PartialEq>(
        &mut self,
        name: &str,
        input: impl Fn(&mut Rng) -> I,
        buffer: B,
        ours: impl Fn(&I, &mut B) -> u32,
        rust: impl Fn(&I, &mut B) -> u32,
    ) {
        self.row_of(INPUTS, name, input, buffer, ours, rust);
    }

    /// The same with so many inputs, for rows whose inputs are large.
    pub fn row_of<I, B: Clone + PartialEq>(
        &mut self,
        count: usize,
        name: &str,
        input: impl Fn(&mut Rng) -> I,
        buffer: B,
        ours: impl Fn(&I, &mut B) -> u32,
        rust: impl Fn(&I, &mut B) -> u32,
    ) {
        if !name.contains(&self.only) {
            return;
        }
        let mut rng = Rng::named(1, name);
        let inputs: Vec<I> = (0..count).map(|_| input(&mut rng)).collect();
        for (at, input) in inputs.iter().enumerate() {
            let (mut a, mut b) = (buffer.clone(), buffer.clone());
            let agree = ours(input, &mut a) == rust(input, &mut b) && a == b;
            assert!(agree, "{name}: input {at} differs; run `compare` first");
        }
        let once = round::<0, 0, _, _>(&inputs, &buffer, 1, &rust).max(Duration::from_nanos(1));
        let repeats = (SHORTEST_ROUND.as_nanos() / once.as_nanos() + 1) as u32;
        let mut best = [Duration::MAX; 2];
        for _ in 0..ROUNDS {
            turn::<0, 0, _, _>(&inputs, &buffer, repeats, &ours, &rust, &mut best);
            turn::<16, 1_040, _, _>(&inputs, &buffer, repeats, &ours, &rust, &mut best);
            turn::<32, 2_080, _, _>(&inputs, &buffer, repeats, &ours, &rust, &mut best);
            turn::<48, 3_120, _, _>(&inputs, &buffer, repeats, &ours, &rust, &mut best);
        }
        let calls = f64::from(repeats) * count as f64;
        let [a, b] = best.map(|time| time.as_secs_f64() * 1e9 / calls);
        println!("{name:<36} {a:>9.2} {b:>9.2} {:>6.2}", a / b);
        self.rows += 1;
    }
}

/// Both sides once, from a loop that lies SHIFT bytes further on and a stack that lies GAP bytes further down. A third of a
/// nanosecond hangs on where a loop lies. A load waits for a store whose address ends in the same twelve bits, so that a
/// function with constants in memory takes up to twice as long where the stack happens to end as they do.
fn turn<const SHIFT: usize, const GAP: usize, I, B: Clone>(
    inputs: &[I],
    buffer: &B,
    repeats: u32,
    ours: impl Fn(&I, &mut B) -> u32,
    rust: impl Fn(&I, &mut B) -> u32,
    best: &mut [Duration; 2],
) {
    best[0] = best[0].min(round::<SHIFT, GAP, _, _>(inputs, buffer, repeats, ours));
    best[1] = best[1].min(round::<SHIFT, GAP, _, _>(inputs, buffer, repeats, rust));
}

/// One function over all inputs, `repeats` times.
#[inline(never)]
fn round<const SHIFT: usize, const GAP: usize, I, B: Clone>(
    inputs: &[I],
    buffer: &B,
    repeats: u32,
    call: impl Fn(&I, &mut B) -> u32,
) -> Duration {
    let gap = [0u8; GAP];
    black_box(&gap);
    let mut out = buffer.clone();
    // SAFETY: these instructions do nothing.
    unsafe { std::arch::asm!(".rept {}", "nop", ".endr", const SHIFT) };
    let start = Instant::now();
    for _ in 0..repeats {
        for input in inputs {
            black_box(call(input, &mut out));
        }
    }
    black_box(&out);
    start.elapsed()
}
