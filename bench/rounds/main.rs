//! Nanoseconds per pixel-step of the engine, in rounds and each pixel by itself, beside a plain Rust interpreter of the same records.
//! `bench/rounds/run` builds and runs it.
use std::hint::black_box;
use std::time::Instant;

#[link(name = "engine_bench", kind = "static")]
#[link(name = "libc_c", kind = "static")]
unsafe extern "C" {
    safe fn engine_runs(parting: bool, in_rounds: bool, times: u32) -> u32;
}

const TIMES: u32 = 200;
const REPEATS: usize = 15;
const PIXELS: usize = 64;
// One step, then fifty turns of six.
const STEPS: u32 = 301;

#[derive(Clone, Copy)]
struct Row {
    holds: u16,
    role: u16,
    word: u32,
}

#[derive(Clone, Copy, Default)]
struct Record {
    kind: u16,
    to: u16,
    a: u16,
    b: u16,
    next: u16,
}

#[derive(Clone, Copy)]
struct Pixel {
    registers: [u32; 64],
    place: u16,
    steps: u16,
    ended: bool,
}

fn row(holds: u16, role: u16, word: u32) -> Row {
    Row { holds, role, word }
}

fn record(kind: u16, to: u16, a: u16, b: u16, next: u16) -> Record {
    Record { kind, to, a, b, next }
}

fn rows() -> Vec<Row> {
    vec![
        row(3, 1, 0),
        row(3, 2, 0),
        row(2, 0, 0),
        row(2, 0, 1),
        row(2, 0, 50),
        row(1, 0, 0),
        row(3, 0, 65000),
        row(3, 0, 66000),
        row(3, 0, 65536),
    ]
}

fn records() -> Vec<Record> {
    vec![
        Record::default(),
        record(2, 1, 0, 0, 2),
        record(9, 5, 0, 8, 3),
        record(15, 0, 5, 5, 4),
        record(5, 1, 1, 6, 6),
        record(5, 1, 1, 7, 6),
        record(3, 2, 2, 3, 7),
        record(9, 5, 2, 4, 8),
        record(15, 0, 5, 0, 2),
    ]
}

fn start(rows: &[Row], input: u32) -> Pixel {
    let mut registers = [0; 64];
    for (register, row) in registers.iter_mut().zip(rows) {
        *register = if row.role == 1 { input } else { row.word };
    }
    Pixel { registers, place: 1, steps: 0, ended: false }
}

fn clip(n: i64) -> u32 {
    n.clamp(i32::MIN as i64, i32::MAX as i64) as i32 as u32
}

fn step(rows: &[Row], records: &[Record], budget: u16, p: &mut Pixel) {
    let c = &records[p.place as usize];
    let a = p.registers[c.a as usize] as i32;
    let b = p.registers[c.b as usize] as i32;
    let number = rows[c.a as usize].holds == 3;
    p.steps += 1;
    let mut next = c.next;
    let word = match (c.kind, number) {
        (2, _) => Some(a as u32),
        (3, true) => Some(a.saturating_add(b) as u32),
        (3, false) => Some(a.wrapping_add(b) as u32),
        (4, true) => Some(a.saturating_sub(b) as u32),
        (4, false) => Some(a.wrapping_sub(b) as u32),
        (5, true) => Some(clip(a as i64 * b as i64 / 65536)),
        (5, false) => Some(a.wrapping_mul(b) as u32),
        (8, true) => Some(0i32.saturating_sub(a) as u32),
        (8, false) => Some(a.wrapping_neg() as u32),
        (9, _) => Some((a < b) as u32),
        (10, _) => Some((a == b) as u32),
        (11, _) => Some((a == 0) as u32),
        (13, _) => Some((a >> 16) as u32),
        (15, _) => {
            if a == 0 {
                next = c.b;
            }
            None
        }
        _ => {
            p.ended = true;
            return;
        }
    };
    if let Some(word) = word {
        p.registers[c.to as usize] = word;
    }
    p.place = next;
    p.ended = next == 0 || p.steps == budget;
}

fn plain_alone(rows: &[Row], records: &[Record], budget: u16, inputs: &[u32]) -> u32 {
    let mut sum = 0u32;
    for input in inputs {
        let mut p = start(rows, *input);
        while !p.ended {
            step(rows, records, budget, &mut p);
        }
        sum = sum.wrapping_add(p.registers[1]);
    }
    sum
}

fn plain_rounds(rows: &[Row], records: &[Record], budget: u16, inputs: &[u32]) -> u32 {
    let mut pixels: Vec<Pixel> = inputs.iter().map(|input| start(rows, *input)).collect();
    let mut rounds = 0u32;
    while let Some(low) = pixels.iter().filter(|p| !p.ended).map(|p| p.place).min() {
        for p in pixels.iter_mut().filter(|p| !p.ended && p.place == low) {
            step(rows, records, budget, p);
        }
        rounds += 1;
    }
    pixels.iter().fold(rounds, |sum, p| sum.wrapping_add(p.registers[1]))
}

fn plain(parting: bool, in_rounds: bool, times: u32) -> u32 {
    let rows = rows();
    let records = records();
    let inputs: Vec<u32> = (0..PIXELS).map(|i| if parting && i % 2 == 1 { 80000 } else { 30000 }).collect();
    let mut sum = 0u32;
    for _ in 0..times {
        let (rows, records, inputs) = (black_box(&rows[..]), black_box(&records[..]), black_box(&inputs[..]));
        sum = sum.wrapping_add(if in_rounds {
            plain_rounds(rows, records, u16::MAX, inputs)
        } else {
            plain_alone(rows, records, u16::MAX, inputs)
        });
    }
    sum
}

fn timed(run: fn(bool, bool, u32) -> u32, parting: bool, in_rounds: bool) -> (f64, u32) {
    let begin = Instant::now();
    let sum = run(black_box(parting), black_box(in_rounds), black_box(TIMES));
    (begin.elapsed().as_secs_f64(), sum)
}

fn engine(parting: bool, in_rounds: bool, times: u32) -> u32 {
    engine_runs(parting, in_rounds, times)
}

fn main() {
    println!("ns per pixel-step          plain   engine   ratio");
    for (parting, in_rounds, name) in [
        (false, true, "lockstep, in rounds"),
        (true, true, "parting, in rounds"),
        (false, false, "alone, one way"),
        (true, false, "alone, two ways"),
    ] {
        let mut best = [f64::MAX; 2];
        let mut sums = [0; 2];
        for _ in 0..REPEATS {
            for (i, run) in [plain as fn(bool, bool, u32) -> u32, engine].into_iter().enumerate() {
                let (seconds, sum) = timed(run, parting, in_rounds);
                best[i] = best[i].min(seconds);
                sums[i] = sum;
            }
        }
        assert_eq!(sums[0], sums[1], "{name}");
        let each = best.map(|s| s * 1e9 / (TIMES as f64 * PIXELS as f64 * STEPS as f64));
        println!("{name:<24} {:>7.2} {:>8.2} {:>7.2}", each[0], each[1], each[1] / each[0]);
    }
}
