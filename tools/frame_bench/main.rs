//! Nanoseconds per get and per put through each frame, beside a plain loop over a slice.
//! `tools/frame_bench/run` builds and runs it.
use std::hint::black_box;
use std::time::Instant;

// The allocator that the Rattle functions take first has no size, so nothing is passed for it.
#[link(name = "frame_bench", kind = "static")]
#[link(name = "libc_c", kind = "static")]
unsafe extern "C" {
    safe fn planar_gets(pixels: usize, channels: usize, by_channel: bool, rounds: usize) -> u32;
    safe fn planar_puts(pixels: usize, channels: usize, by_channel: bool, rounds: usize) -> u32;
    safe fn packed_gets(pixels: usize, channels: usize, by_channel: bool, rounds: usize) -> u32;
    safe fn packed_puts(pixels: usize, channels: usize, by_channel: bool, rounds: usize) -> u32;
    safe fn field_gets(pixels: usize, channels: usize, by_channel: bool, rounds: usize) -> u32;
    safe fn relabelled_gets(pixels: usize, channels: usize, by_channel: bool, rounds: usize) -> u32;
    safe fn relabelled_puts(pixels: usize, channels: usize, by_channel: bool, rounds: usize) -> u32;
}

const PIXELS: usize = 1024;
const CHANNELS: usize = 4;
const ROUNDS: usize = 1000;
const REPEATS: usize = 25;
const START: u32 = 7;

/// Calls `visit` on every pixel and channel, in one of the two orders.
#[inline(always)]
fn each_sample(pixels: usize, channels: usize, by_channel: bool, mut visit: impl FnMut(usize, usize)) {
    if by_channel {
        for channel in 0..channels {
            for pixel in 0..pixels {
                visit(pixel, channel);
            }
        }
    } else {
        for pixel in 0..pixels {
            for channel in 0..channels {
                visit(pixel, channel);
            }
        }
    }
}

fn words_gets(pixels: usize, channels: usize, by_channel: bool, rounds: usize) -> u32 {
    let memory = vec![START; pixels * channels];
    let mut sum = 0u32;
    for _ in 0..rounds {
        let words = black_box(&memory[..]);
        each_sample(pixels, channels, by_channel, |p, c| sum = sum.wrapping_add(words[c * pixels + p]));
    }
    sum
}

fn words_puts(pixels: usize, channels: usize, by_channel: bool, rounds: usize) -> u32 {
    let mut memory = vec![START; pixels * channels];
    let mut word = START;
    for _ in 0..rounds {
        word = word.wrapping_add(1);
        let words = black_box(&mut memory[..]);
        each_sample(pixels, channels, by_channel, |p, c| words[c * pixels + p] = word);
    }
    memory.iter().fold(0, |sum, word| sum.wrapping_add(*word))
}

fn read_word(bytes: &[u8], at: usize) -> u32 {
    u32::from_be_bytes(bytes[at..at + 4].try_into().unwrap())
}

fn bytes_gets(pixels: usize, channels: usize, by_channel: bool, rounds: usize) -> u32 {
    let memory = START.to_be_bytes().repeat(pixels * channels);
    let mut sum = 0u32;
    for _ in 0..rounds {
        let bytes = black_box(&memory[..]);
        each_sample(pixels, channels, by_channel, |p, c| sum = sum.wrapping_add(read_word(bytes, 4 * (p * channels + c))));
    }
    sum
}

fn bytes_puts(pixels: usize, channels: usize, by_channel: bool, rounds: usize) -> u32 {
    let mut memory = START.to_be_bytes().repeat(pixels * channels);
    let mut word = START;
    for _ in 0..rounds {
        word = word.wrapping_add(1);
        let bytes = black_box(&mut memory[..]);
        each_sample(pixels, channels, by_channel, |p, c| {
            let at = 4 * (p * channels + c);
            bytes[at..at + 4].copy_from_slice(&word.to_be_bytes());
        });
    }
    memory.chunks(4).fold(0, |sum, bytes| sum.wrapping_add(read_word(bytes, 0)))
}

fn field_words_gets(pixels: usize, channels: usize, by_channel: bool, rounds: usize) -> u32 {
    let memory = vec![START; channels];
    let mut sum = 0u32;
    for _ in 0..rounds {
        let words = black_box(&memory[..]);
        each_sample(pixels, channels, by_channel, |_, c| sum = sum.wrapping_add(words[c]));
    }
    sum
}

type Work = fn(usize, usize, bool, usize) -> u32;

/// Nanoseconds that a work takes per sample, the making of its memory taken off.
fn once(work: Work, by_channel: bool) -> f64 {
    let start = Instant::now();
    black_box(work(PIXELS, CHANNELS, by_channel, black_box(0)));
    let made = start.elapsed().as_secs_f64();
    let start = Instant::now();
    black_box(work(PIXELS, CHANNELS, by_channel, black_box(ROUNDS)));
    let all = start.elapsed().as_secs_f64();
    (all - made) * 1e9 / (PIXELS * CHANNELS * ROUNDS) as f64
}

/// Measures both by turns, so that what else the machine does meets both, and prints the best of each.
fn compare(name: &str, plain: Work, frame: Work, by_channel: bool) {
    assert_eq!(plain(PIXELS, CHANNELS, by_channel, 3), frame(PIXELS, CHANNELS, by_channel, 3), "{name}");
    let (mut best_plain, mut best_frame) = (f64::MAX, f64::MAX);
    for _ in 0..REPEATS {
        best_plain = best_plain.min(once(plain, by_channel));
        best_frame = best_frame.min(once(frame, by_channel));
    }
    println!("{name:16} {best_plain:8.3} {best_frame:8.3} {:8.2}", best_frame / best_plain);
}

fn main() {
    let cases: [(&str, Work, Work); 7] = [
        ("planar get", words_gets, |p, c, o, r| planar_gets(p, c, o, r)),
        ("planar put", words_puts, |p, c, o, r| planar_puts(p, c, o, r)),
        ("packed get", bytes_gets, |p, c, o, r| packed_gets(p, c, o, r)),
        ("packed put", bytes_puts, |p, c, o, r| packed_puts(p, c, o, r)),
        ("field get", field_words_gets, |p, c, o, r| field_gets(p, c, o, r)),
        ("relabelled get", words_gets, |p, c, o, r| relabelled_gets(p, c, o, r)),
        ("relabelled put", words_puts, |p, c, o, r| relabelled_puts(p, c, o, r)),
    ];
    for (order, by_channel) in [("pixel after pixel", false), ("channel after channel", true)] {
        println!("{order}, {PIXELS} pixels of {CHANNELS} channels, ns per sample");
        println!("{:16} {:>8} {:>8} {:>8}", "", "plain", "frame", "ratio");
        for (name, plain, frame) in cases {
            compare(name, plain, frame, by_channel);
        }
    }
}
