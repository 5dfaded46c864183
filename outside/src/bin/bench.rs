//! Speed of begin and advance: the logger and, with the feature, the proved library.
//!
//! bench [ROUNDS]
//!
//! The implementations take turns in short rounds (61 if not given), in changing order, so that a
//! machine whose pace wanders wanders for both. Told are medians, and in brackets the least.

use outside::hosts::{hosts, Host};
use outside::image::IMAGE;
use outside::rng::Rng;
use outside::room::RECORD;
use std::hint::black_box;
use std::time::Instant;

const LARGE: usize = 1_000_000;
const HALVES: usize = 10_000;
const CALLS: usize = 10_000;
const FEEDS: [&str; 4] = ["idle", "noisy", "events", "dead"];

/// The settings called Q, with another M and U 16000.
fn settings(m: u32) -> Vec<u8> {
    let x = [m, 50, 16_000, 300, 150, 500, 9000, 11_000, 200];
    x.iter().flat_map(|x| x.to_le_bytes()).collect()
}

/// Half-cycle levels in counts (U is 1000), one after the other.
fn levels(feed: &str, halves: usize, rng: &mut Rng) -> Vec<i64> {
    let mut list = Vec::new();
    while list.len() < halves {
        match feed {
            "idle" => list.push(1000),
            "noisy" => list.push(1000 + rng.range(-8, 8)),
            "dead" => list.push(0),
            // Two changes, then dips, swells and interruptions of two half-cycles each.
            _ => {
                list.extend([1000; 240]);
                list.extend([960; 240]);
                for _ in 0..60 {
                    list.extend([850, 850, 1000, 1000, 1150, 1150, 1000, 1000, 20, 20, 1000, 1000]);
                }
            }
        }
    }
    list.truncate(halves);
    list
}

/// Samples of a feed, as bytes: alternating counts; in the noisy feed each sample has its own noise.
/// The samples of a dead line are −1, 0 or 1, so that all roots are small.
fn samples(feed: &str, m: usize, count: usize) -> Vec<u8> {
    let mut rng = Rng::new(1);
    let mut bytes = Vec::with_capacity(2 * count);
    for level in levels(feed, count.div_ceil(m), &mut rng) {
        for j in 0..m {
            let noise = match feed {
                "noisy" => rng.range(-20, 20),
                "dead" => rng.range(-1, 1),
                _ => 0,
            };
            let x = if j % 2 == 0 { level + noise } else { -level - noise };
            bytes.extend((x as i16).to_le_bytes());
        }
    }
    bytes.truncate(2 * count);
    bytes
}

fn median(mut list: Vec<f64>) -> f64 {
    list.sort_by(|a, b| a.total_cmp(b));
    list[list.len() / 2]
}

/// The median and the least of a list of times, in nanoseconds for one of `by`.
fn middle(times: &[f64], by: usize) -> String {
    let least = times.iter().copied().fold(f64::INFINITY, f64::min) / by as f64;
    let median = median(times.to_vec()) / by as f64;
    let digits = if median < 10.0 { 3 } else { 1 };
    format!("{median:.digits$} ({least:.digits$})")
}

/// Times of each host, in nanoseconds, from rounds in which they take turns. The first round warms
/// up and is not counted.
fn rounds(count: usize, hosts: &[Host], mut one: impl FnMut(usize, &Host) -> f64) -> Vec<Vec<f64>> {
    let mut times = vec![Vec::new(); hosts.len()];
    for round in 0..=count {
        for turn in 0..hosts.len() {
            let j = (turn + round) % hosts.len();
            let time = one(j, &hosts[j]);
            if round > 0 {
                times[j].push(time);
            }
        }
    }
    times
}

/// How many times as long the second host takes: the median over the rounds, and by the least.
fn ratio(times: &[Vec<f64>]) -> String {
    let [a, b] = times else { return String::new() };
    let least = |x: &[f64]| x.iter().copied().fold(f64::INFINITY, f64::min);
    let by_round = a.iter().zip(b).map(|(a, b)| b / a).collect();
    format!("{:.2} ({:.2})", median(by_round), least(b) / least(a))
}

/// Prints a row: for each host a column for each of `by`, then the ratio.
fn row(name: &str, times: &[Vec<f64>], by: &[usize]) {
    print!("{name:<22}");
    for x in times {
        for &by in by {
            print!("{:>20}", middle(x, by));
        }
    }
    println!("{:>16}", ratio(times));
}

/// Prints the heading of such rows.
fn heading(first: &str, hosts: &[Host], units: &[&str]) {
    print!("{first:<22}");
    for host in hosts {
        for unit in units {
            let name = if host.name == "logger" { "outside" } else { host.name };
            print!("{:>20}", format!("{name}, {unit}"));
        }
    }
    println!("{:>16}", if hosts.len() == 2 { "ratio" } else { "" });
}

/// An image that is well into the feed.
fn warmed(host: &Host, m: usize, bytes: &[u8]) -> Vec<u8> {
    let mut fresh = vec![0; IMAGE];
    assert_eq!((host.begin)(&settings(m as u32), &mut fresh), 0);
    let mut image = vec![0; IMAGE];
    let mut records = vec![0; RECORD * bytes.len()];
    let mut reply = [0; 24];
    let end = (2 * 2000 * m).min(bytes.len());
    assert_eq!((host.advance)(&fresh, &bytes[..end], &mut image, &mut records, &mut reply), 0);
    image
}

/// Nanoseconds for one advance over the whole feed, and the records written.
fn large(host: &Host, image: &[u8], bytes: &[u8], records: &mut [u8]) -> (f64, u64) {
    let mut new = [0; IMAGE];
    let mut reply = [0; 24];
    let start = Instant::now();
    let number = (host.advance)(black_box(image), black_box(bytes), &mut new, records, &mut reply);
    let time = start.elapsed().as_nanos() as f64;
    assert_eq!(number, 0);
    assert_eq!(u64::from_le_bytes(reply[..8].try_into().unwrap()), bytes.len() as u64 / 2);
    black_box(&new);
    (time, u64::from_le_bytes(reply[8..16].try_into().unwrap()))
}

/// Nanoseconds for one advance after the other over pieces of the feed, image to image.
fn pieces(host: &Host, image: &[u8], bytes: &[u8], piece: usize, records: &mut [u8]) -> f64 {
    let (mut one, mut other) = ([0; IMAGE], [0; IMAGE]);
    one.copy_from_slice(image);
    let (mut old, mut new) = (&mut one, &mut other);
    let mut reply = [0; 24];
    let start = Instant::now();
    for block in bytes.chunks_exact(piece) {
        let number = (host.advance)(old, black_box(block), new, records, &mut reply);
        assert_eq!(number, 0);
        // The references change places, not the bytes.
        std::mem::swap(&mut old, &mut new);
    }
    let time = start.elapsed().as_nanos() as f64;
    black_box(old);
    time
}

fn main() {
    let count: usize = std::env::args().nth(1).and_then(|x| x.parse().ok()).unwrap_or(61);
    // The stepper is not made for speed.
    let hosts: Vec<Host> = hosts().into_iter().filter(|x| x.name != "stepper").collect();
    println!(
        "Medians of {count} rounds in which the implementations take turns; in brackets the least."
    );
    println!(
        "Buffers: allocated once, written to and read before the first round, used again in all,"
    );
    println!("so that samples and record room are warm in the cache as far as they fit.");
    println!(
        "Settings: Q with U 16000 and the M given. Feeds start from an image 2000 half-cycles in."
    );

    println!("\nLarge blocks: one advance over {LARGE} samples, with room for all records");
    heading("M, feed (records)", &hosts, &["ns/sample", "ns/value"]);
    for m in [8, 64, 256] {
        for feed in FEEDS {
            let bytes = samples(feed, m, LARGE);
            let mut records = vec![1; RECORD * 3 * (LARGE / m + 1)];
            let images: Vec<_> = hosts.iter().map(|x| warmed(x, m, &bytes)).collect();
            let mut written = 0;
            let times = rounds(count, &hosts, |j, host| {
                let (time, records) = large(host, &images[j], &bytes, &mut records);
                written = records;
                time
            });
            row(&format!("{m}, {feed} ({written})"), &times, &[LARGE, LARGE / m]);
        }
    }

    println!(
        "\nBlocks of one half-cycle: {HALVES} advances, each with one value, room for 4 records"
    );
    heading("M, feed", &hosts, &["ns/sample", "ns/value"]);
    for m in [8, 64, 256] {
        for feed in FEEDS {
            let bytes = samples(feed, m, HALVES * m);
            let mut records = vec![1; 4 * RECORD];
            let images: Vec<_> = hosts.iter().map(|x| warmed(x, m, &bytes)).collect();
            let times = rounds(count, &hosts, |j, host| {
                pieces(host, &images[j], &bytes, 2 * m, &mut records)
            });
            row(&format!("{m}, {feed}"), &times, &[HALVES * m, HALVES]);
        }
    }

    println!("\nCalls without samples: {CALLS} in a round");
    heading("", &hosts, &["ns/call"]);
    let times = rounds(count, &hosts, |_, host| {
        let q = settings(8);
        let mut image = [0; IMAGE];
        let start = Instant::now();
        for _ in 0..CALLS {
            assert_eq!((host.begin)(black_box(&q), black_box(&mut image)), 0);
        }
        start.elapsed().as_nanos() as f64
    });
    row("begin", &times, &[CALLS]);
    let bytes = samples("events", 8, LARGE);
    let images: Vec<_> = hosts.iter().map(|x| warmed(x, 8, &bytes)).collect();
    let times = rounds(count, &hosts, |j, host| {
        let (mut image, mut reply) = ([0; IMAGE], [0; 24]);
        let start = Instant::now();
        for _ in 0..CALLS {
            let old = black_box(&images[j]);
            let number = (host.advance)(old, &[], black_box(&mut image), &mut [], &mut reply);
            assert_eq!(number, 0);
        }
        start.elapsed().as_nanos() as f64
    });
    row("restore + save", &times, &[CALLS]);
}
