//! Reads and closes the table of bench/travel.program in plain Rust: what `bench/run travel` compares with.

use std::hint::black_box;
use std::time::Instant;

const ABSENT: u16 = u16::MAX;

fn number(field: &[u8], most: usize) -> Option<u32> {
    if field.is_empty() || field.len() > most {
        return None;
    }
    field.iter().try_fold(0u32, |n, c| {
        c.is_ascii_digit()
            .then(|| n.checked_mul(10)?.checked_add((c - b'0') as u32))?
    })
}

/// The minutes by pairs of places, or the row of the first fault.
fn read(csv: &[u8], places: &[u32]) -> Result<Vec<u16>, u32> {
    let n = places.len();
    let mut raw = vec![ABSENT; n * n];
    let mut records = csv.split(|&c| c == b'\n').filter(|r| !r.is_empty());
    if records.next() != Some(b"from,to,minutes") {
        return Err(1);
    }
    for (row, record) in (2..).zip(records) {
        let mut fields = record.split(|&c| c == b',');
        let (Some(a), Some(b), Some(m), None) =
            (fields.next(), fields.next(), fields.next(), fields.next())
        else {
            return Err(row);
        };
        let place = |f| {
            number(f, 10)
                .and_then(|p| places.binary_search(&p).ok())
                .ok_or(row)
        };
        let (a, b) = (place(a)?, place(b)?);
        let minutes = number(m, 4).filter(|&m| m <= 1439).ok_or(row)? as u16;
        let old = &mut raw[a * n + b];
        if *old != ABSENT && *old != minutes {
            return Err(row);
        }
        *old = minutes;
    }
    Ok(raw)
}

/// The least chains, whole rows of u16 at a time, which the compiler turns into vector instructions.
fn close(raw: &[u16], n: usize) -> Vec<u16> {
    const FAR: u16 = 30_000;
    let mut t: Vec<u16> = raw
        .iter()
        .map(|&x| if x == ABSENT { FAR } else { x })
        .collect();
    for a in 0..n {
        t[a * n + a] = 0;
    }
    let mut middle = vec![0; n];
    for m in 0..n {
        middle.copy_from_slice(&t[m * n..][..n]);
        for row in t.chunks_exact_mut(n) {
            let to = row[m];
            for (x, y) in row.iter_mut().zip(&middle) {
                *x = (*x).min(to + y);
            }
        }
    }
    t
}

fn clock<R>(name: &str, mut f: impl FnMut() -> R) {
    let mut times: Vec<u128> = (0..51)
        .map(|_| {
            let start = Instant::now();
            black_box(f());
            start.elapsed().as_micros()
        })
        .collect();
    times.sort();
    println!("plain | {name} | {} us", times[25]);
}

fn main() {
    let n = 100;
    let places: Vec<u32> = (1..=n as u32).map(|k| k * 7).collect();
    let mut seed = 1u64;
    let mut csv = String::from("from,to,minutes\n");
    for a in 0..n {
        for b in 0..n {
            if a != b {
                seed = seed
                    .wrapping_mul(6364136223846793005)
                    .wrapping_add(1442695040888963407);
                csv += &format!("{},{},{}\n", places[a], places[b], 1 + (seed >> 33) % 120);
            }
        }
    }
    let raw = read(csv.as_bytes(), &places).expect("good rows");
    clock("read 9,900 rows", || read(csv.as_bytes(), &places));
    clock("close 100 places", || close(&raw, n));
}
