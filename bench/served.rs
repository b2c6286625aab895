//! Whether a point is within its width of one of 50 routes of 200 points, in plain Rust: what `bench/run served`
//! compares with.

use std::time::Instant;

#[derive(Clone, Copy)]
struct Point {
    x: i32,
    y: i32,
}

struct Route {
    width: i32,
    points: Vec<Point>,
}

/// Exact, all in i128.
fn near_i128(p: Point, a: Point, b: Point, f: i32) -> bool {
    let (px, py) = ((p.x - a.x) as i128, (p.y - a.y) as i128);
    let (bx, by) = ((b.x - a.x) as i128, (b.y - a.y) as i128);
    let f = f as i128;
    let len = bx * bx + by * by;
    let dot = px * bx + py * by;
    if dot <= 0 {
        px * px + py * py <= f * f
    } else if dot >= len {
        (px - bx) * (px - bx) + (py - by) * (py - by) <= f * f
    } else {
        let cross = px * by - py * bx;
        cross * cross <= f * f * len
    }
}

/// Exact, i64 but for the one comparison that can pass it, which f64 decides unless it is close.
fn near_filter(p: Point, a: Point, b: Point, f: i32) -> bool {
    let (px, py) = ((p.x - a.x) as i64, (p.y - a.y) as i64);
    let (bx, by) = ((b.x - a.x) as i64, (b.y - a.y) as i64);
    let f = f as i64;
    let len = bx * bx + by * by;
    let dot = px * bx + py * by;
    if dot <= 0 {
        px * px + py * py <= f * f
    } else if dot >= len {
        (px - bx) * (px - bx) + (py - by) * (py - by) <= f * f
    } else {
        let cross = px * by - py * bx;
        let (left, right) = (
            (cross as f64) * (cross as f64),
            (f * f) as f64 * (len as f64),
        );
        // Relative errors of both sides stay far below 1e-12.
        if left < right * (1.0 - 1e-12) {
            true
        } else if left > right * (1.0 + 1e-12) {
            false
        } else {
            (cross as i128) * (cross as i128) <= (f * f) as i128 * len as i128
        }
    }
}

/// Exact: first the segment's box widened by f, in i32.
fn near_box(p: Point, a: Point, b: Point, f: i32) -> bool {
    let inside = p.x >= a.x.min(b.x) - f
        && p.x <= a.x.max(b.x) + f
        && p.y >= a.y.min(b.y) - f
        && p.y <= a.y.max(b.y) + f;
    inside && near_filter(p, a, b, f)
}

fn served(routes: &[Route], p: Point, near: fn(Point, Point, Point, i32) -> bool) -> bool {
    routes
        .iter()
        .any(|r| r.points.windows(2).any(|s| near(p, s[0], s[1], r.width)))
}

/// A list with its near test compiled in (no call through a pointer).
macro_rules! served_by {
    ($name:ident, $near:ident) => {
        fn $name(routes: &[Route], p: Point) -> bool {
            routes
                .iter()
                .any(|r| r.points.windows(2).any(|s| $near(p, s[0], s[1], r.width)))
        }
    };
}
served_by!(served_i128, near_i128);
served_by!(served_box, near_box);

fn clock(name: &str, points: &[Point], f: impl Fn(Point) -> bool) {
    let mut times: Vec<u128> = points
        .iter()
        .map(|&p| {
            (0..5)
                .map(|_| {
                    let start = Instant::now();
                    std::hint::black_box(f(p));
                    start.elapsed().as_nanos()
                })
                .min()
                .unwrap_or(0)
        })
        .collect();
    times.sort();
    println!(
        "plain | {name} | {:.1} us ({} points)",
        times[times.len() / 2] as f64 / 1000.0,
        times.len()
    );
}

fn main() {
    let mut seed = 5u64;
    let mut int = |lo: i32, hi: i32| {
        seed = seed
            .wrapping_mul(6364136223846793005)
            .wrapping_add(1442695040888963407);
        lo + ((seed >> 33) % (hi - lo + 1) as u64) as i32
    };
    // Bus lines: steps of up to 3,000 feet in a slowly turning direction, over the whole plane.
    let routes: Vec<Route> = (0..50)
        .map(|_| {
            let (mut x, mut y) = (int(-900_000, 900_000), int(-900_000, 900_000));
            let (mut dx, mut dy) = (int(-3_000, 3_000), int(-3_000, 3_000));
            let points = (0..200)
                .map(|_| {
                    dx = (dx + int(-600, 600)).clamp(-3_000, 3_000);
                    dy = (dy + int(-600, 600)).clamp(-3_000, 3_000);
                    x = (x + dx).clamp(-1_000_000, 1_000_000);
                    y = (y + dy).clamp(-1_000_000, 1_000_000);
                    Point { x, y }
                })
                .collect();
            Route {
                width: int(3_960, 7_920),
                points,
            }
        })
        .collect();
    let all: Vec<Point> = (0..4_000)
        .map(|k| {
            if k % 2 == 0 {
                return Point {
                    x: int(-1_000_000, 1_000_000),
                    y: int(-1_000_000, 1_000_000),
                };
            }
            let p = routes[int(0, 49) as usize].points[int(0, 199) as usize];
            Point {
                x: p.x + int(-8_000, 8_000),
                y: p.y + int(-8_000, 8_000),
            }
        })
        .filter(|p| p.x.abs() <= 1_000_000 && p.y.abs() <= 1_000_000)
        .collect();
    let corner = |k: i32| if k % 2 == 0 { -900_000 } else { 900_000 };
    let line = || {
        (0..200)
            .map(|k| Point {
                x: corner(k),
                y: corner(k) + k,
            })
            .collect()
    };
    let crossing: Vec<Route> = (0..50)
        .map(|_| Route {
            width: 7_920,
            points: line(),
        })
        .collect();
    let across: Vec<Point> = (0..500)
        .map(|step| Point {
            x: 50_000 + step,
            y: -50_000,
        })
        .collect();
    for (lines, points) in [(&routes, &all), (&crossing, &across)] {
        for &p in points {
            let want = served(lines, p, near_i128);
            assert!(want == served(lines, p, near_filter) && want == served(lines, p, near_box));
        }
    }
    let (inside, outside): (Vec<Point>, Vec<Point>) =
        all.into_iter().partition(|&p| served_i128(&routes, p));
    for (kind, lines, points) in [
        ("not served", &routes, &outside),
        ("served", &routes, &inside),
        ("in each box", &crossing, &across),
    ] {
        clock(&format!("{kind}, 128 bits"), points, |p| {
            served_i128(lines, p)
        });
        clock(&format!("{kind}, box first"), points, |p| {
            served_box(lines, p)
        });
    }
}
