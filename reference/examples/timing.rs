//! Timings of the best count on random sheets. Run it with
//! `cargo run --release --example timing`.

use std::time::{Duration, Instant};

use reference::random::{
    distinct_rows_sheet, falling_distinct_rows_sheet, shared_rows_sheet, with_room, Random,
};
use reference::{best_count, Sheet};

/// The sheet of these bytes, on a map with room for every label. A point whose label leaves the map
/// would give the search nothing to try.
fn roomy(bytes: &[u8]) -> Result<Sheet, u8> {
    let sheet = Sheet::read(bytes)?;
    Sheet::read(&with_room(&sheet))
}

/// Times the best count of some sheets and prints one line.
fn measure(name: &str, rounds: u32, mut next_sheet: impl FnMut() -> Vec<u8>) {
    let mut inside = 0;
    let mut total = Duration::ZERO;
    let mut worst = Duration::ZERO;
    for _ in 0..rounds {
        let Ok(sheet) = roomy(&next_sheet()) else {
            println!("{name}: a sheet was refused");
            return;
        };
        let before = Instant::now();
        inside += best_count(&sheet);
        let time = before.elapsed();
        total += time;
        worst = worst.max(time);
    }
    println!(
        "{name:32} {rounds:6} {:8.2} {:>10} {:>10}",
        inside as f64 / f64::from(rounds),
        format!("{:.1?}", total / rounds),
        format!("{worst:.1?}"),
    );
}

fn main() {
    // The points lie on a square of one of these sides. With room for a label the map's sides are
    // all allowed.
    let sides = [32, 64, 128, 256, 512, 1024, 3840];
    let labels = [
        (1, 1),
        (2, 2),
        (4, 3),
        (8, 4),
        (16, 8),
        (3, 24),
        (24, 3),
        (40, 40),
        (100, 60),
        (256, 256),
    ];
    println!("sheets of 32 points            sheets mean best  mean time worst time");
    let start = Instant::now();
    let mut random = Random::new(2024);
    let rounds = 200;
    for side in sides {
        for (w, h) in labels {
            measure(&format!("square {side}, label {w} by {h}"), rounds, || {
                distinct_rows_sheet(&mut random, (side, side), (w, h), 32)
            });
            let noise = w * 2;
            measure("  the same, columns falling", rounds, || {
                falling_distinct_rows_sheet(&mut random, (side, side), (w, h), 32, noise)
            });
            measure("  the same, points sharing rows", rounds, || {
                shared_rows_sheet(&mut random, (side, side), (w, h), 32)
            });
        }
    }
    println!("all in {:.1?}", start.elapsed());
}
