//! Rates a wall, and says which bands to lift for a rating one decibel better:
//!
//! ```text
//! cargo run --example wall
//! ```

use imbrolt::{lift, rate, Kind, Refusal, Tenths};

/// The bands of a mask by their middle frequencies.
fn bands(mask: u16) -> String {
    const HERTZ: [u32; 16] =
        [100, 125, 160, 200, 250, 315, 400, 500, 630, 800, 1000, 1250, 1600, 2000, 2500, 3150];
    let chosen = (0..16).filter(|band| mask >> band & 1 == 1);
    chosen.map(|band| format!("{} Hz", HERTZ[band])).collect::<Vec<_>>().join(" and ")
}

fn main() -> Result<(), Refusal> {
    let wall = [204, 163, 177, 226, 224, 227, 248, 266, 280, 305, 318, 325, 334, 330, 310, 255]
        .map(Tenths);
    let sheet = rate(Kind::A3, &wall, 0)?;
    println!("{} at 100 Hz, {} at 3150 Hz", wall[0], wall[15]);
    println!("rating {}, C {}, {} shifts", sheet.rating, sheet.first, sheet.shifts);
    let mut target = sheet.rating;
    target.0 += 1;
    let sets = lift(Kind::A3, &wall, target)?;
    println!("{} sets of bands would lift it to {target}, among them", sets.len());
    for &mask in sets.iter().take(3) {
        println!("  {}", bands(mask));
    }
    Ok(())
}
