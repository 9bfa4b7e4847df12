//! The calls from Rust: count two tenants, move the meter by its image, unite two meters. Its output is that of meter.c.

use meter::{Meter, Refused};

fn main() -> Result<(), Refused> {
    let mut here = Meter::new(4, 1024)?;
    here.update(b"tenant-17", 1500)?;
    here.update(b"tenant-17", 64)?;
    here.update(b"tenant-18", 40)?;
    println!("tenant-17 {}", here.estimate(b"tenant-17")?);
    println!("tenant-18 {}", here.estimate(b"tenant-18")?);

    let words = here.image()?;
    let mut there = Meter::from_image(&words)?;
    println!("image of {} words", words.len());

    there.unite(&here)?;
    println!("tenant-17 united {}", there.estimate(b"tenant-17")?);
    println!("widest level {}", there.widest()?);

    if let Err(refused) = here.update(b"", 1) {
        println!("an empty key is refused with {}: {}", refused.number(), refused.reason);
    }
    Ok(())
}
