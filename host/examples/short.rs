//! One tenant counted and asked for.

use meter::{Meter, Refused};

fn main() -> Result<(), Refused> {
    let mut meter = Meter::new(4, 1024)?;
    meter.update(&[192, 0, 2, 17], 1500)?;
    println!("{} bytes", meter.estimate(&[192, 0, 2, 17])?);
    Ok(())
}
