//! Heavy tenants from Rust: three are counted, those from 1,000 bytes on are listed. Its output is that of watch.c.

use meter::{Meter, Refused, WatchList};

fn main() -> Result<(), Refused> {
    let mut meter = Meter::new(4, 1024)?;
    let mut heavy = WatchList::new();
    let packets = [("tenant-17", 900), ("tenant-18", 1500), ("tenant-19", 40), ("tenant-17", 900)];
    for (tenant, bytes) in packets {
        heavy.update(&mut meter, tenant.as_bytes(), bytes, 1_000)?;
    }
    for entry in &heavy {
        println!("{} {}", String::from_utf8_lossy(entry.key), entry.estimate);
    }
    if !heavy.is_marked() {
        println!("none is left out");
    }

    heavy.remove(b"tenant-18")?;
    println!("{} listed", heavy.len());

    if let Err(refused) = heavy.update(&mut meter, b"tenant-19", 64, 0) {
        println!("a threshold of 0 is refused with {}: {}", refused.number(), refused.reason);
    }
    Ok(())
}
