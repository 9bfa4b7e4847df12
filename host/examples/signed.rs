//! What changed, from Rust: two weeks are counted, the first is taken away from the second, and each tenant's change is asked for. Its
//! output is that of signed.c.

use meter::{Refused, SignedMeter};

const TENANTS: [&str; 3] = ["tenant-17", "tenant-18", "tenant-19"];

fn count(amounts: [i32; 3]) -> Result<SignedMeter, Refused> {
    let mut meter = SignedMeter::new(5, 1024)?;
    for (tenant, amount) in TENANTS.iter().zip(amounts) {
        meter.update(tenant.as_bytes(), amount)?;
    }
    Ok(meter)
}

fn main() -> Result<(), Refused> {
    let last_week = count([1500, 40, 700])?;
    let mut change = count([900, 45, 700])?;
    change.subtract(&last_week)?;
    for tenant in TENANTS {
        println!("{tenant} {:+}", change.estimate(tenant.as_bytes())?);
    }

    if let Err(refused) = SignedMeter::new(4, 1024) {
        println!("4 rows are refused with {}: {}", refused.number(), refused.reason);
    }
    Ok(())
}
