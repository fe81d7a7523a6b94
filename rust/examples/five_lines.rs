//! Two types in, the common type out.

use pemzhulaq::{coerce, DataType, Mask};

fn main() -> Result<(), Box<dyn std::error::Error>> {
    let ours: DataType = "Int64".parse()?;
    let till: DataType = "Decimal128(7, 2)".parse()?;
    match coerce::union(&ours, &till, Mask::ALL)? {
        Some(common) => println!("{common}"),
        None => println!("none"),
    }
    Ok(())
}
