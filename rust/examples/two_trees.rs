use tokuwhape::{Refusal, Ring};

fn main() -> Result<(), Refusal> {
    let (mut trains, mut rows) = (Ring::new(5)?, Ring::new(5)?);
    trains.join(&[1, 3])?;
    rows.join(&[3, 5])?;
    println!("{}", trains.intersect(&rows)?.text());
    Ok(())
}
