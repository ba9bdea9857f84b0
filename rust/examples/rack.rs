use tokuwhape::{Rack, Refusal};

fn main() -> Result<(), Refusal> {
    let mut rack = Rack::new(5)?;
    for [a, b] in [[1, 3], [3, 5], [2, 4], [1, 4], [2, 5]] {
        if rack.join(&[a, b]).is_err() {
            println!("{a} {b} refused");
        }
    }
    println!("{:?}", rack.order());
    Ok(())
}
