use tokuwhape::{Refusal, Ring};

fn main() -> Result<(), Refusal> {
    let mut ring = Ring::new(5)?;
    for [a, b] in [[1, 3], [3, 5], [1, 5], [2, 4]] {
        if ring.join(&[a, b]).is_err() {
            println!("{a} {b} refused");
        }
    }
    println!("{:?}", ring.order());
    Ok(())
}
