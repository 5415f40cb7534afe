//! Writes a sheet and prints its plan:
//!
//!     cargo run --example write

fn main() -> Result<(), warm::Error> {
    // Four steps that need unit 0, unit 1, unit 2 and unit 0 again, with at most two of three units on.
    let steps = [0b001, 0b010, 0b100, 0b001].map(|lower| warm::Step::new(lower, 0b111, 0, 2, 0));
    let (mut bytes, mut sets) = ([0; warm::BYTES], [0; warm::STEPS]);
    let sheet = warm::write(3, 3, 0, &steps, &mut bytes)?;
    let plan = warm::plan(sheet, &mut sets)?;
    for (i, set) in plan.sets.iter().enumerate() {
        println!("step {}: {set:#x}", i + 1);
    }
    println!("{} warm-ups", plan.total);
    Ok(())
}
