//! The wiring list of the program in the file named: for each class and each name that some method has, the class that
//! owns the method which is found there, or none. docs/examples/wiring.c does the same in C.

use baqolluy::{find, read, refusal};

fn main() -> std::io::Result<()> {
    let file = std::env::args().nth(1).expect("usage: wiring FILE");
    let reading = read(&std::fs::read(file)?);
    if reading.refusal != refusal::NONE {
        println!("08{:02X}", reading.refusal);
        return Ok(());
    }
    let table = &reading.table;
    let classes = 1..=table.bytes[11]; // how many there are: docs/TABLE.md
    let named = |name: &u8| {
        classes
            .clone()
            .any(|class| find(table, class, *name).is_some())
    };
    let names: Vec<u8> = (0..=255).filter(named).collect();
    for class in classes.clone() {
        for &name in &names {
            let owner = find(table, class, name).map(|found| format!("owner {:02X}", found.owner));
            let owner = owner.unwrap_or("none".to_string());
            println!("class {class:02X} method {name:02X}: {owner}");
        }
    }
    Ok(())
}
