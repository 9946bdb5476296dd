//! Writes the files of the example folders: bay.tab, start.bay and expected.txt, which is what `bayplan` prints there; and plan.tree, where there is a
//! plan.
//!
//!     make_examples FOLDER

use std::fs;
use std::path::Path;

use bay_tests::engine::{bayplan, plan, table_bytes, Job, Lent};
use bay_tests::trailer::{self, one_fact_less};

/// A truck with two axles, driven at the rear.
mod truck {
    pub const FACTS: u8 = 11;
    pub const ON_THE_FLOOR: u64 = 1 << 0;
    pub const FRONT_ON_ROLLERS: u64 = 1 << 1;
    pub const REAR_ON_ROLLERS: u64 = 1 << 2;
    pub const TYRES_CHECKED: u64 = 1 << 3;
    pub const FRONT_MEASURED: u64 = 1 << 4;
    pub const REAR_MEASURED: u64 = 1 << 5;
    pub const PULSES_MEASURED: u64 = 1 << 6;
    pub const OLD_SEAL_ON: u64 = 1 << 7;
    pub const SEAL_OFF: u64 = 1 << 8;
    pub const CONSTANT_SET: u64 = 1 << 9;
    pub const SEALED: u64 = 1 << 10;
}

fn truck_jobs() -> Vec<Job> {
    use truck::*;
    vec![
        Job::plain(ON_THE_FLOOR, TYRES_CHECKED, 0, 300),
        Job::plain(ON_THE_FLOOR, FRONT_ON_ROLLERS, ON_THE_FLOOR, 240),
        Job::plain(ON_THE_FLOOR, REAR_ON_ROLLERS, ON_THE_FLOOR, 240),
        Job::plain(FRONT_ON_ROLLERS, ON_THE_FLOOR, FRONT_ON_ROLLERS, 120),
        Job::plain(REAR_ON_ROLLERS, ON_THE_FLOOR, REAR_ON_ROLLERS, 120),
        Job::plain(FRONT_ON_ROLLERS | TYRES_CHECKED, FRONT_MEASURED, 0, 420),
        Job::plain(REAR_ON_ROLLERS | TYRES_CHECKED, REAR_MEASURED, 0, 420),
        Job::plain(REAR_ON_ROLLERS | REAR_MEASURED, PULSES_MEASURED, 0, 480),
        Job::plain(OLD_SEAL_ON, SEAL_OFF, OLD_SEAL_ON, 90),
        Job::plain(FRONT_MEASURED | PULSES_MEASURED | SEAL_OFF, CONSTANT_SET, 0, 360),
        Job::plain(CONSTANT_SET | SEAL_OFF | ON_THE_FLOOR, SEALED, SEAL_OFF, 150),
    ]
}

/// The files of a folder, for a start that is fully read.
fn write(root: &Path, name: &str, table: &[u8], held: u64) {
    let folder = root.join(name);
    fs::create_dir_all(&folder).expect("the folder can be made");
    let write = |file: &str, bytes: &[u8]| fs::write(folder.join(file), bytes).expect("the file can be written");
    let start = trailer::start(held, 0);
    write("bay.tab", table);
    write("start.bay", &start);
    write("expected.txt", bayplan(table, &start).as_bytes());
    let mut lent = Lent::full();
    if let Ok(planned) = plan(table, held, 0, &mut lent) {
        write("plan.tree", &lent.tree[..planned.tree_bytes]);
    }
}

fn main() {
    let Some(root) = std::env::args().nth(1) else {
        eprintln!("make_examples FOLDER");
        std::process::exit(2);
    };
    let root = Path::new(&root);
    let trailer_table = trailer::table();
    write(root, "trailer", &trailer_table, 0x02);

    write(root, "trailer_one_fact_less", &one_fact_less::table(), 0x01);

    let truck_table = table_bytes(truck::FACTS, &truck_jobs(), truck::SEALED);
    let arrives = truck::ON_THE_FLOOR | truck::OLD_SEAL_ON;
    write(root, "truck_two_axles", &truck_table, arrives);

    // The same truck without an old seal: only taking one off leads to a sealed truck.
    write(root, "no_way", &truck_table, truck::ON_THE_FLOOR);

    // Measuring unloaded adds fact 5, which a table of five facts has not.
    let mut damaged = trailer_table;
    damaged[56 + 9] |= 0x20;
    write(root, "damaged_table", &damaged, 0x02);
}
