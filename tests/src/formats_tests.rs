//! docs/FORMATS.md: the bytes that it lists are those of both trailers, what it prints is what `bayplan` prints, its distances and its cards before and after
//! a new table are the engine's, and no number is left out. And what the examples in C are to print of these is the engine's.

use std::fs;

use crate::engine::{
    distances, expand, fitter_tree_bytes, knowledge_of, migrate, read_table, tick, tree_bytes, Card, Fitter, Status,
    DROPPED, MOST_ENTRIES, MOST_MEASURED_FACTS, NO_DISTANCE,
};
use crate::header_tests::{file, path, refusals};
use crate::trailer::{self, one_fact_less};

/// The lines under a heading, up to the next one.
fn section(page: &str, heading: &str) -> Vec<String> {
    let mut lines = page.lines().skip_while(|line| !line.starts_with(heading));
    assert!(lines.next().is_some(), "there is no '{heading}'");
    lines.take_while(|line| !line.starts_with('#')).map(str::to_string).collect()
}

/// The bytes of rows `| offset | `hexadecimal` | meaning |`, each at its offset.
fn listed_bytes(lines: &[String]) -> Vec<u8> {
    let mut bytes = Vec::new();
    for line in lines {
        let cells: Vec<&str> = line.split('|').map(str::trim).collect();
        let ["", offset, listed, _, ""] = cells.as_slice() else { continue };
        let (Ok(offset), Some(listed)) = (offset.parse::<usize>(), listed.strip_prefix('`')) else { continue };
        assert_eq!(offset, bytes.len(), "{line}");
        for byte in listed.trim_end_matches('`').split(' ') {
            bytes.push(u8::from_str_radix(byte, 16).expect("a hexadecimal byte"));
        }
    }
    bytes
}

/// The bytes of the tree that a table's plan for a start writes.
fn tree_of(table: &[u8], start: u64) -> Vec<u8> {
    let table = read_table(table).expect("sound");
    tree_bytes(&table, &expand(&table, Some(start), MOST_ENTRIES).0)
}

#[test]
fn listed_bytes_are_the_trailers() {
    let page = file("docs/FORMATS.md");
    let listed = |heading| listed_bytes(&section(&page, heading));
    assert_eq!(listed("### The trailer's table"), trailer::table());
    assert_eq!(listed("## A start"), trailer::start(0x02, 0));
    assert_eq!(listed("### The trailer's tree"), tree_of(&trailer::table(), 0x02));
    assert_eq!(listed("### The table with one fact less"), one_fact_less::table());
    assert_eq!(listed("### The tree with one fact less"), tree_of(&one_fact_less::table(), 0x01));
    assert_eq!(listed("### The licences at the trailer"), trailer::LICENCES);
    assert_eq!(listed("### The map at the trailer"), trailer::TO_ONE_FACT_LESS);
    let table = read_table(&trailer::table()).expect("sound");
    let list = expand(&table, Some(0x02), MOST_ENTRIES).0;
    let of_second = fitter_tree_bytes(&table, &list, &trailer::LICENCES, Fitter::Second);
    assert_eq!(listed("### The second fitter's tree"), of_second);
}

#[test]
fn printed_text_is_bayplans() {
    let page = file("docs/FORMATS.md");
    for text in [trailer::PRINTED, one_fact_less::PRINTED, &file("examples/damaged_table/expected.txt")] {
        assert!(page.contains(&format!("```\n{text}```\n")), "there is no block of\n{text}");
    }
}

/// What examples/c/distances.c prints of a table: a line for each state with its held mask and its distance, or `-` for none.
fn printed_distances(table: &[u8]) -> Vec<String> {
    let states = read_table(table).map_or(0, |table| 1 << table.facts.min(MOST_MEASURED_FACTS));
    let mut row = vec![0; states];
    match distances(table, &mut row) {
        Ok(_) => {
            let told = |jobs: u16| if jobs == NO_DISTANCE { "-".to_string() } else { jobs.to_string() };
            row.into_iter().enumerate().map(|(held, jobs)| format!("{held:016x} {}\n", told(jobs))).collect()
        }
        Err(refusal) => vec![format!("refused {} {}\n", refusal.number, refusal.place)],
    }
}

#[test]
fn distances_are_the_engines() {
    for (folder, name) in [
        ("trailer", "expected_distances"),
        ("trailer_one_fact_less", "expected_distances_trailer_one_fact_less"),
        ("damaged_table", "expected_distances_damaged_table"),
    ] {
        let table = fs::read(path(&format!("examples/{folder}/bay.tab"))).expect("a table");
        assert_eq!(file(&format!("examples/c/{name}.txt")), printed_distances(&table).concat());
    }
    // The page has the states short of the goal and the first that holds it.
    let text = printed_distances(&trailer::table())[..17].concat();
    assert!(file("docs/FORMATS.md").contains(&format!("```\n{text}```\n")), "there is no block of\n{text}");
}

/// What examples/c/migrate.c prints of a card with these masks: it before and after, fact by fact, and the tick of the whole shift's tree.
fn printed_migration(old: &[u8], new: &[u8], map: &[u8], held: u64, unread: u64) -> String {
    let before = Card { held, unread, ..Card::default() };
    let mut card = before;
    if let Err(refusal) = migrate(old, new, map, &mut card) {
        return format!("migrate: refused {} {}\n", refusal.number, refusal.place);
    }
    let lines = |when: &str, card: Card, facts: u32, now: &dyn Fn(usize) -> String| {
        let row = knowledge_of(facts, card.held, card.unread);
        let known = row.iter().map(|known| format!("{known:?}").to_lowercase());
        let each: String = known.enumerate().map(|(fact, known)| format!("  {fact} {known}{}\n", now(fact))).collect();
        format!("{when}: held {:016x}, unread {:016x}\n{each}", card.held, card.unread)
    };
    let now = |fact: usize| match map[fact] {
        DROPPED => ", dropped".to_string(),
        number => format!(", now {number}"),
    };
    let table = read_table(new).expect("the call was done");
    let tree = tree_bytes(&table, &expand(&table, None, table.most_entries()).0);
    let next = match tick(new, &tree, card.held, card.unread).expect("a sound tree and card").status {
        Status::Running(job) => format!("job {job}"),
        Status::Unsettled(mask) => format!("read {mask:016x}"),
        other => panic!("{other:?} is not among the examples"),
    };
    let after = lines("after", card, table.facts, &|_| String::new());
    format!("{}{after}next: {next}\n", lines("before", before, map.len() as u32, &now))
}

#[test]
fn cards_before_and_after_a_new_table_are_the_engines() {
    let table = |folder: &str| fs::read(path(&format!("examples/{folder}/bay.tab"))).expect("a table");
    let [trailer, less, damaged] = ["trailer", "trailer_one_fact_less", "damaged_table"].map(table);
    let down = trailer::TO_ONE_FACT_LESS;
    let printed = |name: &str| file(&format!("examples/c/expected_migrate{name}.txt"));
    assert_eq!(printed(""), printed_migration(&trailer, &less, &down, 0x0a, 0x01));
    let back = printed_migration(&less, &trailer, &one_fact_less::TO_TRAILER, 0x05, 0x00);
    assert_eq!(printed("_trailer_one_fact_less"), back);
    assert_eq!(printed("_bad_map"), printed_migration(&trailer, &less, &[DROPPED, 0, 0, 2, 3], 0x0a, 0x01));
    assert_eq!(printed("_damaged_table"), printed_migration(&trailer, &damaged, &down, 0x0a, 0x01));
    for name in ["", "_trailer_one_fact_less"] {
        let text = printed(name);
        assert!(file("docs/FORMATS.md").contains(&format!("```\n{text}```\n")), "there is no block of\n{text}");
    }
}

#[test]
fn every_number_has_a_row() {
    let page = file("docs/FORMATS.md");
    let rows = section(&page, "## The numbers");
    let count = refusals().len();
    for (number, name) in refusals() {
        let start = format!("| {number} `{}` | ", name.trim_start_matches("BAY_"));
        assert_eq!(rows.iter().filter(|row| row.starts_with(&start)).count(), 1, "a row of {number}");
    }
    let numbered = |row: &&String| row.trim_start_matches("| ").starts_with(|first: char| first.is_ascii_digit());
    assert_eq!(rows.iter().filter(numbered).count(), count, "rows of numbers");
}
