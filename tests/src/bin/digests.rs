//! Digests of what the library answers and writes over a fixed corpus, and of what `bayplan` prints, against those that are stored. They
//! show that lists, trees, texts and answers stay as they are, byte for byte, through a change that is to alter none of them.
//!
//!     digests STORED PATH_OF_BAYPLAN SCRATCH_FOLDER
//!
//! No table of the corpus has a 0x21. Words that an answer got with document 02's W10 stand at its end; they are left out, and so are second
//! masks, of which none are lent.

#[path = "../digests/corpus.rs"]
mod corpus;
#[path = "../ffi.rs"]
#[allow(dead_code)]
mod ffi;

use std::collections::{BTreeMap, BTreeSet};
use std::fs;
use std::path::Path;
use std::process::Command;

use bay_tests::engine::{Card, Lent};
use bay_tests::random::Random;

use corpus::Case;

/// FNV-1a of 64 bits. A row goes in with its length first, so that two rows are not one.
struct Digest(u64);

impl Digest {
    fn new() -> Digest {
        Digest(0xcbf2_9ce4_8422_2325)
    }

    fn bytes(&mut self, bytes: &[u8]) {
        for byte in bytes {
            self.0 = (self.0 ^ u64::from(*byte)).wrapping_mul(0x0000_0100_0000_01b3);
        }
    }

    fn row<const N: usize>(&mut self, elements: impl ExactSizeIterator<Item = [u8; N]>) {
        self.bytes(&(elements.len() as u64).to_le_bytes());
        for element in elements {
            self.bytes(&element);
        }
    }
}

/// Lent list tables, lent trees, cards, and every answer's words.
struct Library {
    lists: Digest,
    trees: Digest,
    cards: Digest,
    answers: Digest,
    /// The numbers that each function gave.
    given: BTreeMap<&'static str, BTreeSet<u64>>,
}

impl Library {
    fn new() -> Library {
        Library {
            lists: Digest::new(),
            trees: Digest::new(),
            cards: Digest::new(),
            answers: Digest::new(),
            given: BTreeMap::new(),
        }
    }

    fn answer(&mut self, function: &'static str, words: &[u64]) {
        self.answers.row(words.iter().map(|word| word.to_le_bytes()));
        self.given.entry(function).or_default().insert(words[0]);
    }

    /// Every lent row whole, also what a call was not to touch.
    fn lent(&mut self, lent: &Lent) {
        self.lists.row(lent.conditions.iter().map(|mask| mask.to_le_bytes()));
        self.lists.row(lent.jobs.iter().map(|job| [*job]));
        self.lists.row(lent.parents.iter().map(|parent| parent.to_le_bytes()));
        self.lists.row(lent.depths.iter().map(|depth| depth.to_le_bytes()));
        self.trees.row(lent.tree.iter().map(|byte| [*byte]));
    }

    fn card(&mut self, card: &Card) {
        let sums = [u64::from(card.reports), u64::from(card.taken), u64::from(card.planned)];
        self.cards.row(
            [card.held, card.unread].iter().chain(&sums).map(|word| word.to_le_bytes()).collect::<Vec<_>>().into_iter(),
        );
    }

    fn tables(&mut self, random: &mut Random, case: &Case) {
        self.answer("read_table", &ffi::read_table(&case.table)[..4]);
        for job in [0, case.jobs, random.below(129), 256, usize::MAX] {
            self.answer("read_job", &ffi::read_job(&case.table, job)[..5]);
        }
    }

    /// Both plans, each into slices of any length and into some that are long enough for most. Gives the tree, where there is one.
    fn plans(&mut self, random: &mut Random, case: &Case) -> Option<Vec<u8>> {
        let mut tree = None;
        for lengths in [corpus::any_lengths(random, case), corpus::ample_lengths(random, case)] {
            let mut lent = corpus::lent(random, lengths);
            let answer = ffi::plan(&case.table, case.held, case.unread, &mut lent);
            self.answer("plan", &answer[..5]);
            self.lent(&lent);
            if answer[0] == 0 {
                tree = Some(lent.tree[..answer[2] as usize].to_vec());
            }
            let mut lent = corpus::lent(random, lengths);
            let answer = ffi::plan_shift(&case.table, &mut lent);
            self.answer("plan_shift", &answer[..3]);
            self.lent(&lent);
            if answer[0] == 0 && tree.is_none() {
                tree = Some(lent.tree[..answer[2] as usize].to_vec());
            }
        }
        tree
    }

    /// The plan's tree and trees of any shape, sound and damaged.
    fn ticks(&mut self, random: &mut Random, case: &Case, built: Option<Vec<u8>>) {
        let any = corpus::tree(random, case);
        let mut trees = vec![corpus::damaged_tree(random, &any), corpus::deep_tree(random), any];
        if let Some(tree) = built {
            trees.push(corpus::damaged_tree(random, &tree));
            trees.push(tree);
        }
        for tree in trees {
            for _ in 0..2 {
                let (held, unread) = corpus::reading(random, case.facts);
                self.answer("tick", &ffi::tick(&case.table, &tree, held, unread));
            }
        }
    }

    fn cards(&mut self, random: &mut Random, case: &Case) {
        let mut card = corpus::card(random, case);
        for _ in 0..4 {
            let (held, unread) = corpus::reading(random, case.facts);
            let answer = match random.below(5) {
                0 => ("open", ffi::open(&case.table, held, unread, &mut card)),
                1 => ("read_outside", ffi::read_outside(&case.table, held, unread, &mut card)),
                _ => {
                    let job = random.below(case.jobs + 1).min(255);
                    let seconds = usize::from(random.next() as u16);
                    ("report", ffi::report(&case.table, job, seconds, &mut card))
                }
            };
            self.answer(answer.0, &answer.1);
            self.card(&card);
            let late = ffi::lateness(card.taken, card.planned);
            self.answers.bytes(&late.to_le_bytes());
        }
    }
}

/// The numbers that each call must give somewhere in the corpus.
const NUMBERS: [(&str, &[u64]); 8] = [
    ("read_table", &[0, 1, 2, 3, 4, 5, 6, 7, 19]),
    ("read_job", &[0, 1, 2, 3, 4, 5, 6, 7, 16, 19]),
    ("plan", &[0, 1, 2, 3, 4, 5, 6, 7, 8, 9, 10, 11, 12, 19]),
    ("plan_shift", &[0, 1, 2, 3, 4, 5, 6, 7, 10, 12, 19]),
    ("tick", &[0, 1, 2, 3, 4, 5, 6, 7, 8, 13, 14, 15, 19]),
    ("open", &[0, 1, 2, 3, 4, 5, 6, 7, 8, 19]),
    ("read_outside", &[0, 1, 2, 3, 4, 5, 6, 7, 8, 19]),
    ("report", &[0, 1, 2, 3, 4, 5, 6, 7, 8, 16, 17, 18, 19]),
];

fn print_texts(program: &Path, scratch: &Path) -> Digest {
    let mut texts = Digest::new();
    for (table, start) in corpus::folders() {
        let _ = fs::remove_dir_all(scratch);
        fs::create_dir_all(scratch).expect("the scratch folder can be written to");
        for (name, bytes) in [("bay.tab", table), ("start.bay", start)] {
            if let Some(bytes) = bytes {
                fs::write(scratch.join(name), bytes).expect("the scratch folder can be written to");
            }
        }
        let output = Command::new(program).current_dir(scratch).output().expect("the program starts");
        texts.row(output.stdout.iter().map(|byte| [*byte]));
        texts.row(output.stderr.iter().map(|byte| [*byte]));
    }
    let _ = fs::remove_dir_all(scratch);
    texts
}

fn main() {
    let arguments: Vec<String> = std::env::args().skip(1).collect();
    let [stored, program, scratch] = arguments.as_slice() else {
        eprintln!("digests STORED PATH_OF_BAYPLAN SCRATCH_FOLDER");
        std::process::exit(2);
    };
    let stored = fs::read_to_string(stored).unwrap_or_default();
    let program = fs::canonicalize(program).expect("the program is there");

    let mut library = Library::new();
    for index in 0..corpus::CASES {
        let mut random = corpus::random_for(index);
        let case = corpus::case(&mut random, index);
        library.tables(&mut random, &case);
        let built = library.plans(&mut random, &case);
        library.ticks(&mut random, &case, built);
        library.cards(&mut random, &case);
    }
    let texts = print_texts(&program, Path::new(scratch));

    let (mut passed, mut failed) = (0, 0);
    let digests = [
        ("lists", library.lists),
        ("trees", library.trees),
        ("cards", library.cards),
        ("answers", library.answers),
        ("texts", texts),
    ];
    for (name, digest) in digests {
        let line = format!("{name} {:016x}", digest.0);
        if stored.lines().any(|each| each == line) {
            println!("{line}");
            passed += 1;
        } else {
            println!("{line} FAILED: this is not what is stored");
            failed += 1;
        }
    }
    for (function, numbers) in NUMBERS {
        let given: Vec<u64> = library.given.get(function).into_iter().flatten().copied().collect();
        if given == numbers {
            passed += 1;
        } else {
            println!("FAILED: {function} gave {given:?} in this corpus, and not {numbers:?}");
            failed += 1;
        }
    }
    println!("{} calls into the library", ffi::calls());
    println!("{passed} passed, {failed} failed");
    std::process::exit(if failed == 0 { 0 } else { 1 });
}
