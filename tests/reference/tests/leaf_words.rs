//! The present leaf words: both counts on tables told by hand, and against each other.

use reference::report::{leaf_words, ByCounts, ByWalks, LeafWords, ROOTS};
use reference::{walk_tree, Tree, Walk};

const PRESENT: u32 = 1 << 31;
const PAGES: u32 = 1 << 19;

/// A root or directory word that names the number.
fn names(number: u32) -> u32 {
    PRESENT | number
}

fn tables(words: &[(usize, u32)]) -> Vec<u32> {
    let mut tables = vec![0; 16384];
    for &(index, word) in words {
        tables[index] = word;
    }
    tables
}

/// The count on which both ways agree.
fn count(words: &[u32]) -> usize {
    let count = leaf_words(words);
    assert_eq!(ByCounts::of(words).count(), count);
    count
}

/// The count by the walk of every page from every root, none passed over.
fn count_of_all_walks(words: &[u32]) -> usize {
    let mut is_leaf = vec![false; words.len()];
    for root in 0..ROOTS as u32 {
        for page in 0..PAGES {
            if let Walk::Leaf(leaf) = walk_tree(words, Tree::Own, root, page) {
                is_leaf[leaf.index] = true;
            }
        }
    }
    is_leaf.iter().filter(|&&is_leaf| is_leaf).count()
}

/// Tables, and how many present leaf words they have.
fn told_by_hand() -> Vec<(&'static str, Vec<u32>, usize)> {
    let leaves = |first: usize, number: usize| (first..first + number).map(|n| (n, PRESENT));
    let with = |words: &[(usize, u32)], leaves: &[(usize, u32)]| tables(&[words, leaves].concat());
    let three: Vec<_> = leaves(4096, 3).collect();
    vec![
        ("zero", tables(&[]), 0),
        (
            "one leaf",
            tables(&[(5, names(1)), (512, names(1)), (1025, 0xD000_0123)]),
            1,
        ),
        (
            "valid 0, kernel 0, we 0 and frame 0 is a leaf still",
            tables(&[(5, names(1)), (512, names(1)), (1025, PRESENT)]),
            1,
        ),
        (
            "present 0 is none, whatever else is set",
            tables(&[(5, names(1)), (512, names(1)), (1025, PRESENT - 1)]),
            0,
        ),
        (
            "the global root's",
            with(&[(63, names(1)), (512, names(4))], &three),
            3,
        ),
        (
            "word 64 is no root",
            with(&[(64, names(1)), (512, names(4))], &three),
            0,
        ),
        (
            "a leaf behind a global leaf of the same page",
            with(
                &[
                    (63, names(1)),
                    (512, names(4)),
                    (0, names(2)),
                    (1024, names(5)),
                    (5120, PRESENT),
                ],
                &three,
            ),
            4,
        ),
        (
            "behind a broken global root",
            with(&[(63, names(0)), (0, names(1)), (512, names(4))], &three),
            3,
        ),
        (
            "one directory, all roots",
            with(
                &[
                    &(0..64).map(|root| (root, names(1))).collect::<Vec<_>>()[..],
                    &[(512, names(4))],
                ]
                .concat(),
                &three,
            ),
            3,
        ),
        (
            "one table, two directories, and twice in one of them",
            with(
                &[
                    (0, names(1)),
                    (1, names(3)),
                    (512, names(4)),
                    (1023, names(4)),
                    (1536, names(4)),
                ],
                &three,
            ),
            3,
        ),
        (
            "a table that no directory names",
            with(&[(0, names(1)), (512, names(5))], &three),
            0,
        ),
        (
            "a directory that no root names",
            with(&[(0, names(2)), (512, names(4))], &three),
            0,
        ),
        // Directory 8 is the first half of table 4: word 4096 is a directory word and a leaf.
        (
            "a table that names itself",
            tables(&[(0, names(8)), (4096, names(4))]),
            1,
        ),
        (
            "a table that names itself, with a second leaf in either half",
            tables(&[
                (0, names(8)),
                (4096, names(4)),
                (4097, PRESENT),
                (5119, PRESENT),
            ]),
            3,
        ),
        (
            "the second half of a table as a directory",
            tables(&[(62, names(9)), (5119, names(4)), (4096, 0xFFFF_FFFF)]),
            2,
        ),
        (
            "a directory word that is another directory's leaf",
            tables(&[
                (0, names(8)),
                (1, names(1)),
                (512, names(4)),
                (4096, names(5)),
                (5120, PRESENT),
            ]),
            2,
        ),
        (
            "the last directory and the last table",
            tables(&[
                (0, names(31)),
                (16383, names(15)),
                (15360, PRESENT),
                (16384 - 512, PRESENT),
            ]),
            3,
        ),
        (
            "broken roots",
            with(
                &[
                    (0, names(0)),
                    (1, names(1) | 1 << 16),
                    (2, names(1) | 1 << 30),
                    (3, names(32)),
                    (4, names(0xFFFF)),
                    (5, 1),
                    (512, names(4)),
                ],
                &three,
            ),
            0,
        ),
        (
            "broken directory words",
            with(
                &[
                    (0, names(1)),
                    (512, names(0)),
                    (513, names(4) | 1 << 16),
                    (514, names(4) | 1 << 30),
                    (515, names(16)),
                    (516, names(0xFFFF)),
                    (517, 4),
                ],
                &three,
            ),
            0,
        ),
        (
            "all fifteen tables, full",
            tables(
                &[(40, names(1))]
                    .into_iter()
                    .chain((1..16).map(|table| (700 + table as usize, names(table))))
                    .chain(leaves(1024, 15360))
                    .collect::<Vec<_>>(),
            ),
            15360,
        ),
    ]
}

#[test]
fn tables_told_by_hand() {
    for (name, words, expected) in told_by_hand() {
        assert_eq!(count(&words), expected, "{name}");
    }
}

#[test]
fn no_page_is_passed_over_that_matters() {
    let chosen = ["a leaf behind", "a table that names itself, with", "broken"];
    let told = told_by_hand();
    for (name, words, expected) in told
        .iter()
        .filter(|(name, ..)| chosen.iter().any(|chosen| name.starts_with(chosen)))
    {
        assert_eq!(count_of_all_walks(words), *expected, "{name}");
    }
    let mut random = Random(7);
    let words: Vec<u32> = (0..4096).map(|_| any_word(&mut random, 4096)).collect();
    assert_eq!(count_of_all_walks(&words), count(&words));
}

/// Numbers that look random: xorshift.
struct Random(u64);

impl Random {
    fn below(&mut self, limit: usize) -> usize {
        self.0 ^= self.0 << 13;
        self.0 ^= self.0 >> 7;
        self.0 ^= self.0 << 17;
        (self.0 >> 32) as usize % limit
    }
}

/// Good at either level, absent, broken in each way, or a mere leaf.
fn any_word(random: &mut Random, length: usize) -> u32 {
    let good = names(random.below(length / 512) as u32);
    match random.below(12) {
        0 => 0,
        1 => good ^ PRESENT,
        2 => names(0),
        3 => good | 1 << (16 + random.below(15)),
        4 => names((length / 1024 + random.below(3)) as u32),
        5 => names((length / 512 + random.below(3)) as u32),
        6 => names(0xFFFF),
        7 => PRESENT | random.below(1 << 31) as u32,
        8 => 0xD000_0000,
        _ => good,
    }
}

/// A root, or a word of one of the first places of some directory, or any word.
fn any_place(random: &mut Random, length: usize) -> usize {
    match random.below(5) {
        0 | 1 => random.below(ROOTS),
        2 | 3 => 512 * (1 + random.below(length / 512 - 1)) + random.below(3),
        _ => random.below(length),
    }
}

#[test]
fn both_counts_agree_on_random_tables() {
    let mut random = Random(1);
    for round in 0..60 {
        let length = [1024, 2048, 4096, 5120][round % 4];
        let mut words = vec![0; length];
        for _ in 0..random.below(400) {
            words[any_place(&mut random, length)] = any_word(&mut random, length);
        }
        count(&words);
    }
}

/// Stores in a run of this length, which begins with zeros: both counts after each of them, and
/// how often the count rose, fell, and rose or fell by more than one.
fn agree_on_stores(random: &mut Random, length: usize, stores: usize) -> [usize; 3] {
    let mut words = vec![0; length];
    let mut counts = ByCounts::begin(length);
    let mut walks = ByWalks::begin(length);
    let mut changes = [0; 3];
    for _ in 0..stores {
        let index = any_place(random, length);
        let old = words[index];
        words[index] = match random.below(8) {
            0 => old,
            1 => old ^ PRESENT,
            _ => any_word(random, length),
        };
        let before = walks.count();
        counts.stored(&words, index, old);
        walks.stored(&words, index, old);
        assert_eq!(counts.count(), walks.count(), "word {index} was {old:X}");
        changes[0] += usize::from(walks.count() > before);
        changes[1] += usize::from(walks.count() < before);
        changes[2] += usize::from(walks.count().abs_diff(before) > 1);
    }
    assert_eq!(ByCounts::of(&words).count(), walks.count());
    changes
}

#[test]
fn both_counts_agree_after_each_store() {
    let mut random = Random(2);
    let mut changes = [0; 3];
    for length in [1024, 2048, 3072, 4096, 16384] {
        for _ in 0..8 {
            for (all, some) in changes
                .iter_mut()
                .zip(agree_on_stores(&mut random, length, 300))
            {
                *all += some;
            }
        }
    }
    assert!(changes.iter().all(|&times| times > 200), "{changes:?}");
}

/// The counts after each of these stores into zero tables, by both ways.
fn after_each(stores: &[(usize, u32)]) -> Vec<usize> {
    let mut words = tables(&[]);
    let mut counts = ByCounts::begin(words.len());
    let mut walks = ByWalks::begin(words.len());
    let mut after = Vec::new();
    for &(index, word) in stores {
        let old = std::mem::replace(&mut words[index], word);
        counts.stored(&words, index, old);
        walks.stored(&words, index, old);
        assert_eq!(counts.count(), walks.count(), "{index} {word:X}");
        after.push(walks.count());
    }
    after
}

#[test]
fn stores_told_by_hand() {
    // A leaf counts from the moment that a root and a directory word lead to it.
    let one = [(1025, PRESENT), (512, names(1)), (5, names(1))];
    assert_eq!(after_each(&one), [0, 0, 1]);
    // A second root, then the first goes, then the second; the same value again changes nothing.
    let roots = [(6, names(1)), (5, 0), (5, 0), (6, 1), (6, names(1))];
    assert_eq!(
        after_each(&[&one[..], &roots].concat())[3..],
        [1, 1, 1, 0, 1]
    );
    // A root goes over to another directory, with a table of two leaves, and breaks.
    let other = [
        (2560, names(5)),
        (5120, PRESENT),
        (6143, PRESENT),
        (5, names(5)),
        (5, names(5) | 1 << 20),
    ];
    assert_eq!(
        after_each(&[&one[..], &other].concat())[3..],
        [1, 1, 1, 2, 0]
    );
    // Two words of a directory name one table: it is lost with the second.
    let twice = [(600, names(1)), (512, 0), (600, names(0))];
    assert_eq!(after_each(&[&one[..], &twice].concat())[3..], [1, 1, 0]);
}

#[test]
fn a_word_that_names_its_own_table_counts_itself() {
    let stores = [
        (3, names(8)),
        (4100, names(4)),
        (4101, names(5)),
        (5120, PRESENT),
        (4100, names(6)),
        (4100, names(4)),
        (3, names(9)),
    ];
    assert_eq!(after_each(&stores), [0, 1, 2, 3, 1, 3, 0]);
}
