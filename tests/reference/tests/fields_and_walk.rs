//! Entries undo their packing, and the trace program's sample tables are walked.

use reference::*;

#[test]
fn packing_and_unpacking_undo_each_other() {
    for bit in 0..44 {
        let number = 1u64 << bit;
        assert_eq!(Entry::unpack(number).pack(), number);
        let number = (1u64 << 44) - 1 - number;
        assert_eq!(Entry::unpack(number | 1 << 63).pack(), number);
    }
}

#[test]
fn the_sample_tables_give_their_leaf() {
    let mut words = vec![0; 16384];
    words[5] = 0x8000_0001;
    words[512] = 0x8000_0001;
    words[1025] = 0xD000_0123;
    let Walk::Leaf(leaf) = walk(&words[..], 5, 1) else {
        panic!("no leaf");
    };
    assert_eq!(
        (leaf.tree, leaf.index, leaf.word),
        (Tree::Own, 1025, 0xD000_0123)
    );
    let Walk::Absent(decided) = walk(&words[..], 5, 2) else {
        panic!("not absent");
    };
    assert_eq!((decided.tree, decided.level), (Tree::Own, Level::Leaf));
}
