//! One order alone, of each kind: 01's counts, and the library's order entry by entry.

use bench::kind::{Kind, Marked, Plain, Tuned};
use bench::order::{grow, Order, STRANDS};
use bench::sides::{growing, Grow};

fn grown(side: Grow, factor: u16) -> (Vec<u64>, Vec<u16>, u64) {
    let (mut labels, mut links) = (vec![7; STRANDS + 3], vec![7; 2 * STRANDS + 3]);
    let count = side(&mut labels, &mut links, factor);
    (labels, links, count)
}

/// The labels and the count of an order of so many strands, each set behind the last.
fn in_line<K: Kind>(strands: usize, set: fn(&mut Order<K>, usize)) -> (Vec<u64>, u64) {
    let (mut labels, mut links) = (vec![0; STRANDS], vec![0; 2 * STRANDS]);
    let (mut order, ..) = Order::root(&mut labels, &mut links);
    (1..strands).for_each(|new| set(&mut order, new));
    let count = order.count;
    (labels[..strands].to_vec(), count)
}

#[test]
fn appended_strands_count_as_01_says() {
    for (strands, count) in [(1, 1), (65, 129), (131, 259)] {
        assert_eq!(in_line::<Plain>(strands, |order, new| order.append(new)).1, count, "{strands} strands");
        assert_eq!(in_line::<Marked>(strands, |order, new| order.append(new)).1, count, "{strands} strands");
        assert_eq!(in_line::<Tuned>(strands, |order, new| order.append(new)).1, count, "{strands} strands");
    }
}

#[test]
fn appending_is_inserting_behind_the_last() {
    let inserted = in_line::<Plain>(STRANDS, |order, new| order.insert(new - 1, new));
    assert_eq!(in_line::<Marked>(STRANDS, |order, new| order.insert(new - 1, new)), inserted);
    assert_eq!(in_line::<Marked>(STRANDS, |order, new| order.append(new)), inserted);
    assert_eq!(in_line::<Tuned>(STRANDS, |order, new| order.insert(new - 1, new)), inserted);
    assert_eq!(in_line::<Tuned>(STRANDS, |order, new| order.append(new)), inserted);
}

#[test]
fn entries_past_the_order_stay() {
    for side in [grow::<Plain>, grow::<Marked>, grow::<Tuned>] {
        let (labels, links, _) = grown(side, 1);
        assert_eq!(labels[STRANDS..], [7; 3]);
        assert_eq!(links[2 * STRANDS..], [7; 3]);
    }
}

/// The library too, if it is there.
#[test]
fn all_sides_grow_the_same_order() {
    for factor in [0, 1, 2, 3, 1000, 4095, 40503, 65535] {
        let plain = grown(grow::<Plain>, factor);
        assert!(growing().into_iter().all(|side| grown(side, factor) == plain), "factor {factor}");
    }
}

#[test]
fn all_sides_leave_short_buffers() {
    for side in growing() {
        for (labels, links) in [(STRANDS - 1, 2 * STRANDS), (STRANDS, 2 * STRANDS - 1), (0, 0)] {
            let (mut labels, mut links) = (vec![7; labels], vec![7; links]);
            assert_eq!(side(&mut labels, &mut links, 1), 0);
            assert!(labels.iter().all(|&label| label == 7) && links.iter().all(|&link| link == 7));
        }
    }
}
