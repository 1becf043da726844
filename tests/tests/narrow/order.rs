//! What the order of the places decides: the moves, the rounds and the place of 10; and what it does not: the
//! windows, and whether a list is refused.

use dock_tests::check_narrow::{by_trying_everything, no_place, rounds, rounds_leave, settled};
use dock_tests::day::{Day, Refusal};
use dock_tests::narrow::{self, Side};
use dock_tests::samples::boxes;
use dock_tests::settled::Plans;
use std::collections::BTreeSet;

/// Every order of the places 0 to n - 1.
fn orders(n: usize) -> Vec<Vec<usize>> {
    let mut all = vec![vec![]];
    for place in 0..n {
        let longer = |order: Vec<usize>| -> Vec<_> {
            (0..=place).map(|at| [&order[..at], &[place], &order[at..]].concat()).collect()
        };
        all = all.into_iter().flat_map(longer).collect();
    }
    all
}

/// The same list with its entries in this order.
fn ordered(day: &Day, order: &[usize]) -> Day {
    Day {
        h: day.h,
        opening: day.opening,
        entries: order.iter().map(|&place| day.entries[place].clone()).collect(),
    }
}

/// The same list with all entries pause but one.
fn whole_alone(mut day: Day, place: usize) -> Day {
    day.entries.iter_mut().enumerate().for_each(|(other, entry)| entry.whole = other == place);
    day
}

/// There is but one plan with whole entries in one piece: 2 2 1 0 0. Place 0 is moved in rounds one and two,
/// as round one visits it before place 2 is narrowed to [0, 2).
#[test]
fn four_moves_in_the_order_of_the_list() {
    let day = boxes(5, "w[1,5)2 w[1,3)1 w[0,5)2");
    let last = "w[3,5)2 w[2,3)1 w[0,2)2";
    rounds_leave(&day, &[("w[2,5)2 w[1,3)1 w[0,2)2", 2), (last, 2), (last, 0)]);
    assert_eq!(by_trying_everything(&day).values, [4, 0, 0]);
}

/// The same entries, listed as 1, 2, 0.
#[test]
fn three_moves_in_another_order() {
    let day = boxes(5, "w[1,3)1 w[0,5)2 w[1,5)2");
    let last = "w[2,3)1 w[0,2)2 w[3,5)2";
    rounds_leave(&day, &[("w[1,3)1 w[0,2)2 w[3,5)2", 2), (last, 1), (last, 0)]);
    assert_eq!(by_trying_everything(&day).values, [3, 0, 0]);
}

/// In every order of the places the windows are the same, and so is that there is an answer; the moves are
/// not.
#[test]
fn every_order_has_the_same_windows() {
    let days: [(Day, &[u64]); 5] = [
        (boxes(4, "w[0,3)2 w[0,4)2"), &[2]),
        (boxes(5, "w[1,5)2 w[1,3)1 w[0,5)2"), &[3, 4]),
        (boxes(6, "w[2,5)1 w[0,4)2 p[0,2)1 w[0,6)2"), &[5]),
        (boxes(8, "w[1,5)2 w[2,7)2 w[0,6)2 w[0,8)2"), &[6]),
        (boxes(12, "w[6,9)1 w[3,9)3 w[0,11)2 w[0,11)4 w[0,12)2"), &[9, 10]),
    ];
    for (day, wanted) in days {
        let (windows, _) = settled(&day);
        let mut moves = BTreeSet::new();
        for order in orders(day.entries.len()) {
            let (found, made) = settled(&ordered(&day, &order));
            assert_eq!(found, ordered(&windows, &order), "{day:?} in the order {order:?}");
            moves.insert(made);
        }
        assert_eq!(Vec::from_iter(moves), wanted, "moves in all orders of {day:?}");
    }
}

/// A list that is refused with 10 is refused so in every order; which entry it names depends on the order.
#[test]
fn every_order_of_a_refused_list_is_refused() {
    let days: [(Day, &[usize]); 4] = [
        (boxes(5, "p[2,3)1 w[0,5)2 w[1,4)2"), &[1, 2]),
        (boxes(7, "w[0,7)2 p[4,6)1 w[0,7)3 p[1,3)1"), &[0]),
        (boxes(11, "w[0,11)2 w[0,11)2 w[5,6)1 w[0,11)4 w[0,7)2"), &[0, 1]),
        (boxes(12, "w[2,10)2 w[3,12)3 w[2,10)2 w[0,12)4 w[7,8)1"), &[0, 2]),
    ];
    for (day, wanted) in days {
        let orders = orders(day.entries.len());
        let named = orders.iter().map(|order| order[no_place(&ordered(&day, order))]);
        assert_eq!(Vec::from_iter(named.collect::<BTreeSet<_>>()), wanted, "named in all orders of {day:?}");
    }
}

/// 10 carries the place at which the rounds stop. A list of steps may stop at place 2 as well, the entry that
/// has no minutes whatever place 1 does: it alone is refused too.
#[test]
fn ten_may_name_another_entry_than_the_one_without_minutes() {
    let day = boxes(5, "p[2,3)1 w[0,5)2 w[1,4)2");
    assert_eq!(no_place(&day), 1);
    assert_eq!(by_trying_everything(&day).values, [1, 0, 0]);
    let steps = Plans::of(&day).steps();
    assert!(steps.refused.contains(&1) && steps.refused.contains(&2), "{:?}", steps.refused);
    assert_eq!(no_place(&whole_alone(day, 2)), 2);
}

/// Places 1 and 2 fill [0, 5), so place 0 is moved behind them. Then place 2 finds no three minutes in a row.
#[test]
fn ten_after_a_move_of_the_same_round() {
    let day = boxes(7, "w[1,7)2 p[2,4)2 w[0,5)3");
    assert_eq!(no_place(&day), 2);
    assert_eq!(by_trying_everything(&day).values, [2, 0, 0]);
}

#[test]
fn ten_in_round_two() {
    let day = boxes(7, "w[0,7)2 p[4,6)1 w[0,7)3 p[1,3)1");
    rounds_leave(&day, &[("w[0,7)2 p[4,6)1 w[2,5)3 p[1,3)1", 2)]);
    assert_eq!(no_place(&day), 0);
    assert_eq!(by_trying_everything(&day).values, [0, 0, 0]);
}

/// It carries its place and no moves, however many were made.
#[test]
fn ten_in_round_three() {
    let day = boxes(11, "w[0,11)2 w[0,11)2 w[5,6)1 w[0,11)4 w[0,7)2");
    let first = "w[0,11)2 w[0,11)2 w[5,6)1 w[0,11)4 w[0,5)2";
    let second = "w[0,11)2 w[0,11)2 w[5,6)1 w[6,11)4 w[0,5)2";
    rounds_leave(&day, &[(first, 1), (second, 1)]);
    assert_eq!(no_place(&day), 1);
    assert_eq!(Plans::of(&day).rounds(), Err(Refusal::NoPlace { place: 1 }));
}

/// Found by search: five rounds with 13 moves, then 10 in round six.
#[test]
fn ten_in_round_six() {
    let day = boxes(30, "w[8,9)1 w[19,25)5 w[0,24)4 w[0,23)6 w[5,30)2 w[2,27)3 w[1,30)4 w[8,28)5");
    assert_eq!(no_place(&day), 2);
    assert_eq!(rounds(&day).moves(), [4, 1, 1, 3, 4]);
}

/// A step for d may be refused. Inside a round it never is: the r just found is a place. The library has no
/// call for a step, so both programs of the tests are asked.
#[test]
fn a_step_for_d_may_be_refused() {
    let day = boxes(3, "w[0,3)2 w[1,2)1");
    let refused = Err(Refusal::NoPlace { place: 0 });
    for side in [Side::Earliest, Side::Latest] {
        let mut left = day.clone();
        assert_eq!(narrow::step(&mut left, 0, side), refused, "{side:?}");
        assert_eq!(left, day, "a refused step changes no window");
        assert_eq!(Plans::of(&day).step(&vec![(0, 3), (1, 2)], 0, side), None, "by trying everything");
    }
    assert_eq!(no_place(&day), 0);
    assert_eq!(by_trying_everything(&day).values, [0, 0, 0]);
}

/// "It is settled if a plan has every entry in its window, and if each whole entry has such a plan": each
/// entry for itself. No plan keeps all three in one piece, as 3 and 3 minutes are free beside place 3.
#[test]
fn settled_windows_may_have_no_unbroken_plan() {
    let day = boxes(7, "w[0,7)2 w[0,7)2 w[0,7)2 p[3,4)1");
    rounds_leave(&day, &[("w[0,7)2 w[0,7)2 w[0,7)2 p[3,4)1", 0)]);
    assert_eq!(Plans::of(&day).unbroken().count(), 0);
}

/// "A changed r is one move, a changed d another": both in one visit, which cut one minute each.
#[test]
fn a_visit_may_make_two_moves() {
    let day = boxes(4, "p[0,1)1 w[0,4)2 p[3,4)1");
    rounds_leave(&day, &[("p[0,1)1 w[1,3)2 p[3,4)1", 2), ("p[0,1)1 w[1,3)2 p[3,4)1", 0)]);
    assert_eq!(by_trying_everything(&day).values, [2, 0, 0]);
}

/// However far r or d goes, it is one move.
#[test]
fn a_move_may_cut_many_minutes() {
    let day = boxes(100, "p[0,60)60 w[0,100)2 p[64,100)36");
    rounds_leave(&day, &[("p[0,60)60 w[60,64)2 p[64,100)36", 2), ("p[0,60)60 w[60,64)2 p[64,100)36", 0)]);
}
