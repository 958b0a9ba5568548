//! The account of a machine in flight: the worked stops of a pop and of a swap, and what it has to find.

use models::call::Record;
use models::flight::Flight;
use models::{element, Element};

/// The words of slots, each an element and a count.
fn slots(all: &[(Element, u32)]) -> Vec<u32> {
    all.iter().flat_map(|&(x, count)| [x.rank, x.tag, x.length, count]).collect()
}

/// A machine's one record.
fn record(kind: u32, node: u32, x: Element) -> [Record; 1] {
    [[kind, node, x.rank, x.tag, x.length]]
}

fn none() -> Element {
    element(0, 0, 0)
}

/// Order 2, levels 2, as after a cycle that lifted 3/30: it stands where it went and where it was.
fn lifted(count: u32, below: (Element, u32)) -> Vec<u32> {
    slots(&[
        (element(5, 50, 500), 2),
        (element(3, 30, 300), count),
        (element(8, 80, 800), 1),
        (none(), 0),
        below,
        (none(), 0),
    ])
}

/// Pushed 5/50, 3/30, 8/80 and 1/10, and 1/10 answered out.
fn popped() -> Flight {
    let mut flight = Flight::new(2, 2);
    for (rank, tag) in [(5, 50), (3, 30), (8, 80), (1, 10)] {
        flight.accepted(element(rank, tag, 100 * rank));
    }
    flight.answered_out(element(1, 10, 100));
    flight
}

#[test]
fn a_pop_in_the_middle() {
    let store = lifted(1, (element(3, 30, 300), 1));
    assert_eq!(popped().check(&store, &record(2, 1, none())), Ok(()));
    // a pending take that is not struck out
    assert!(popped().check(&store, &record(0, 0, none())).is_err());
    // the lifted element removed in the same cycle
    assert!(popped().check(&lifted(1, (none(), 0)), &record(2, 1, none())).is_err());
    // .. and a cycle later
    let mut flight = popped();
    assert_eq!(flight.check(&store, &record(2, 1, none())), Ok(()));
    assert_eq!(flight.check(&lifted(1, (none(), 0)), &record(0, 0, none())), Ok(()));
}

#[test]
fn a_swap_in_the_middle() {
    let replaced = || {
        let mut flight = popped();
        flight.accepted(element(4, 7, 400));
        flight
    };
    let store = lifted(2, (element(3, 30, 300), 1));
    assert_eq!(replaced().check(&store, &record(3, 1, element(4, 7, 400))), Ok(()));
    // another element carried; none
    assert!(replaced().check(&store, &record(3, 1, element(4, 8, 400))).is_err());
    assert!(replaced().check(&store, &record(2, 1, none())).is_err());
    // .. and a cycle later
    assert_eq!(replaced().check(&lifted(2, (element(4, 7, 400), 1)), &record(0, 0, none())), Ok(()));
}

#[test]
fn of_equal_ranks_the_lower_tag_is_struck_out() {
    let store = slots(&[
        (none(), 0),
        (element(5, 3, 500), 2),
        (none(), 0),
        (none(), 0),
        (element(5, 9, 500), 1),
        (element(5, 3, 500), 1),
    ]);
    let mut flight = Flight::new(2, 2);
    flight.accepted(element(5, 9, 500));
    flight.accepted(element(5, 3, 500));
    assert_eq!(flight.check(&store, &record(2, 1, none())), Ok(()));
}
