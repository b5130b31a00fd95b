//! Order: 10, 11, 12, 13, 9. Each ending is given exactly when it is the first that applies.

use second::fixed::bad_calls;

/// What the case says is wrong, in the order of the tests, with its ending.
const ORDER: [(&str, u32); 6] =
    [("storage", 10), ("keys", 11), ("odd address", 12), ("code", 13), ("PSW bit 12", 9), ("PSW bit 15", 9)];

#[test]
fn the_first_that_applies_is_given() {
    let lists = bad_calls();
    assert_eq!(lists.len(), 64);
    for list in &lists {
        let call = &list.calls[0];
        let wrong = call.case.strip_prefix("wrong: ").expect("a list of what is wrong");
        let first = ORDER.iter().find(|(name, _)| wrong.split(", ").any(|one| one == *name));
        let (ending, count) = first.map_or((0, 7), |&(_, number)| (number, 0));
        let answer = call.request.make(&mut list.image.storage(), &mut list.image.key_bytes());
        assert_eq!((answer.ending.number(), answer.count()), (ending, count), "{wrong}");
    }
    let cases: std::collections::BTreeSet<&str> =
        lists.iter().map(|list| list.calls[0].case.as_str()).collect();
    assert_eq!(cases.len(), 64);
}
