//! The small calls for the definitions, held against the original.

use calls::small::{shown_small, small_calls};
use compare::against_rust;
use plain::Step;

#[test]
fn small_calls_are_the_originals() {
    let calls = small_calls(1);
    for small in &calls {
        let result = against_rust(&small.before, &small.made);
        assert!(result.is_ok(), "{result:?}: {:?}", small.made);
    }
    for step in Step::ALL {
        for answer in shown_small(step) {
            let shown = |s: &&_| {
                let calls::small::Small { made, .. } = s;
                made.call.step == step && made.outcome.answer == answer
            };
            assert!(calls.iter().any(|s| shown(&s)), "{step:?} {answer}");
        }
    }
}
