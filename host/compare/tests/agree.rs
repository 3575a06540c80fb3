//! A few cases of each kind; the gate runs more of them (.ci/run).
use compare::slips::Slip;
use compare::{kinds, run};

#[test]
fn every_kind_agrees() {
    for (name, case) in kinds() {
        let cases = if name == "large" { 2 } else { 500 };
        let (_, _, wrong) = run(case, cases, 9, Slip::None);
        assert_eq!(wrong, None, "{name} differs");
    }
}
