//! The generator's reach: in a million compared calls every mark of the reference is met, and none
//! that isn't in its table.

use yasmurekh_compare::{aplic, run, Comparison, Library, Options, Reference};
use yasmurekh_reference::aplic::Coverage as DomainCoverage;
use yasmurekh_reference::coverage::Coverage;

const OPTIONS: Options = Options {
    seed: 1,
    from: 0,
    count: 1_000_000,
};

#[test]
fn every_mark_is_met() {
    let reference = Reference {
        coverage: Some(Coverage::default()),
    };
    let mut comparison = Comparison::new(Library, reference);
    let outcome = run(&mut comparison, &OPTIONS, &mut std::io::sink());
    assert_eq!(outcome.found.map(|found| found.text), None);
    let coverage = comparison.reference.coverage.unwrap_or_default();
    assert_eq!(coverage.at_zero(), []);
    assert_eq!(coverage.unexpected(), []);
}

#[test]
fn every_mark_of_the_wired_domain_is_met() {
    let coverage = Some(DomainCoverage::default());
    let mut comparison = aplic::Comparison::new(aplic::Library::default(), coverage);
    let outcome = run(&mut comparison, &OPTIONS, &mut std::io::sink());
    assert_eq!(outcome.found.map(|found| found.text), None);
    let coverage = comparison.coverage.unwrap_or_default();
    assert_eq!(coverage.at_zero(), []);
    assert_eq!(coverage.unexpected(), []);
}
