//! The list of refusals, as another crate sees it.

use spacetime::Refusal;

/// Names them all and has an arm more, which is for those that come later.
#[deny(unreachable_patterns)]
fn call(refusal: Refusal) -> &'static str {
    use Refusal::*;
    match refusal {
        Size | Symbols | Position | Reversed | Heads | Cells => "a fit",
        IndexLength | StoreLength | TalliesLength | Record => "memory that is lent",
        Runs | Unjoined | Reach | Swept | Complete => "a row",
        OutputLength | Upright | PageWidth | PageLength | Memory => "another",
        _ => "a later one",
    }
}

#[test]
fn a_later_refusal_breaks_no_caller() {
    assert!(Refusal::ALL.iter().all(|refusal| call(*refusal) != "a later one"));
    assert_eq!(call(Refusal::Memory), "another");
}
