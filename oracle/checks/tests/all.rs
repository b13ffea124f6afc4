//! The lists that the programs print, as tests.

#[test]
fn findings() {
    let numbered = checks::findings::all(500);
    assert_eq!(numbered.len(), 20);
    for finding in [numbered, checks::findings::others(500)].concat() {
        assert!(finding.confirmed(), "{}", finding.line());
    }
}

#[test]
fn document() {
    for case in checks::document::all() {
        assert!(case.agrees(), "{case:?}");
    }
}

#[test]
fn grown() {
    let tables = checks::grown::measure(300).unwrap_or_else(|(seed, fault)| {
        panic!("list {seed}: {fault}");
    });
    for held in tables.held {
        assert!(held.premise > 0 && held.against == 0, "{}", held.row);
    }
    for reach in tables.reach {
        assert_eq!(reach.notes, reach.met, "{}", reach.row);
    }
    for met in tables.met {
        assert_eq!(met.reached, met.states > 0, "{}", met.row);
    }
}
