//! The example files have the listings that are kept beside them: for one interruption, and for none.

use second::listing::listing;
use std::fs;
use std::path::{Path, PathBuf};

/// `listing0` has the listing without interruptions; a refusal is the same for both, and is kept once.
fn kept(case: &Path, interruptions: u16) -> PathBuf {
    let listing = case.with_extension("listing");
    let refused = fs::read_to_string(&listing).unwrap().starts_with("refused ");
    if interruptions == 0 && !refused {
        case.with_extension("listing0")
    } else {
        listing
    }
}

#[test]
fn the_examples_are_listed_so() {
    let folder = Path::new(env!("CARGO_MANIFEST_DIR")).join("../examples");
    let names = fs::read_dir(folder).unwrap().map(|entry| entry.unwrap().path());
    let cases: Vec<_> = names.filter(|name| name.extension().is_some_and(|end| end == "case")).collect();
    assert!(!cases.is_empty());
    for case in cases {
        for interruptions in [0, 1] {
            let kept = fs::read_to_string(kept(&case, interruptions)).unwrap();
            let own = listing(&fs::read(&case).unwrap(), interruptions);
            assert_eq!(own, kept, "{}, {interruptions} interruptions", case.display());
        }
    }
}
