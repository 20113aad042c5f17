//! The worked examples, on the reference.

use reference::call::Call;
use reference::examples::{
    example_packs, examples, language_c, language_k, pack_with_sum, pack_with_wider_strap, sum,
};
use reference::listing::listing;
use std::fs;
use std::path::Path;

/// The bytes of the plan in a folder of the examples.
fn example_file(folder: &str, ending: &str) -> Vec<u8> {
    let examples = Path::new(env!("CARGO_MANIFEST_DIR")).join("../examples");
    let plan = examples.join(folder).join("plan");
    fs::read(plan.with_extension(ending)).expect("the file can be read")
}

#[test]
fn every_example_holds() {
    for example in examples() {
        let wrong = example.wrong(Call::by_reference);
        assert_eq!(wrong, None, "{}: {}", example.call.operation(), example.what);
    }
}

#[test]
fn sizes_of_the_languages_the_pack_and_the_translation() {
    assert_eq!(language_c().len(), 27);
    assert_eq!(language_k().len(), 6);
    assert_eq!(pack_with_sum().len(), 71);
    assert_eq!(sum().len(), 116);
}

#[test]
fn the_files_hold_the_packs_and_their_listings() {
    for (name, pack) in example_packs() {
        assert_eq!(example_file(name, "pack"), pack, "{name}");
        assert_eq!(example_file(name, "expected"), listing(&pack).into_bytes(), "{name}");
    }
}

#[test]
fn listings() {
    let wider = "accepted 116\n1.1 01010301\n1.2 010203010302\n1.3 01010301\n1.4 010203010301\n";
    assert_eq!(listing(&pack_with_wider_strap()), wider);
    assert_eq!(listing(&[]), "refused 2\n");
}

#[test]
fn the_club_files_are_unchanged() {
    let fields = pack_with_sum();
    let constants = 3 + language_k().len() + 3 + language_c().len();
    assert!(pack_with_wider_strap().starts_with(&fields[..constants]));
}
