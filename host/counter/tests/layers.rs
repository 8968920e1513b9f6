//! The program's modules: no module knows one that knows it, not even in a round.

use std::collections::{BTreeMap, BTreeSet};
use std::fs;
use std::path::Path;

/// The modules that each module names, from the sources.
fn known() -> BTreeMap<String, BTreeSet<String>> {
    let folder = Path::new(env!("CARGO_MANIFEST_DIR")).join("src");
    let mut sources = BTreeMap::new();
    for entry in fs::read_dir(folder).unwrap() {
        let path = entry.unwrap().path();
        let name = path.file_stem().unwrap().to_str().unwrap().to_string();
        sources.insert(name, fs::read_to_string(path).unwrap());
    }
    let names: BTreeSet<String> = sources.keys().cloned().collect();
    let mut known = BTreeMap::new();
    for (name, source) in sources.iter().filter(|(name, _)| *name != "main") {
        let mut found = BTreeSet::new();
        for after in source.split("crate::").skip(1) {
            // `crate::name` or `crate::{name, name::what}`.
            let group = match after.strip_prefix('{') {
                Some(group) => group.split('}').next().unwrap(),
                None => after.split(|c: char| !c.is_alphanumeric() && c != '_').next().unwrap(),
            };
            for part in group.split(',') {
                let part = part.trim().split("::").next().unwrap().to_string();
                assert!(names.contains(&part), "{name} names crate::{part}, which is no module");
                found.insert(part);
            }
        }
        let says = |macro_name: &str| source.contains(macro_name);
        if says("eprintln!") || says("eprint!") {
            found.insert("out".into());
        }
        found.remove(name);
        known.insert(name.clone(), found);
    }
    known
}

#[test]
fn no_module_knows_one_that_knows_it() {
    let mut known = known();
    let mut layer = 0;
    while !known.is_empty() {
        let lowest: Vec<String> = known
            .iter()
            .filter(|(_, others)| others.iter().all(|other| !known.contains_key(other)))
            .map(|(name, _)| name.clone())
            .collect();
        assert!(!lowest.is_empty(), "these know each other in a round: {known:?}");
        layer += 1;
        println!("{layer}: {}", lowest.join(" "));
        known.retain(|name, _| !lowest.contains(name));
    }
}
