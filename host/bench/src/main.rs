//! Counter and the original Rust on the same images, call by call, in one process.

#![allow(dead_code, unused_imports)]

/// Stands for unplug's macro of this name, as in the oracle.
macro_rules! from_error_boxed {
    ($to:ident :: $variant:ident, $from:ty) => {
        impl From<$from> for $to {
            fn from(error: $from) -> Self {
                $to::$variant(Box::new(error))
            }
        }
    };
}

#[path = "../../../oracle/src/common.rs"]
mod common;
#[path = "../../../oracle/src/dvd.rs"]
mod dvd;

mod adversarial;
mod calls;
mod clear;
mod fill;
mod giant;
mod growth;
mod images;
mod long;
mod master;
mod measure;
mod measuring;
mod megabyte;
mod names;
mod places;
mod program;
mod record;
mod sheet;
mod sides;
mod steps;
mod tables;

fn main() {
    let wanted: Vec<String> = std::env::args().skip(1).collect();
    if let [word, folder] = &wanted[..]
        && word == "write"
    {
        program::write(folder.as_ref()).unwrap();
        names::write(folder.as_ref()).unwrap();
        return measuring::write(folder.as_ref()).unwrap();
    }
    let runs = |name: &str| wanted.is_empty() || wanted.iter().any(|w| w == name);
    let mut misses = vec![];
    if runs("calls") {
        calls::run(&mut misses);
        megabyte::run(&mut misses);
    }
    let mut slower = vec![];
    if runs("long") {
        calls::run_long(&mut slower);
    }
    if runs("names") {
        names::run(&mut misses);
    }
    if runs("growth") {
        growth::run(&mut misses);
    }
    if runs("adversarial") {
        adversarial::run(&mut misses);
    }
    if runs("program") {
        program::run(&mut misses);
    }
    if runs("measuring") {
        measuring::run(&mut misses);
    }
    if runs("record") {
        record::run(&mut misses);
    }
    if runs("steps") {
        steps::run(&mut misses);
        steps::run_giant(&mut misses);
    }
    if runs("sheet") {
        sheet::run(&mut misses);
        sheet::run_long_texts(&mut misses);
    }
    if runs("clear") {
        clear::run(&mut misses);
    }
    if runs("master") {
        master::run(&mut misses);
    }
    if runs("tables") {
        tables::run(&mut misses);
    }
    if runs("giant") {
        giant::run(&mut misses);
    }
    if runs("fill") {
        fill::run(&mut misses);
    }
    println!();
    match misses.is_empty() {
        true => println!("every bar is met"),
        false => println!("{} bars are missed:", misses.len()),
    }
    for miss in &misses {
        println!("- {miss}");
    }
    if !slower.is_empty() {
        println!("slower than the Rust, on paths that the bars' calls do not have:");
    }
    for path in &slower {
        println!("- {path}");
    }
    std::process::exit(i32::from(!misses.is_empty()));
}
