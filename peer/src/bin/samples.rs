//! Writes the sample pictures, and beside each what the program prints for it.
//!
//! `samples FOLDER`

use std::env;
use std::fs::write;
use std::path::Path;
use std::process::exit;

use peer::{listing, samples};

fn main() {
    let arguments: Vec<String> = env::args().skip(1).collect();
    let [folder] = arguments.as_slice() else {
        eprintln!("usage: samples FOLDER");
        exit(2)
    };
    for (name, picture) in samples::files() {
        put(folder, &format!("{name}.picture"), &picture);
        put(folder, &format!("{name}.listing"), listing(&picture).as_bytes());
    }
}

fn put(folder: &str, name: &str, bytes: &[u8]) {
    let path = Path::new(folder).join(name);
    if let Err(error) = write(&path, bytes) {
        eprintln!("samples: {}: {error}", path.display());
        exit(1)
    }
}
