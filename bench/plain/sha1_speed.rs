//! What the plain SHA-1 takes for ids of changesets, of texts of a few sizes: the least of 200 rounds, each of 1,000
//! ids that are made one with the other.

#[path = "sha1.rs"]
mod sha1;

use sha1::Sha1;
use std::time::Instant;

fn id_of(parent: &[u8; 20], text: &[u8]) -> [u8; 20] {
    let mut hash = Sha1::new();
    hash.update(&[0; 20]);
    hash.update(parent);
    hash.update(text);
    hash.finish()
}

fn round(text: &[u8]) -> u128 {
    let start = Instant::now();
    let id = (0..1_000).fold([0; 20], |id, _| id_of(&id, text));
    std::hint::black_box(id);
    start.elapsed().as_nanos()
}

fn main() {
    for size in [35, 140, 300, 4_000] {
        let text = vec![b'x'; size];
        let least = (0..200).map(|_| round(&text)).min().unwrap_or(0);
        println!("sha1 {size} {} ns", least / 1_000);
    }
}
