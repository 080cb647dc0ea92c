// The work of hm_pages_bench on the standard library's hash map, which has one state alone.
//
// `page_map PAGES` puts so many new pages of 4,096 bytes into a map by their offsets.

use std::collections::HashMap;
use std::env::args;

fn main() {
    let pages: u64 = args().nth(1).expect("usage: page_map PAGES").parse().expect("a number");
    let mut map: HashMap<u64, Box<[u8; 4096]>> = HashMap::new();
    let mut page = [0; 4096];
    for number in 0..pages {
        page[..8].copy_from_slice(&number.to_le_bytes());
        map.insert((8 << 60) + number * 4096, Box::new(page));
    }
    println!("pages {}", map.len());
}
