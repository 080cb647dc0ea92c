// The work of hm_bench on the standard library's ordered map, which keeps no pages.
//
// `btree_map OPERATION ORDER ELEMENTS` makes a map of so many elements, with the keys of hm_bench in
// the same order, and does the same calls.

use std::collections::BTreeMap;
use std::env::args;

// An element's key, whose fields are compared in this order.
#[derive(Clone, Copy, PartialEq, Eq, PartialOrd, Ord)]
struct Key {
    localization: u32,
    obj: u64,
    rec_type: u16,
    key: u64,
    create: u64,
}

// What else an element has.
#[derive(Clone, Copy)]
struct Value {
    delete: u64,
    obj_type: u8,
    payload: u64,
    len: u32,
}

fn key(order: &str, i: u64) -> Key {
    let key = match order {
        "random" => i.wrapping_mul(6_364_136_223_846_793_005),
        _ => i,
    };
    Key { localization: 2, obj: 1, rec_type: 0x0016, key, create: 1 }
}

fn main() {
    let words: Vec<String> = args().skip(1).collect();
    let [operation, order, elements] = words.as_slice() else {
        panic!("usage: btree_map insert|lookup|last|remove random|rising ELEMENTS");
    };
    let elements: u64 = elements.parse().expect("a number");
    let value = Value { delete: 0, obj_type: 1, payload: 1 << 60, len: 8 };
    let mut map = BTreeMap::new();
    for i in 0..elements {
        map.insert(key(order, i), value);
    }
    let mut found = 0;
    match operation.as_str() {
        "lookup" => {
            for i in 0..elements {
                let first = map.range(key(order, i)..).next();
                found += first.map_or(0, |(_, v)| u64::from(v.len) + v.delete + v.payload % 3);
            }
        }
        "last" => {
            for i in 0..elements {
                let last = map.range(..=key(order, i)).next_back();
                found += last.map_or(0, |(_, v)| u64::from(v.len) + v.delete + v.payload % 3);
            }
        }
        "remove" => {
            for i in 0..elements - elements / 100 {
                found += map.remove(&key(order, i)).map_or(0, |v| u64::from(v.obj_type));
            }
        }
        _ => (),
    }
    println!("elements {}, sum {found}", map.len());
}
