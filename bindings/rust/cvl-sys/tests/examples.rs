//! Each function on the example of its call, or of a call of its family: what it writes, whole, in parts and by a descriptor.

use std::cell::Cell;
use std::collections::HashSet;

use cvl_sys::*;

#[path = "examples/example.rs"]
#[allow(dead_code)] // each crate needs some of it
mod example;
#[rustfmt::skip]
#[path = "examples/functions.rs"]
mod functions;

use example::{Example, Operand};
use functions::FUNCTIONS;

const DONE: CvlStatus = CvlStatus { number: CVL_DONE, place: -1 };

/// The memory of an operand that holds these numbers, each in as many bytes as in C.
fn stored(operand: &Operand, numbers: &[i64]) -> Vec<Cell<u64>> {
    let bytes = numbers.iter().flat_map(|&number| match operand.kind {
        "ints" | "int" => (number as i32).to_ne_bytes().to_vec(),
        "flags" | "flag" | "bytes" | "text" => vec![number as u8],
        "marks" => (number as u32).to_ne_bytes().to_vec(),
        "size" => (number as usize).to_ne_bytes().to_vec(),
        "sum" | "sums" => number.to_ne_bytes().to_vec(),
        other => panic!("no kind {}", other),
    });
    let mut bytes: Vec<u8> = bytes.collect();
    bytes.resize(bytes.len() / 8 * 8 + 8, 0);
    let words = bytes.chunks(8).map(|word| u64::from_ne_bytes(word.try_into().unwrap()));
    words.map(Cell::new).collect()
}

/// What a call is given.
pub struct Held<'a> {
    example: &'a Example,
    memory: Vec<Vec<Cell<u64>>>,
}

impl Held<'_> {
    fn of(example: &Example) -> Held<'_> {
        let before = |operand: &Operand| stored(operand, &operand.numbers_before());
        Held { example, memory: example.operands.iter().map(before).collect() }
    }

    fn at<T>(&self, name: &str) -> *mut T {
        self.memory[self.example.place(name)].as_ptr() as *mut T
    }

    fn len(&self, name: &str) -> usize {
        self.example.operand(name).numbers.len()
    }

    fn number(&self, name: &str) -> i64 {
        self.example.operand(name).numbers[0]
    }

    fn operator(&self) -> u32 {
        self.example.operator.try_into().unwrap()
    }

    fn lengths(&self, name: &str) -> CvlLengths {
        CvlLengths { lengths: self.at(name), segments: self.len(name) }
    }

    fn descriptor(&self, name: &str) -> CvlSegments {
        let mut made = CVL_NO_SEGMENTS;
        assert_eq!(unsafe { cvl_segments_new(self.lengths(name), &mut made) }, DONE);
        made
    }

    /// Whether all memory is now as the example says: what was written, and what was read.
    fn is_as_the_example(&self) -> bool {
        let wanted = self.example.operands.iter().map(|operand| stored(operand, &operand.numbers));
        self.memory.iter().cloned().eq(wanted)
    }
}

#[test]
fn each_function_on_its_examples() {
    let mut tried = HashSet::new();
    for example in &Example::all() {
        let of_example = |of: &str| of == example.name || of == example.family;
        let functions = FUNCTIONS.iter().filter(|(of, ..)| of_example(of));
        for (_, name, function) in functions {
            let held = Held::of(example);
            assert_eq!(function(&held), DONE, "{} on the example of {}", name, example.name);
            assert!(held.is_as_the_example(), "{} on the example of {}", name, example.name);
            tried.insert(*name);
        }
        assert!(tried.contains(&*format!("cvl_{}", example.name)), "{}", example.name);
    }
    assert_eq!(tried.len(), FUNCTIONS.len());
}
