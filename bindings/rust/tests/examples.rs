//! Each function on its example: what it gives, the same in a room and in the place of an operand, and what is refused.

#[path = "../cvl-sys/tests/examples/example.rs"]
#[allow(dead_code)] // each crate needs some of it
mod example;
#[rustfmt::skip]
#[path = "examples/calls.rs"]
mod calls;

use calls::CALLS;
use cvl::{Fault, Segments};
use example::{Example, Operand};

/// A function by its name: what it gives, as numbers; how it fills a room, with the count that it tells; and the name of the operand that may
/// be the room, with the function for that.
pub struct Call {
    name: &'static str,
    gives: Option<fn(&Given) -> Result<Vec<i64>, Fault>>,
    fills: Option<fn(&Given, &mut Room) -> Result<Option<usize>, Fault>>,
    within: Option<(&'static str, fn(&Given, &mut Room) -> Result<(), Fault>)>,
}

/// What functions give, as the numbers of the file of examples.
trait Numbers {
    fn numbers(self) -> Vec<i64>;
}

impl Numbers for Vec<i32> {
    fn numbers(self) -> Vec<i64> {
        self.into_iter().map(i64::from).collect()
    }
}

impl Numbers for Vec<bool> {
    fn numbers(self) -> Vec<i64> {
        self.into_iter().map(i64::from).collect()
    }
}

impl Numbers for Vec<u8> {
    fn numbers(self) -> Vec<i64> {
        self.into_iter().map(i64::from).collect()
    }
}

impl Numbers for Vec<i64> {
    fn numbers(self) -> Vec<i64> {
        self
    }
}

impl Numbers for String {
    fn numbers(self) -> Vec<i64> {
        self.bytes().map(i64::from).collect()
    }
}

impl Numbers for Segments {
    fn numbers(self) -> Vec<i64> {
        self.lengths().to_vec().numbers()
    }
}

impl Numbers for i32 {
    fn numbers(self) -> Vec<i64> {
        vec![i64::from(self)]
    }
}

impl Numbers for bool {
    fn numbers(self) -> Vec<i64> {
        vec![i64::from(self)]
    }
}

impl Numbers for i64 {
    fn numbers(self) -> Vec<i64> {
        vec![self]
    }
}

fn numbers<T: Numbers>(found: Result<T, Fault>) -> Result<Vec<i64>, Fault> {
    found.map(Numbers::numbers)
}

/// What a function into a room tells: nothing, or a count.
trait Told {
    fn told(self) -> Option<usize>;
}

impl Told for () {
    fn told(self) -> Option<usize> {
        None
    }
}

impl Told for usize {
    fn told(self) -> Option<usize> {
        Some(self)
    }
}

fn told<T: Told>(found: Result<T, Fault>) -> Result<Option<usize>, Fault> {
    found.map(Told::told)
}

/// The operands of an example, as slices.
pub struct Given {
    example: Example,
    ints: Vec<Vec<i32>>,
    flags: Vec<Vec<bool>>,
    texts: Vec<Vec<u8>>,
}

impl Given {
    fn of(example: &Example) -> Given {
        let each = || example.operands.iter().map(|operand| operand.numbers.iter());
        Given {
            example: example.clone(),
            ints: each().map(|numbers| numbers.map(|&number| number as i32).collect()).collect(),
            flags: each().map(|numbers| numbers.map(|&number| number != 0).collect()).collect(),
            texts: each().map(|numbers| numbers.map(|&number| number as u8).collect()).collect(),
        }
    }

    fn ints(&self, name: &str) -> &[i32] {
        &self.ints[self.example.place(name)]
    }

    fn flags(&self, name: &str) -> &[bool] {
        &self.flags[self.example.place(name)]
    }

    fn text(&self, name: &str) -> &[u8] {
        &self.texts[self.example.place(name)]
    }

    fn bytes(&self, name: &str) -> &[u8] {
        self.text(name)
    }

    fn number(&self, name: &str) -> i64 {
        self.example.operand(name).numbers[0]
    }

    fn len(&self, name: &str) -> usize {
        self.example.operand(name).numbers.len()
    }

    fn segments(&self, name: &str) -> Segments {
        Segments::new(self.ints(name)).unwrap()
    }
}

/// The rooms of a call, each of its kind, and a second one of integers.
#[derive(Clone, Debug, Default, PartialEq)]
pub struct Room {
    ints: Vec<i32>,
    seconds: Vec<i32>,
    flags: Vec<bool>,
    bytes: Vec<u8>,
    text: Vec<u8>,
    marks: Vec<u32>,
    sums: Vec<i64>,
}

impl Room {
    fn put(&mut self, kind: &str, numbers: impl Iterator<Item = i64>) {
        match kind {
            "ints" if self.ints.is_empty() => self.ints = numbers.map(|number| number as i32).collect(),
            "ints" => self.seconds = numbers.map(|number| number as i32).collect(),
            "flags" => self.flags = numbers.map(|number| number != 0).collect(),
            "bytes" => self.bytes = numbers.map(|number| number as u8).collect(),
            "text" => self.text = numbers.map(|number| number as u8).collect(),
            "sums" => self.sums = numbers.collect(),
            _ => self.marks = numbers.map(|number| number as u32).collect(),
        }
    }

    /// The rooms as the example leaves them.
    fn wanted(example: &Example) -> Room {
        let mut room = Room::default();
        for operand in example.operands.iter().filter(|operand| operand.role == "room") {
            room.put(operand.kind, operand.numbers.iter().copied());
        }
        room
    }

    /// Rooms that are so much longer, which hold what the example says, or numbers that differ from those that it leaves.
    fn before(example: &Example, longer: isize) -> Room {
        let mut room = Room::default();
        for operand in example.operands.iter().filter(|operand| operand.role == "room") {
            let length = (operand.numbers.len() as isize + longer) as usize;
            room.put(operand.kind, operand.numbers_before().into_iter().chain([1]).take(length));
        }
        room
    }
}

/// The operand that a function gives: its room, its single value, or the lengths that it makes segments.
fn result(example: &Example) -> &Operand {
    let written = |operand: &&Operand| ["room", "single"].contains(&operand.role);
    let made = || example.operands.iter().find(|operand| operand.role == "lengths");
    example.operands.iter().find(written).or_else(made).unwrap()
}

fn is_range(example: &Example) -> bool {
    result(example).extent == "range"
}

fn counts(example: &Example) -> Option<usize> {
    let count = example.operands.iter().find(|operand| operand.role == "told");
    count.map(|operand| operand.numbers[0] as usize)
}

/// How many operands have to be as long as this one, with itself, as arrays or by lengths.
fn partners(example: &Example, one: &Operand) -> usize {
    let others = example.operands.iter().filter(|other| match other.role {
        "reads" => other.extent == one.extent,
        "lengths" => one.extent == "segments" || other.extent == one.extent,
        _ => false,
    });
    others.count()
}

/// Whether no operand says how long the rooms are.
fn is_sized_by_room(example: &Example) -> bool {
    let extent = result(example).extent;
    ["m", "n"].contains(&extent) && example.operands.iter().all(|operand| operand.extent != extent || operand.role == "room")
}

/// A call on lengths that do not agree.
fn is_refused<T>(found: Result<T, Fault>) -> bool {
    found.map_err(|fault| (fault.number(), fault.place())).err() == Some((7, None))
}

fn check_room(call: &Call, example: &Example) {
    let fills = call.fills.unwrap();
    let mut room = Room::before(example, 0);
    assert_eq!(fills(&Given::of(example), &mut room).unwrap(), counts(example), "{}", call.name);
    assert_eq!(room, Room::wanted(example), "{}", call.name);
}

/// Rooms of another length are refused, and stay.
fn check_other_rooms(call: &Call, example: &Example) {
    let others: &[isize] = if counts(example).is_some() { &[-1] } else { &[-1, 1] };
    for &longer in others {
        let mut room = Room::before(example, longer);
        assert!(is_refused(call.fills.unwrap()(&Given::of(example), &mut room)), "{}", call.name);
        assert_eq!(room, Room::before(example, longer), "{}", call.name);
    }
}

/// Arrays that are shorter than others, or than lengths or the room say, are refused, and the room stays.
fn check_other_lengths(call: &Call, example: &Example) {
    let arrays = example.operands.iter().enumerate().filter(|(_, operand)| operand.role == "reads" && operand.kind != "text");
    for (k, operand) in arrays {
        let several = partners(example, operand) > 1;
        let mut shorter = example.clone();
        shorter.operands[k].numbers.pop();
        let given = Given::of(&shorter);
        if several || result(example).extent == operand.extent {
            let mut room = Room::before(example, 0);
            assert!(is_refused(call.fills.unwrap()(&given, &mut room)), "{}, {}", call.name, operand.name);
            assert_eq!(room, Room::before(example, 0), "{}, {}", call.name, operand.name);
        }
        if let (true, Some(gives)) = (several, call.gives) {
            assert!(is_refused(gives(&given)), "{}, {}", call.name, operand.name);
        }
    }
}

fn check_within(call: &Call, example: &Example) {
    if let Some((place, within)) = call.within {
        let mut room = Room::default();
        room.put(example.operand(place).kind, example.operand(place).numbers.iter().copied());
        within(&Given::of(example), &mut room).unwrap();
        assert_eq!(room, Room::wanted(example), "{}", call.name);
    }
}

fn check(call: &Call, example: &Example) {
    if let Some(gives) = call.gives {
        assert_eq!(gives(&Given::of(example)).unwrap(), result(example).numbers, "{}", call.name);
    }
    if call.fills.is_some() {
        check_room(call, example);
    }
    if call.fills.is_some() && !is_range(example) {
        if !is_sized_by_room(example) {
            check_other_rooms(call, example);
        }
        check_other_lengths(call, example);
    }
    check_within(call, example);
}

#[test]
fn each_function_on_its_example() {
    let examples = Example::all();
    for call in CALLS {
        let found = examples.iter().find(|example| example.name == call.name);
        check(call, found.unwrap_or_else(|| panic!("{} has no example", call.name)));
    }
    // this one gives two vectors, and has tests of its own
    let others = examples.iter().filter(|example| CALLS.iter().all(|call| call.name != example.name));
    assert!(others.map(|example| example.name).eq(["seg_read_ints"]));
}
