//! Long calls of each way to cut, and their faults, beside plain loops: the same by any threads.

use cvl::{Fault, Segments};

/// From 262,144 elements on a call is cut, and a part has at least 131,072.
pub const LONG: usize = 600_000;

const ROW: usize = 6;

pub fn ints(n: usize) -> Vec<i32> {
    (0..n as i32).map(|k| k.wrapping_mul(48_271) >> 4).collect()
}

pub fn told(fault: Fault) -> (u32, Option<u64>) {
    (fault.number(), fault.place())
}

pub fn sum(a: &[i32]) -> i32 {
    a.iter().fold(0, |sum, a| sum.wrapping_add(*a))
}

/// Long vectors, and what plain loops make of them.
pub struct Long {
    a: Vec<i32>,
    flags: Vec<bool>,
    rows: Segments,
    reversed: Vec<i32>,
    kept: Vec<i32>,
    doubled: Vec<i32>,
    scan: Vec<i32>,
    sums: Vec<i32>,
    back: Vec<i32>,
}

impl Long {
    pub fn new() -> Long {
        let a = ints(LONG);
        let scan = a.iter().scan(0_i32, |sum, a| {
            let before = *sum;
            *sum = sum.wrapping_add(*a);
            Some(before)
        });
        Long {
            flags: a.iter().map(|a| a % 3 == 0).collect(),
            rows: Segments::new(&[ROW as i32; LONG / ROW]).unwrap(),
            reversed: (0..LONG as i32).rev().collect(),
            kept: a.iter().copied().filter(|a| a % 3 == 0).collect(),
            doubled: a.iter().map(|a| a.wrapping_mul(2)).collect(),
            scan: scan.collect(),
            sums: a.chunks(ROW).map(sum).collect(),
            back: a.iter().rev().copied().collect(),
            a,
        }
    }

    /// Calls of each way to cut.
    pub fn calls_are_right(&self) -> Result<(), Fault> {
        let (a, flags) = (&self.a, &self.flags);
        assert_eq!(cvl::add_ruz(a)?, sum(a));
        assert_eq!(cvl::cnt_lub(flags)?, self.kept.len() as i32);
        assert!(cvl::add_suz(a)? == self.scan);
        assert!(cvl::add_wuz(a, a)? == self.doubled);
        let mut within = a.clone();
        cvl::add_wuz_in(&mut within, a)?;
        assert!(within == self.doubled);
        assert!(cvl::pck_luz(a, flags)? == self.kept);
        assert!(cvl::add_rez(a, &self.rows)? == self.sums);
        assert!(cvl::smp_puz(a, &self.reversed)? == self.back);
        assert!(cvl::bck_puz(a, &self.reversed)? == self.back);
        let text = cvl::write_ints(a)?;
        assert!(cvl::read_ints(&text[1..text.len() - 1])? == *a);
        Ok(())
    }

    /// Faults with their places, in the first and in the last part, and the room as before.
    pub fn faults_are_told(&self) {
        let (a, mut b, mut room) = (&self.a, vec![1; LONG], vec![7; LONG]);
        b[LONG - 2] = 0;
        let divided = cvl::div_wuz_into(a, &b, &mut room).unwrap_err();
        assert_eq!(told(divided), (8, Some(LONG as u64 - 2)));
        let mut index = self.reversed.clone();
        index[1] = index[0];
        let repeated = cvl::smp_puz_into(a, &index, &mut room).unwrap_err();
        assert_eq!(told(repeated), (11, Some(1)));
        let shorter = cvl::add_wuz_into(a, &b[1..], &mut room).unwrap_err();
        assert_eq!(told(shorter), (7, None));
        assert!(room == vec![7; LONG]);
        let text = "1 ".repeat(LONG) + "x";
        let word = cvl::read_ints(text).unwrap_err();
        assert_eq!(told(word), (15, Some(LONG as u64)));
    }
}
