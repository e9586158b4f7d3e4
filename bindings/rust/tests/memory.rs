//! What is told where there is no memory, and that no more is asked for where a call has a fault that is told before.

use std::alloc::{GlobalAlloc, Layout, System};
use std::sync::atomic::{AtomicBool, Ordering};

use cvl::{Fault, Segments};

/// Refuses a long room while it is told to.
struct Refusing(AtomicBool);

impl Refusing {
    fn refuses(&self, layout: Layout) -> bool {
        layout.size() > 2_000 && self.0.load(Ordering::Relaxed)
    }
}

unsafe impl GlobalAlloc for Refusing {
    unsafe fn alloc(&self, layout: Layout) -> *mut u8 {
        if self.refuses(layout) {
            return std::ptr::null_mut();
        }
        System.alloc(layout)
    }

    // zeros that the system has at hand are not written
    unsafe fn alloc_zeroed(&self, layout: Layout) -> *mut u8 {
        if self.refuses(layout) {
            return std::ptr::null_mut();
        }
        System.alloc_zeroed(layout)
    }

    unsafe fn dealloc(&self, block: *mut u8, layout: Layout) {
        System.dealloc(block, layout)
    }
}

#[global_allocator]
static MEMORY: Refusing = Refusing(AtomicBool::new(false));

fn number<T>(found: Result<T, Fault>) -> u32 {
    found.map_or_else(|fault| fault.number(), |_| 0)
}

#[test]
fn no_memory_is_told_after_what_needs_none() {
    let (ones, zeros, kept) = (vec![1; 1_000], vec![0; 1_000], vec![true; 3_000]);
    let more = vec![false; cvl::MOST_ELEMENTS + 1];
    let (text, wrong) = ("1 ".repeat(1_000), "1 ".repeat(1_000) + "x");
    let words = "x ".repeat(cvl::MOST_OF_TEXT + 1);
    let lengths = vec![1; 1_000];
    let rows = Segments::new(&lengths).unwrap();
    let nested = format!("[[{text}]]");
    MEMORY.0.store(true, Ordering::Relaxed);
    let told = [
        (number(cvl::add_wuz(&ones, &ones)), 100),
        (number(cvl::div_wuz(&ones, &zeros)), 100),
        (number(cvl::dis_vub(true, 3_000)), 100),
        (number(cvl::pck_lub(&kept, &kept)), 100),
        (number(Segments::new(&lengths)), 100),
        (number(Segments::from_offsets(&[0; 1_000])), 100),
        (number(rows.offsets()), 100),
        (number(rows.numbers()), 100),
        (number(cvl::add_wuz(&ones, &zeros[1..])), 7),
        (number(cvl::add_sez(&ones[1..], &rows)), 7),
        (number(cvl::and_wub(&more, &kept)), 13),
        (number(cvl::cpy_wub(&more)), 13),
        (number(cvl::pck_lub(&more, &more)), 13),
        (number(cvl::dis_vuz(1, 1 << 40)), 13),
        (number(cvl::dis_vuz(1, -1_000)), 12),
        (number(Segments::from_offsets(&ones)), 7),
        (number(cvl::read_ints(&text)), 100),
        (number(cvl::read_ints(&wrong)), 15),
        (number(cvl::read_ints(&words)), 15),
        (number(cvl::seg_read_ints(&text)), 15),
        (number(cvl::seg_read_ints(&nested)), 100),
        (number(cvl::write_ints(&ones)), 100),
        (number(cvl::write_bools(&more)), 13),
        (number(cvl::seg_write_bools(&kept, &rows)), 7),
        (number(cvl::add_ruz(&ones)), 0),
    ];
    MEMORY.0.store(false, Ordering::Relaxed);
    for (found, wanted) in told {
        assert_eq!(found, wanted);
    }
}
