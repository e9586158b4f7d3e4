//! What stands in no example of a call: faults and rooms, empty vectors, texts, parts, and what threads share.

mod limit;

use cvl::{Fault, Operator, Segments};

const MOST: i64 = cvl::MOST_ELEMENTS as i64;

fn told(fault: Fault) -> (u32, Option<u64>) {
    (fault.number(), fault.place())
}

#[test]
fn lengths_that_must_agree() {
    let rows = Segments::new(&[1, 1]).unwrap();
    let faults = [
        cvl::add_wuz(&[1, 2], &[1]).unwrap_err(),
        cvl::add_sez(&[1, 2, 3], &rows).unwrap_err(),
        cvl::ext_vez(&[1, 2], &[0], &rows).unwrap_err(),
        cvl::pck_luz(&[1], &[true, true]).unwrap_err(),
        cvl::sel_puz(&[1], &[0, 0], &[true]).unwrap_err(),
    ];
    for fault in faults {
        assert_eq!(told(fault), (7, None));
        assert_eq!(fault.name(), "LengthMismatch");
    }
}

#[test]
fn a_room_of_another_length_is_a_fault_and_stays() {
    for places in [0, 1, 3] {
        let mut room = vec![7; places];
        let fault = cvl::add_wuz_into(&[1, 2], &[3, 4], &mut room).unwrap_err();
        assert_eq!(told(fault), (7, None));
        assert_eq!(room, vec![7; places]);
    }
}

#[test]
fn a_room_that_is_too_short_is_told_how_long_it_has_to_be() {
    let (values, flags) = ([5, 1, 7], [true, false, true]);
    let (mut room, mut text) = ([9; 1], [b'?'; 1]);
    let needed = |found: Result<usize, Fault>| found.unwrap_err().needed();
    assert_eq!(needed(cvl::pck_luz_into(&values, &flags, &mut room)), Some(2));
    assert_eq!(needed(cvl::pck_lub_into(&flags, &flags, &mut [])), Some(2));
    assert_eq!(needed(cvl::read_ints_into("1 2 3", &mut room)), Some(3));
    assert_eq!(needed(cvl::write_ints_into(&[10], &mut text)), Some(4));
    assert_eq!((room, text), ([9], [b'?']));
    // where two lengths are wrong it is told that the vectors differ, and nothing was counted
    assert_eq!(needed(cvl::pck_luz_into(&values[1..], &flags, &mut room)), None);
    assert_eq!(needed(cvl::read_ints_into("x", &mut room)), None);
    let unequal = cvl::add_wuz_into(&[1], &[1], &mut []).unwrap_err();
    assert_eq!(unequal.needed(), None);
}

#[test]
fn a_fault_has_its_place_and_leaves_the_room() {
    let mut room = [7; 3];
    let fault = cvl::div_wuz_into(&[1, 2, 3], &[1, 0, 0], &mut room).unwrap_err();
    assert_eq!(told(fault), (8, Some(1)));
    assert_eq!(fault.to_string(), "fault 8 DivideByZero at 1");
    assert_eq!(room, [7; 3]);
    assert_eq!(told(cvl::smp_puz(&[1, 2], &[1, 1]).unwrap_err()), (11, Some(1)));
    assert_eq!(told(cvl::tot_ruz(&[i32::MAX, 1]).unwrap_err()), (18, Some(0)));
}

#[test]
fn place_0_of_a_fault_is_told_and_shown() {
    let fault = cvl::div_wuz(&[1, 2], &[0, 0]).unwrap_err();
    assert_eq!(told(fault), (8, Some(0)));
    assert_eq!(fault.to_string(), "fault 8 DivideByZero at 0");
    let fault = cvl::add_wuz(&[1], &[]).unwrap_err();
    assert_eq!(fault.to_string(), "fault 7 LengthMismatch");
}

#[test]
fn counts_and_places_that_may_not_be() {
    let wide = 1_i64 << 32;
    let counts = [(-1, 12), (MOST + 1, 13), (wide + 3, 13), (3 - wide, 12), (i64::MAX, 13), (i64::MIN, 12)];
    for (count, number) in counts {
        for fault in [
            cvl::dis_vuz(1, count).unwrap_err(),
            cvl::dis_vub(true, count).unwrap_err(),
            cvl::ind_luz(1, 1, count).unwrap_err(),
            cvl::dis_vuz_into(1, count, &mut [7; 3]).unwrap_err(),
        ] {
            assert_eq!(told(fault), (number, None));
        }
    }
    for index in [-1, 2, wide, wide + 1, -wide, i64::MAX, i64::MIN] {
        for fault in [
            cvl::ext_vuz(&[1, 2], index).unwrap_err(),
            cvl::ext_vub(&[true, true], index).unwrap_err(),
            cvl::rep_vuz(&[1, 2], index, 3).unwrap_err(),
            cvl::rep_vub(&[true, true], index, true).unwrap_err(),
        ] {
            assert_eq!(told(fault), (10, Some(0)));
        }
    }
}

#[test]
fn a_pack_takes_a_longer_room_and_tells_how_many() {
    let rows = Segments::new(&[1, 2]).unwrap();
    let (values, kept) = ([1, 2, 3], [true, false, true]);
    for places in 0..5 {
        let mut room = vec![7; places];
        let mut of_rows = room.clone();
        let found = cvl::pck_luz_into(&values, &kept, &mut room);
        assert_eq!(cvl::pck_lez_into(&values, &kept, &rows, &mut of_rows), found);
        assert_eq!(of_rows, room);
        if places < 2 {
            assert_eq!(told(found.unwrap_err()), (7, None));
            assert_eq!(room, vec![7; places]);
        } else {
            assert_eq!(found, Ok(2));
            assert_eq!(room[..2], [1, 3]);
            assert_eq!(room[2..], vec![7; places - 2]);
        }
    }
}

#[test]
fn a_result_may_be_as_long_as_a_vector_and_no_longer() {
    let most = cvl::dis_vub(true, MOST).unwrap();
    assert_eq!(most.len(), cvl::MOST_ELEMENTS);
    assert_eq!(cvl::cnt_lub(&most), Ok(MOST as i32));
    drop(most);
    let one = Segments::new(&[MOST as i32]).unwrap();
    assert_eq!(one.total(), cvl::MOST_ELEMENTS);
    let more = vec![false; cvl::MOST_ELEMENTS + 1];
    for fault in [
        cvl::dis_vub(true, MOST + 1).unwrap_err(),
        cvl::cpy_wub(&more).unwrap_err(),
        cvl::and_wub(&more, &[true]).unwrap_err(),
        cvl::and_wub_into(&more, &[true], &mut [true]).unwrap_err(),
        cvl::pck_lub(&more, &more).unwrap_err(),
        cvl::pck_luz(&[1], &more).unwrap_err(),
        cvl::cnt_lub(&more).unwrap_err(),
        Segments::new(&[MOST as i32, 1]).unwrap_err(),
    ] {
        assert_eq!(told(fault), (13, None));
    }
}

#[test]
fn a_nested_text_may_have_so_many_elements_and_others_more() {
    let (numbers, flags) = (vec![1; cvl::MOST_OF_TEXT + 1], vec![true; cvl::MOST_OF_TEXT + 1]);
    let most = &numbers[1..];
    let text = cvl::write_ints(most).unwrap();
    assert_eq!(text.len(), 2 * most.len() + 1);
    let (read, rows) = cvl::seg_read_ints(format!("[{text}]")).unwrap();
    assert!(read == most && rows.lengths() == [most.len() as i32]);
    assert_eq!(cvl::seg_write_ints(most, &rows).unwrap().len(), text.len() + 2);
    let longer = cvl::write_ints(&numbers).unwrap();
    assert_eq!(longer.len(), text.len() + 2);
    let words = &longer[1..longer.len() - 1];
    assert!(cvl::read_ints(words).unwrap() == numbers);
    let wrong = cvl::read_ints(format!("{words} x")).unwrap_err();
    assert_eq!(told(wrong), (15, Some(cvl::MOST_OF_TEXT as u64 + 1)));
    let nested = cvl::seg_read_ints(format!("[[{words}]]")).unwrap_err();
    assert_eq!(told(nested), (13, None));
    let lists = "[]".repeat(cvl::MOST_OF_TEXT);
    let (none, rows) = cvl::seg_read_ints(format!("[{lists}]")).unwrap();
    assert!(none.is_empty() && rows.len() == cvl::MOST_OF_TEXT);
    let nested = cvl::seg_read_ints(format!("[{lists}[]]")).unwrap_err();
    assert_eq!(told(nested), (13, None));
    assert_eq!(cvl::write_bools(&flags).unwrap().len(), 2 * flags.len() + 1);
    let rows = Segments::new(&[most.len() as i32, 1]).unwrap();
    assert_eq!(cvl::seg_write_bools(&flags, &rows).unwrap().len(), 2 * flags.len() + 5);
}

#[test]
fn a_wrong_room_is_told_before_faults_of_elements() {
    let rows = Segments::new(&[1, 1]).unwrap();
    for fault in [
        cvl::div_wuz_into(&[1, 2], &[0, 0], &mut [7]).unwrap_err(),
        cvl::smp_puz_into(&[1, 2], &[9, 9], &mut [7]).unwrap_err(),
        cvl::sel_puz_into(&[1, 2], &[9, 9], &[true, true], &mut [7]).unwrap_err(),
        cvl::rep_vuz_into(&[1, 2], 9, 1, &mut [7]).unwrap_err(),
        cvl::ext_vez_into(&[1, 2], &[9, 9], &rows, &mut [7]).unwrap_err(),
    ] {
        assert_eq!(told(fault), (7, None));
    }
}

#[test]
fn empty_vectors() {
    let none = Segments::new(&[]).unwrap();
    assert_eq!(cvl::add_wuz(&[], &[]).unwrap(), []);
    assert_eq!(cvl::add_ruz(&[]).unwrap(), 0);
    assert_eq!(cvl::add_rez(&[], &none).unwrap(), []);
    assert_eq!(cvl::pck_lub(&[], &[]).unwrap(), []);
    assert!(none.is_empty());
}

#[test]
fn segments_of_lengths_and_of_offsets() {
    let rows = Segments::new(&[2, 0, 3]).unwrap();
    assert_eq!(Segments::from_offsets(&[0, 2, 2, 5]).unwrap(), rows);
    for offsets in [&[1, 2][..], &[1, 5, 3], &[i32::MIN, i32::MAX], &[]] {
        assert_eq!(told(Segments::from_offsets(offsets).unwrap_err()), (7, None));
    }
    for (offsets, segment) in [(&[0, 3, 2, 1][..], 1), (&[0, i32::MAX, i32::MIN], 1)] {
        assert_eq!(told(Segments::from_offsets(offsets).unwrap_err()), (12, Some(segment)));
    }
    assert_eq!(Segments::from_offsets(&[0, i32::MAX]).unwrap().total(), cvl::MOST_ELEMENTS);
    assert_eq!(cvl::len_fos(&rows), [2, 0, 3]);
    // where the last offset is not the number of elements, the call on these tells it
    assert_eq!(told(cvl::add_rez(&[1; 4], &rows).unwrap_err()), (7, None));
}

#[test]
fn offsets_of_segments_and_the_segment_of_each_place() {
    for lengths in [&[][..], &[0], &[3], &[0, 0, 2], &[2, 0, 3, 0]] {
        let rows = Segments::new(lengths).unwrap();
        let (offsets, numbers) = (rows.offsets().unwrap(), rows.numbers().unwrap());
        let (mut starts, mut each) = (vec![0], vec![]);
        for (number, &length) in lengths.iter().enumerate() {
            each.extend((0..length).map(|_| number as i32));
            starts.push(each.len() as i32);
        }
        assert_eq!((&offsets, numbers), (&starts, each));
        assert_eq!(Segments::from_offsets(&offsets).unwrap(), rows);
    }
}

#[test]
fn threads_share_segments() {
    limit::limit();
    fn is_shared<T: Send + Sync + 'static>() {}
    is_shared::<Segments>();
    is_shared::<Fault>();
    is_shared::<cvl::Operator>();
    let rows = Segments::new(&[3; 1000]).unwrap();
    let numbers: Vec<i32> = (0..3000).collect();
    let wanted: Vec<i32> = (0..1000).map(|k| 9 * k + 3).collect();
    std::thread::scope(|scope| {
        for _ in 0..4 {
            scope.spawn(|| {
                for _ in 0..50 {
                    assert_eq!(cvl::add_rez(&numbers, &rows).unwrap(), wanted);
                }
            });
        }
    });
}

#[test]
fn each_fault_has_its_number_and_its_name() {
    use cvl::faults;
    let rows = Segments::new(&[1, 1]).unwrap();
    let found = [
        (cvl::add_wuz(&[1], &[]).unwrap_err(), faults::LENGTH_MISMATCH, 7),
        (cvl::div_wuz(&[1], &[0]).unwrap_err(), faults::DIVIDE_BY_ZERO, 8),
        (cvl::lsh_wuz(&[1], &[32]).unwrap_err(), faults::SHIFT_OUT_OF_RANGE, 9),
        (cvl::bck_puz(&[1], &[1]).unwrap_err(), faults::INDEX_OUT_OF_RANGE, 10),
        (cvl::smp_pez(&[1, 2], &[0, 1], &rows).unwrap_err(), faults::INDEX_OUT_OF_RANGE, 10),
        (cvl::smp_puz(&[1, 2], &[0, 0]).unwrap_err(), faults::INDEX_REPEATED, 11),
        (Segments::new(&[-1]).unwrap_err(), faults::NEGATIVE_LENGTH, 12),
        (cvl::dis_vuz(0, MOST + 1).unwrap_err(), faults::TOO_LONG, 13),
        (cvl::read_ints("x").unwrap_err(), faults::BAD_INPUT, 15),
        (cvl::tot_ruz(&[i32::MAX, 1]).unwrap_err(), faults::OVERFLOW, 18),
        (cvl::bool_scan_after(Operator::Add, true, &[true]).unwrap_err(), faults::UNKNOWN_CALL, 2),
    ];
    for (fault, named, number) in found {
        assert_eq!((fault.number(), named), (number, number));
        assert_eq!(fault.to_string().split(' ').nth(2), Some(fault.name()));
    }
}

#[test]
fn texts() {
    let numbers = [i32::MIN, 0, 7, i32::MAX];
    let text = cvl::write_ints(&numbers).unwrap();
    assert_eq!(text, "[-2147483648 0 7 2147483647]");
    assert_eq!(cvl::read_ints(&text[1..text.len() - 1]).unwrap(), numbers);
    assert_eq!(cvl::read_ints("").unwrap(), []);
    assert_eq!(cvl::read_ints(" \t\r\n").unwrap(), []);
    assert_eq!(cvl::read_ints(b"12".as_slice()).unwrap(), [12]);
    assert_eq!(cvl::read_ints(String::from("1 2\n")).unwrap(), [1, 2]);
    assert_eq!(told(cvl::read_ints("1 2 -").unwrap_err()), (15, Some(2)));
    assert_eq!(told(cvl::read_ints_after(5, "1 2147483648").unwrap_err()), (15, Some(6)));
    assert_eq!(told(cvl::read_ints([0xff, b' ', 0]).unwrap_err()), (15, Some(0)));
    assert_eq!(cvl::write_ints(&[]).unwrap(), "[]");
    assert_eq!(cvl::write_bools(&[true, false]).unwrap(), "[T F]");
    let least = [i32::MIN; 1000];
    assert_eq!(cvl::write_ints(&least).unwrap().len(), 12 * 1000 + 1);
    let rows = Segments::new(&[1; 1000]).unwrap();
    assert_eq!(cvl::seg_write_ints(&least, &rows).unwrap().len(), 14 * 1000 + 1);
    assert_eq!(cvl::seg_write_bools(&[true; 1000], &rows).unwrap().len(), 4 * 1000 + 1);
    let empty = Segments::new(&[0; 1000]).unwrap();
    assert_eq!(cvl::seg_write_ints(&[], &empty).unwrap().len(), 3001);
    assert_eq!(cvl::seg_write_bools(&[], &empty).unwrap().len(), 3001);
    let short = Segments::new(&[1; 999]).unwrap();
    assert_eq!(told(cvl::seg_write_ints(&least, &short).unwrap_err()), (7, None));
}

#[test]
fn a_text_has_a_room_that_is_long_enough() {
    for places in 0..12 {
        let mut room = vec![b'?'; places];
        let found = cvl::write_ints_into(&[0, -3, 4], &mut room);
        if places < 8 {
            assert_eq!(told(found.unwrap_err()), (7, None));
            assert_eq!(room, vec![b'?'; places]);
        } else {
            assert_eq!(found, Ok(8));
            assert_eq!(&room[..8], b"[0 -3 4]");
            assert_eq!(room[8..], vec![b'?'; places - 8]);
        }
        let mut numbers = vec![7; places];
        let found = cvl::read_ints_into("1 2 3", &mut numbers);
        assert_eq!(found.is_ok(), places >= 3);
        assert_eq!(numbers[..places.min(3)], [[7; 3], [1, 2, 3]][usize::from(places >= 3)][..places.min(3)]);
    }
}

#[test]
fn nested_texts() {
    let (numbers, rows) = cvl::seg_read_ints("[[1 2] [] [-3]]").unwrap();
    assert_eq!((numbers, rows.lengths()), (vec![1, 2, -3], &[2, 0, 1][..]));
    let (numbers, rows) = cvl::seg_read_ints("[]").unwrap();
    assert!(numbers.is_empty() && rows.is_empty());
    let many = format!("[{}]", "[]".repeat(1000));
    let (numbers, rows) = cvl::seg_read_ints(&many).unwrap();
    assert_eq!((numbers.len(), rows.lengths()), (0, &[0; 1000][..]));
    assert_eq!(told(cvl::seg_read_ints("[[1] 2]").unwrap_err()), (15, Some(4)));
    assert_eq!(told(cvl::seg_read_ints("[[1]").unwrap_err()), (15, Some(4)));
    let (mut out, mut lengths) = ([7; 4], [7; 4]);
    assert_eq!(cvl::seg_read_ints_into("[[1 2] [3]]", &mut out, &mut lengths), Ok((3, 2)));
    assert_eq!((out, lengths), ([1, 2, 3, 7], [2, 1, 7, 7]));
    let (mut out, mut lengths) = ([7; 3], [7; 1]);
    let short = cvl::seg_read_ints_into("[[1 2] [3]]", &mut out, &mut lengths).unwrap_err();
    assert_eq!((told(short), out, lengths), ((7, None), [7; 3], [7; 1]));
}

/// A scan, a checked scan and a permute of a vector, each made of its parts.
#[test]
fn parts_give_what_the_whole_gives() {
    let a: Vec<i32> = (0..1000).map(|k| k * k % 97 - 40).collect();
    let flags: Vec<bool> = a.iter().map(|a| a % 2 == 0).collect();
    let (left, right) = a.split_at(377);
    for (operator, before, whole) in [
        (Operator::Add, cvl::add_ruz(left), cvl::add_suz(&a)),
        (Operator::Mul, cvl::mul_ruz(left), cvl::mul_suz(&a)),
        (Operator::Min, cvl::min_ruz(left), cvl::min_suz(&a)),
        (Operator::Max, cvl::max_ruz(left), cvl::max_suz(&a)),
        (Operator::And, cvl::and_ruz(left), cvl::and_suz(&a)),
        (Operator::Ior, cvl::ior_ruz(left), cvl::ior_suz(&a)),
        (Operator::Xor, cvl::xor_ruz(left), cvl::xor_suz(&a)),
    ] {
        assert_eq!(cvl::int_scan_after(operator, before.unwrap(), right).unwrap(), whole.unwrap()[377..]);
    }
    let before = cvl::xor_rub(&flags[..377]).unwrap();
    let mut within = flags[377..].to_vec();
    cvl::bool_scan_after_in(Operator::Xor, before, &mut within).unwrap();
    assert_eq!(within, cvl::xor_sub(&flags).unwrap()[377..]);
    let sum = cvl::exact_sum(left).unwrap();
    assert_eq!(sum, left.iter().map(|&a| i64::from(a)).sum::<i64>());
    assert_eq!(cvl::checked_scan_after(sum, right).unwrap(), cvl::tot_suz(&a).unwrap()[377..]);
    assert_eq!(cvl::exact_sum(&[i32::MAX; 3]), Ok(3 * i64::from(i32::MAX)));
    assert_eq!(told(cvl::checked_scan_after(i64::from(i32::MAX), &[1, 0]).unwrap_err()), (18, Some(1)));
}

#[test]
fn a_permute_is_its_ranges() {
    let (source, index) = ([5, 6, 7, 8], [2, 0, 3, 1]);
    let (mut out, mut written) = ([0; 4], 0);
    for (lowest, range) in out.chunks_mut(3).enumerate() {
        written += cvl::permute_int_range(&source, &index, 3 * lowest, range, &mut [9]).unwrap();
    }
    assert_eq!((out, written), ([6, 8, 5, 7], 4));
    let (mut out, mut marks) = ([7; 4], [9; 2]);
    let wrong = cvl::permute_int_range(&source, &index, 0, &mut out, &mut marks).unwrap_err();
    assert_eq!((told(wrong), out, marks), ((7, None), [7; 4], [9; 2]));
    let far = cvl::permute_int_range(&source, &index, usize::MAX, &mut out, &mut [0]).unwrap_err();
    assert_eq!((told(far), out), ((13, None), [7; 4]));
}

#[test]
fn first_senders_are_their_ranges() {
    let index: Vec<i32> = (0..90).map(|k| k * k % 61).collect();
    let first = |place| index.iter().position(|i| *i == place);
    let wanted: Vec<i32> = (0..64).map(|place| first(place).map_or(-1, |k| k as i32)).collect();
    assert_eq!(cvl::first_senders(&index, 64).unwrap(), wanted);
    let (mut out, mut named) = ([7; 64], 0);
    for (k, range) in out.chunks_mut(30).enumerate() {
        named += cvl::first_senders_range(&index, 30 * k, range).unwrap();
    }
    assert_eq!((out.to_vec(), named), (wanted, 90));
    assert_eq!(told(cvl::first_senders(&index, -1).unwrap_err()), (12, None));
    assert_eq!(told(cvl::first_senders(&index, i64::MAX).unwrap_err()), (13, None));
    assert_eq!(told(cvl::first_senders(&[0, 3, 4], 3).unwrap_err()), (10, Some(1)));
    assert_eq!(told(cvl::first_senders_into(&[0, 3, 4], &mut out[..3]).unwrap_err()), (10, Some(1)));
    assert_eq!(out[..3], [0, 1, -1]);
}

#[test]
fn elements_are_combined_with_what_stands_there() {
    let index: Vec<i32> = (0..90).map(|k| k * k % 61).collect();
    let source: Vec<i32> = (0..90).map(|k| k * 7 % 19 - 9).collect();
    let before: Vec<i32> = (0..64).collect();
    let (mut out, mut wanted) = (before.clone(), before);
    for (value, place) in source.iter().zip(&index) {
        wanted[*place as usize] += value;
    }
    cvl::combine_permute_int(cvl::Operator::Add, &source, &index, &mut out).unwrap();
    assert_eq!(out, wanted);
    let wrong = cvl::combine_permute_int(cvl::Operator::Add, &[5, 5], &[0, 64], &mut out).unwrap_err();
    assert_eq!((told(wrong), &out), ((10, Some(1)), &wanted));
    let unequal = cvl::combine_permute_int(cvl::Operator::Add, &[5], &[0, 1], &mut out).unwrap_err();
    assert_eq!((told(unequal), &out), ((7, None), &wanted));
    let unknown = cvl::combine_permute_bool(cvl::Operator::Add, &[true], &[0], &mut [true]).unwrap_err();
    assert_eq!(told(unknown), (2, None));
    let mut sums = [1, 2, 3];
    cvl::combine_exact_sums(&[i32::MAX, i32::MAX], &[1, 1], &mut sums).unwrap();
    assert_eq!(sums, [1, 2 * i64::from(i32::MAX) + 2, 3]);
    let mut few = [i32::MAX, 0];
    cvl::combine_checked_int(&[1, -1], &[0, 0], &mut few).unwrap();
    let overflow = cvl::combine_checked_int(&[i32::MAX, 1, 1], &[1, 1, 0], &mut few).unwrap_err();
    assert_eq!((told(overflow), few), ((18, Some(0)), [i32::MAX, 0]));
    assert_eq!(told(cvl::counts(&[0, 3, 4], 3).unwrap_err()), (10, Some(1)));
    assert_eq!(told(cvl::counts(&index, -1).unwrap_err()), (12, None));
    assert_eq!(cvl::counts(&[0, 2, 0], 4).unwrap(), [2, 0, 1, 0]);
}

#[test]
fn keys_are_sorted_as_a_stable_sort_does() {
    let keys: Vec<i32> = (0..2000).map(|k| (k * 7919 % 1201 - 600) * 65537).collect();
    let mut order: Vec<i32> = (0..2000).collect();
    order.sort_by_key(|&place| keys[place as usize]);
    let mut rank = vec![0; 2000];
    for (place, &key) in order.iter().enumerate() {
        rank[key as usize] = place as i32;
    }
    let mut sorted = keys.clone();
    sorted.sort();
    assert_eq!(cvl::order(&keys).unwrap(), order);
    assert_eq!(cvl::rank(&keys).unwrap(), rank);
    assert_eq!(cvl::sort(&keys).unwrap(), sorted);
    let mut own = keys.clone();
    cvl::sort_in(&mut own).unwrap();
    assert_eq!(own, sorted);
    let halves = cvl::Segments::new(&[1000, 0, 1000]).unwrap();
    let both = [cvl::order(&keys[..1000]).unwrap(), cvl::order(&keys[1000..]).unwrap()].concat();
    assert_eq!(cvl::seg_order(&keys, &halves).unwrap(), both);
    assert_eq!(told(cvl::seg_sort(&keys[1..], &halves).unwrap_err()), (7, None));
    assert_eq!(told(cvl::order_into(&keys, &mut own[1..]).unwrap_err()), (7, None));
    assert_eq!(own, sorted);
}

#[test]
fn the_version() {
    assert_eq!(cvl::version(), env!("CARGO_PKG_VERSION"));
}

#[test]
fn slices_are_gathered_in_any_order() {
    let source: Vec<i32> = (0..90).collect();
    let (starts, lengths) = ([40, 90, 7, 41], [50, 0, 3, 2]);
    let segments = Segments::new(&lengths).unwrap();
    let slices = starts.iter().zip(lengths).flat_map(|(start, length)| &source[*start as usize..][..length as usize]);
    let wanted: Vec<i32> = slices.copied().collect();
    assert_eq!(cvl::gather_segments_int(&source, &starts, &segments).unwrap(), wanted);
    let flags: Vec<bool> = source.iter().map(|k| k % 3 == 1).collect();
    let wanted: Vec<bool> = wanted.iter().map(|k| k % 3 == 1).collect();
    assert_eq!(cvl::gather_segments_bool(&flags, &starts, &segments).unwrap(), wanted);
    let mut out = [7; 55];
    let beyond = cvl::gather_segments_int_into(&source, &[40, 90, 88, 41], &segments, &mut out).unwrap_err();
    assert_eq!((told(beyond), out), ((10, Some(2)), [7; 55]));
    let short = cvl::gather_segments_int_into(&source, &starts, &segments, &mut out[..54]).unwrap_err();
    assert_eq!((told(short), out), ((7, None), [7; 55]));
    assert_eq!(told(cvl::gather_segments_int(&source, &[40, 90], &segments).unwrap_err()), (7, None));
}

#[test]
fn the_first_true_flag_is_found() {
    let flags = [false, true, false, false, true];
    assert_eq!((cvl::first_true(&flags), cvl::first_true(&flags[2..4])), (Ok(1), Ok(-1)));
    let segments = Segments::new(&[2, 1, 0, 2]).unwrap();
    assert_eq!(cvl::seg_first_true(&flags, &segments).unwrap(), [1, -1, -1, 1]);
    assert_eq!(told(cvl::seg_first_true(&flags[1..], &segments).unwrap_err()), (7, None));
}

#[test]
fn sorted_keys_have_one_run_each() {
    let (keys, values) = ([3, 3, 5, 5, 5, 8], [1, 2, 3, 4, 5, 6]);
    let (starts, lengths) = (cvl::run_starts_int(&keys).unwrap(), cvl::run_lengths_int(&keys).unwrap());
    assert_eq!((starts.as_slice(), lengths.as_slice()), ([0, 2, 5].as_slice(), [2, 3, 1].as_slice()));
    assert_eq!(cvl::bck_puz(&keys, &starts).unwrap(), [3, 5, 8]);
    assert_eq!(cvl::add_rez(&values, &Segments::new(&lengths).unwrap()).unwrap(), [3, 12, 6]);
    let segments = Segments::new(&[1, 0, 5]).unwrap();
    assert_eq!(cvl::seg_run_lengths_int(&keys, &segments).unwrap(), [1, 1, 3, 1]);
    assert_eq!(cvl::seg_run_starts_int(&keys, &segments).unwrap(), [0, 1, 2, 5]);
    assert_eq!(cvl::seg_run_counts_int(&keys, &segments).unwrap().lengths(), [1, 0, 3]);
    assert_eq!(cvl::run_lengths_bool(&[true, true, false]).unwrap(), [2, 1]);
    assert_eq!(cvl::run_lengths_int(&[]).unwrap(), []);
    let mut out = [7; 4];
    let short = cvl::run_lengths_int_into(&keys, &mut out[..2]).unwrap_err();
    assert_eq!((told(short), out), ((7, None), [7; 4]));
    assert_eq!((cvl::run_lengths_int_into(&keys, &mut out), out), (Ok(3), [2, 3, 1, 7]));
}

#[test]
fn a_merge_is_the_inverse_of_two_packs() {
    let values: Vec<i32> = (0..90).collect();
    let flags: Vec<bool> = values.iter().map(|k| k * k % 7 < 3).collect();
    let others: Vec<bool> = flags.iter().map(|flag| !flag).collect();
    let (first, second) = (cvl::pck_luz(&values, &flags).unwrap(), cvl::pck_luz(&values, &others).unwrap());
    assert_eq!(cvl::merge_by_flags_int(&flags, &first, &second).unwrap(), values);
    assert_eq!(cvl::merge_by_flags_bool(&[false, true], &[true], &[false]).unwrap(), [false, true]);
    let mut out = [7; 90];
    let wrong = cvl::merge_by_flags_int_into(&flags, &first[1..], &second, &mut out).unwrap_err();
    assert_eq!((told(wrong), out), ((7, None), [7; 90]));
}

#[test]
fn segments_are_appended_to_segments() {
    let (lengths, others) = (Segments::new(&[2, 0, 1]).unwrap(), Segments::new(&[1, 2, 0]).unwrap());
    assert_eq!(cvl::append_segments_int(&[1, 2, 3], &[7, 8, 9], &lengths, &others).unwrap(), [1, 2, 7, 8, 9, 3]);
    let (one, none) = (Segments::new(&[1]).unwrap(), Segments::new(&[0]).unwrap());
    assert_eq!(cvl::append_segments_bool(&[true], &[], &one, &none).unwrap(), [true]);
    let fewer = cvl::append_segments_int(&[1, 2, 3], &[7], &lengths, &one).unwrap_err();
    assert_eq!(told(fewer), (7, None));
    let mut out = [5; 6];
    let short = cvl::append_segments_int_into(&[1, 2, 3], &[7, 8, 9], &lengths, &others, &mut out[..5]).unwrap_err();
    assert_eq!((told(short), out), ((7, None), [5; 6]));
}

#[test]
fn sums_of_segments_fit_64_bits() {
    let segments = Segments::new(&[2, 0, 1]).unwrap();
    assert_eq!(cvl::seg_exact_sums(&[i32::MAX, i32::MAX, 5], &segments).unwrap(), [2 * i64::from(i32::MAX), 0, 5]);
    assert_eq!(told(cvl::seg_exact_sums(&[5], &segments).unwrap_err()), (7, None));
}

#[test]
fn segments_are_merged_by_flags() {
    let flags = [true, false, false, true, true];
    let [lengths, kept, left] = [[2, 0, 3], [1, 0, 2], [1, 0, 1]].map(|lengths| Segments::new(&lengths).unwrap());
    assert_eq!(cvl::seg_merge_by_flags_int(&flags, &[1, 2, 3], &[7, 8], &lengths, &kept, &left).unwrap(), [1, 7, 8, 2, 3]);
    let [other, none] = [[2, 0, 1], [0, 0, 2]].map(|lengths| Segments::new(&lengths).unwrap());
    let mut out = [5; 5];
    let miscount = cvl::seg_merge_by_flags_int_into(&flags, &[1, 2, 3], &[7, 8], &lengths, &other, &none, &mut out).unwrap_err();
    assert_eq!((told(miscount), out), ((7, Some(0)), [5; 5]));
}

#[test]
fn a_matrix_is_transposed_and_bytes_are_integers() {
    let matrix: Vec<i32> = (0..70 * 45).collect();
    let turned: Vec<i32> = (0..70 * 45).map(|k| k % 70 * 45 + k / 70).collect();
    assert_eq!(cvl::transpose_int(&matrix, 70, 45).unwrap(), turned);
    assert_eq!(told(cvl::transpose_int(&matrix, 70, 44).unwrap_err()), (7, None));
    assert_eq!(cvl::ints_from_bytes(b"CV\xff").unwrap(), [67, 86, 255]);
    assert_eq!(cvl::bytes_from_ints(&[67, 86, 255]).unwrap(), b"CV\xff");
    assert_eq!(told(cvl::bytes_from_ints(&[67, 256, -1]).unwrap_err()), (18, Some(1)));
}
