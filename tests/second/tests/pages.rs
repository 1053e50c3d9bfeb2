//! Pages of lists, held against values worked out by hand from document 01.

use second::pages::{page, take_page, Taken};

const MOST_SVIDS: u16 = 72;

fn list(count: u16) -> Vec<u16> {
    (1..=count).collect()
}

/// The objects of a page, and whether it ends the list.
fn shown(count: u16, number: usize) -> (Vec<u32>, bool) {
    let page = page(&list(count), number);
    (page.objects, page.ends_list)
}

const FULL: [u32; 6] = [
    0x0001_0002,
    0x0003_0004,
    0x0005_0006,
    0x0007_0008,
    0x0009_000A,
    0x000B_000C,
];

#[test]
fn odd_lists_end_in_one_zero_half() {
    assert_eq!(shown(1, 0), (vec![0x0001_0000], true));
    assert_eq!(shown(3, 0), (vec![0x0001_0002, 0x0003_0000], true));
    let eleven = [&FULL[..5], &[0x000B_0000]].concat();
    assert_eq!(shown(11, 0), (eleven, true));
}

#[test]
fn even_lists_are_followed_by_one_zero_object() {
    assert_eq!(shown(2, 0), (vec![0x0001_0002, 0], true));
    assert_eq!(shown(4, 0), (vec![0x0001_0002, 0x0003_0004, 0], true));
    let ten = [&FULL[..5], &[0]].concat();
    assert_eq!(shown(10, 0), (ten, true));
}

#[test]
fn twelve_are_shown_without_a_zero_and_do_not_end_the_list() {
    for count in [12, 13, 24, 72] {
        assert_eq!(shown(count, 0), (FULL.to_vec(), false));
    }
    assert_eq!(shown(12, 1), (vec![0], true));
    assert_eq!(shown(13, 1), (vec![0x000D_0000], true));
    assert_eq!(shown(14, 1), (vec![0x000D_000E, 0], true));
}

#[test]
fn the_longest_list_has_six_full_pages_and_an_empty_one() {
    let sixth = vec![
        0x003D_003E,
        0x003F_0040,
        0x0041_0042,
        0x0043_0044,
        0x0045_0046,
        0x0047_0048,
    ];
    assert_eq!(shown(72, 5), (sixth, false));
    assert_eq!(shown(72, 6), (vec![0], true));
}

#[test]
fn the_first_svid_is_in_the_high_half() {
    let page = page(&[0xFF01, 0x8087, 0x00FF], 0);
    assert_eq!(page.objects, [0xFF01_8087, 0x00FF_0000]);
}

#[test]
fn pages_show_every_svid_once_and_in_order() {
    for count in 1..=MOST_SVIDS {
        let last = usize::from(count) / 12;
        let mut halves = Vec::new();
        for number in 0..=last {
            let (objects, ends_list) = shown(count, number);
            assert_eq!(ends_list, number == last, "page {number} of {count}");
            halves.extend(objects.iter().flat_map(|&object| {
                let [high, low] = [object >> 16, object & 0xFFFF];
                [high as u16, low as u16]
            }));
        }
        let zeros = if count % 2 == 1 { vec![0] } else { vec![0, 0] };
        assert_eq!(halves, [list(count), zeros].concat());
    }
}

#[test]
fn nothing_remains_past_the_end() {
    for (count, number) in [(0, 0), (0, 1), (5, 1), (12, 2), (72, 7), (72, usize::MAX)] {
        assert_eq!(shown(count, number), (vec![0], true));
    }
}

/// The halves 1 to `count` and then as many zeros, as objects.
fn halves(count: u16, zeros: usize) -> Vec<u32> {
    let halves = [list(count), vec![0; zeros]].concat();
    halves
        .chunks(2)
        .map(|pair| u32::from(pair[0]) << 16 | u32::from(pair[1]))
        .collect()
}

#[test]
fn every_page_shown_is_taken() {
    for count in 1..=MOST_SVIDS {
        let list = list(count);
        for number in 0..=list.len() / 12 {
            let gathered = &list[..12 * number];
            let page = page(&list, number);
            let taken = match page.ends_list {
                true => Taken::Ends(list.clone()),
                false => Taken::More(list[..12 * number + 12].to_vec()),
            };
            assert_eq!(take_page(gathered, &page.objects), taken);
        }
    }
}

#[test]
fn only_six_objects_equal_to_the_last_twelve_are_a_repeat() {
    assert_eq!(take_page(&list(12), &FULL), Taken::Repeat);
    let thirteen = [vec![0xFFFF], list(12)].concat();
    assert_eq!(take_page(&thirteen, &FULL), Taken::Repeat);
    assert_eq!(take_page(&list(24), &FULL), Taken::Bad);
    assert_eq!(take_page(&list(11), &FULL), Taken::Bad);
    assert_eq!(take_page(&list(12), &FULL[..5]), Taken::Bad);
    let mut other = FULL;
    other[0] = 0x0002_0001;
    assert_eq!(take_page(&list(12), &other), Taken::Bad);
}

#[test]
fn a_page_of_neither_form_is_bad() {
    for objects in 1..=5 {
        assert_eq!(take_page(&[], &FULL[..objects]), Taken::Bad);
    }
    for (count, zeros) in [(1, 3), (2, 4), (0, 4), (0, 12), (8, 4), (9, 3)] {
        assert_eq!(take_page(&[], &halves(count, zeros)), Taken::Bad);
        assert_eq!(take_page(&[0xFFFF], &halves(count, zeros)), Taken::Bad);
    }
    for objects in [
        &[0x0000_0001][..],
        &[0x0001_0000, 0x0002_0000],
        &[0, 1 << 16],
    ] {
        assert_eq!(take_page(&[], objects), Taken::Bad);
    }
}

#[test]
fn all_zeros_end_any_list_but_an_empty_one() {
    assert_eq!(take_page(&[], &[0]), Taken::Bad);
    assert_eq!(take_page(&[7], &[0]), Taken::Ends(vec![7]));
    assert_eq!(take_page(&list(72), &[0]), Taken::Ends(list(72)));
}

#[test]
fn a_page_that_repeats_an_svid_is_bad() {
    assert_eq!(take_page(&[], &[0x0001_0001, 0]), Taken::Bad);
    assert_eq!(take_page(&[5, 6], &[0x0005_0000]), Taken::Bad);
    let mut full = FULL;
    full[5] = 0x000B_0001;
    assert_eq!(take_page(&[], &full), Taken::Bad);
}

#[test]
fn a_list_takes_72_and_no_more() {
    let seventy: Vec<u16> = (101..=160).chain(201..=210).collect();
    let two = [0x0001_0002, 0];
    assert_eq!(
        take_page(&seventy, &two),
        Taken::Ends([seventy.clone(), vec![1, 2]].concat())
    );
    assert_eq!(take_page(&seventy, &[0x0001_0002, 0x0003_0000]), Taken::Bad);
    assert_eq!(take_page(&seventy, &FULL), Taken::Bad);
    assert_eq!(take_page(&list(72), &[0x0049_0000]), Taken::Bad);
    let sixty: Vec<u16> = (101..=160).collect();
    let taken = Taken::More([sixty.clone(), list(12)].concat());
    assert_eq!(take_page(&sixty, &FULL), taken);
}
