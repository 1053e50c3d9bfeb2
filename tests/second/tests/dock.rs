//! The dock end, held against values worked out by hand from document 01.

use second::dock::PolicyAnswer::{Busy, Give, Nak};
use second::dock::{Dock, PolicyAnswer, Request, Standing};

const IDENTITY: u32 = 0xFF00_A001;
const SVIDS: u32 = 0xFF00_A002;
const MODES: u32 = 0xFF01_A003;
const ENTER: u32 = 0xFF01_A204;
const EXIT: u32 = 0xFF01_A705;
/// A request that is answered without policy.
const VENDOR: u32 = 0x1234_A31F;
const ASKED: [u32; 5] = [IDENTITY, SVIDS, MODES, ENTER, EXIT];

const DATA: [u32; 3] = [0x1111_2222, 0, 0xFFFF_FFFF];
const UNWRITTEN: u8 = 0x5A;
const WHOLE_ROOM: usize = 28;

/// The bytes to send, or the refusal.
type Answer = Result<Vec<u8>, u8>;

fn bytes(objects: &[u32]) -> Vec<u8> {
    objects.iter().flat_map(|word| word.to_le_bytes()).collect()
}

/// A call with a buffer of that room. Nothing but the bytes to send may be written, and a refusal
/// leaves the dock as it was.
fn called(
    dock: &mut Dock,
    room: usize,
    call: impl FnOnce(&mut Dock, &mut [u8]) -> Result<usize, u8>,
) -> Answer {
    let before = dock.clone();
    let mut out = vec![UNWRITTEN; room];
    let result = call(dock, &mut out);
    let length = result.unwrap_or(0);
    assert!(out[length..].iter().all(|&byte| byte == UNWRITTEN));
    if result.is_err() {
        assert_eq!(*dock, before);
    }
    result.map(|length| out[..length].to_vec())
}

fn message(dock: &mut Dock, objects: &[u32], room: usize) -> Answer {
    called(dock, room, |dock, out| dock.message(&bytes(objects), out))
}

fn ask(dock: &mut Dock, header: u32) {
    assert_eq!(message(dock, &[header], 0), Ok(vec![]));
    assert_eq!(dock.standing(), Standing::Asking(named(header)));
}

fn named(header: u32) -> Request {
    Request {
        svid: (header >> 16) as u16,
        command: (header & 0x1F) as u8,
        position: (header >> 8 & 7) as u8,
    }
}

/// Policy's answer to the request with this header.
fn policy(
    dock: &mut Dock,
    answer: PolicyAnswer,
    header: u32,
    objects: &[u32],
    room: usize,
) -> Answer {
    called(dock, room, |dock, out| {
        dock.policy(answer, named(header), objects, out)
    })
}

/// A request and policy's answer to it.
fn answered(dock: &mut Dock, header: u32, answer: PolicyAnswer, objects: &[u32]) -> Answer {
    ask(dock, header);
    policy(dock, answer, header, objects, WHOLE_ROOM)
}

/// The page shown now, which is not confirmed yet.
fn page_given(dock: &mut Dock) -> Vec<u8> {
    answered(dock, SVIDS, Give, &[]).unwrap()
}

fn page_confirmed(dock: &mut Dock) -> Vec<u8> {
    let page = page_given(dock);
    assert_eq!(dock.sent(), Ok(()));
    page
}

fn loaded(count: u16) -> Dock {
    let mut dock = Dock::fresh();
    let svids: Vec<u16> = (1..=count).collect();
    assert_eq!(dock.load(&DATA, &svids), Ok(()));
    dock
}

/// Ready, asking and sending a page that does not end the list, all on page 1 of 25 SVIDs.
fn standings() -> [Dock; 3] {
    let mut ready = loaded(25);
    page_confirmed(&mut ready);
    let mut asking = ready.clone();
    ask(&mut asking, SVIDS);
    let mut sending = ready.clone();
    page_given(&mut sending);
    [ready, asking, sending]
}

/// The pages after an Identity, each confirmed.
fn pages(count: u16, requests: usize) -> Vec<Vec<u8>> {
    let mut dock = loaded(count);
    answered(&mut dock, IDENTITY, Give, &[]).unwrap();
    assert_eq!(dock.sent(), Ok(()));
    (0..requests).map(|_| page_confirmed(&mut dock)).collect()
}

fn list_ack(objects: &[u32]) -> Vec<u8> {
    bytes(&[&[0xFF00_A042], objects].concat())
}

const FIRST_TEN: [u32; 5] = [
    0x0001_0002,
    0x0003_0004,
    0x0005_0006,
    0x0007_0008,
    0x0009_000A,
];

fn first_twelve() -> Vec<u8> {
    list_ack(&[&FIRST_TEN[..], &[0x000B_000C]].concat())
}

#[test]
fn case_1_an_empty_list_is_a_nak() {
    let nak = bytes(&[0xFF00_A082]);
    assert_eq!(pages(0, 2), [nak.clone(), nak]);
}

#[test]
fn cases_2_to_5_have_one_page() {
    let three = list_ack(&[0x0001_0002, 0x0003_0000]);
    assert_eq!(pages(3, 2), [three.clone(), three]);
    let four = list_ack(&[0x0001_0002, 0x0003_0004, 0]);
    assert_eq!(pages(4, 2), [four.clone(), four]);
    let ten = list_ack(&[&FIRST_TEN[..], &[0]].concat());
    assert_eq!(pages(10, 2), [ten.clone(), ten]);
    let eleven = list_ack(&[&FIRST_TEN[..], &[0x000B_0000]].concat());
    assert_eq!(pages(11, 2), [eleven.clone(), eleven]);
}

#[test]
fn cases_6_and_7_have_two_pages() {
    let empty = list_ack(&[0]);
    assert_eq!(pages(12, 3), [first_twelve(), empty.clone(), empty]);
    let thirteenth = list_ack(&[0x000D_0000]);
    assert_eq!(
        pages(13, 3),
        [first_twelve(), thirteenth.clone(), thirteenth]
    );
}

#[test]
fn case_8_has_seven_pages() {
    let pages = pages(72, 8);
    assert_eq!(pages[0], first_twelve());
    for full in &pages[..6] {
        assert_eq!(full.len(), WHOLE_ROOM);
    }
    assert_eq!(pages[5][24..], bytes(&[0x0047_0048]));
    assert_eq!(pages[6], list_ack(&[0]));
    assert_eq!(pages[7], pages[6]);
}

#[test]
fn a_fresh_dock_is_ready_with_an_empty_list_and_no_identity() {
    let mut dock = Dock::fresh();
    assert_eq!(dock.standing(), Standing::Ready);
    assert_eq!((dock.page(), dock.svid_count()), (0, 0));
    assert_eq!(answered(&mut dock, IDENTITY, Give, &[]), Err(10));
    let nak = bytes(&[0xFF00_A081]);
    assert_eq!(policy(&mut dock, Nak, IDENTITY, &[], 4), Ok(nak));
    assert_eq!(page_given(&mut dock), bytes(&[0xFF00_A082]));
    let modes = bytes(&[0xFF01_A043, 7]);
    assert_eq!(answered(&mut dock, MODES, Give, &[7]), Ok(modes));
}

#[test]
fn loading_keeps_to_its_limits() {
    let svids: Vec<u16> = (1..=73).collect();
    let load = |identity: usize, svids: &[u16]| {
        let mut dock = Dock::fresh();
        let result = dock.load(&[0; 8][..identity], svids);
        assert_eq!(dock == Dock::fresh(), result.is_err());
        result
    };
    for identity in 0..=8 {
        let good = (3..=6).contains(&identity);
        let expected = if good { Ok(()) } else { Err(10) };
        assert_eq!(load(identity, &svids[..1]), expected, "{identity}");
    }
    for count in 0..=72 {
        assert_eq!(load(3, &svids[..count]), Ok(()));
    }
    assert_eq!(load(3, &svids), Err(10));
    assert_eq!(load(3, &[0]), Err(10));
    assert_eq!(load(3, &[5, 6, 0]), Err(10));
    assert_eq!(load(3, &[5, 5]), Err(10));
    assert_eq!(load(3, &[0xFF00, 0xFFFF, 1]), Ok(()));
}

#[test]
fn no_two_svids_may_be_equal_wherever_they_stand() {
    for first in 0..72 {
        for second in first + 1..72 {
            let mut svids: Vec<u16> = (1..=72).collect();
            svids[second] = svids[first];
            assert_eq!(Dock::fresh().load(&DATA, &svids), Err(10));
        }
    }
}

#[test]
fn loading_is_for_a_ready_dock_and_9_comes_before_10() {
    let [mut ready, asking, sending] = standings();
    for mut dock in [asking, sending] {
        let before = dock.clone();
        assert_eq!(dock.load(&DATA, &[1]), Err(9));
        assert_eq!(dock.load(&[], &[0]), Err(9));
        assert_eq!(dock, before);
    }
    let before = ready.clone();
    assert_eq!(ready.load(&DATA, &[0]), Err(10));
    assert_eq!(ready, before);
    assert_eq!(ready.load(&DATA, &[9]), Ok(()));
    assert_eq!((ready.page(), ready.svid_count()), (0, 1));
    assert_eq!(page_given(&mut ready), list_ack(&[0x0009_0000]));
}

#[test]
fn acks_repeat_the_svid_command_and_position() {
    let mut dock = loaded(1);
    let identity = bytes(&[&[0xFF00_A041], &DATA[..]].concat());
    assert_eq!(answered(&mut dock, IDENTITY, Give, &[]), Ok(identity));
    let list = bytes(&[0xFF00_A042, 0x0001_0000]);
    assert_eq!(answered(&mut dock, SVIDS, Give, &[]), Ok(list));
    let modes = bytes(&[0xFF01_A043, 0x0000_0405]);
    assert_eq!(answered(&mut dock, MODES, Give, &[0x0405]), Ok(modes));
    let enter = bytes(&[0xFF01_A244]);
    assert_eq!(answered(&mut dock, ENTER, Give, &[]), Ok(enter));
    let exit = bytes(&[0xFF01_A745]);
    assert_eq!(answered(&mut dock, EXIT, Give, &[]), Ok(exit));
}

#[test]
fn nak_and_busy_repeat_the_svid_command_and_position() {
    let rows = [
        (IDENTITY, 0xFF00_A081, 0xFF00_A0C1),
        (SVIDS, 0xFF00_A082, 0xFF00_A0C2),
        (MODES, 0xFF01_A083, 0xFF01_A0C3),
        (ENTER, 0xFF01_A284, 0xFF01_A2C4),
        (EXIT, 0xFF01_A785, 0xFF01_A7C5),
    ];
    for (header, nak, busy) in rows {
        let mut dock = loaded(1);
        assert_eq!(answered(&mut dock, header, Nak, &[]), Ok(bytes(&[nak])));
        assert_eq!(answered(&mut dock, header, Busy, &[]), Ok(bytes(&[busy])));
    }
}

#[test]
fn an_answer_is_at_the_edition_of_the_request() {
    for (header, ack) in [
        (0xFF00_8002, 0xFF00_8042),
        (0xFF00_9802, 0xFF00_8042),
        (0xFF00_A002, 0xFF00_A042),
        (0xFF00_B802, 0xFF00_A842),
    ] {
        let mut dock = loaded(1);
        let list = bytes(&[ack, 0x0001_0000]);
        assert_eq!(answered(&mut dock, header, Give, &[]), Ok(list));
    }
}

#[test]
fn an_enter_request_may_bring_an_object() {
    let mut dock = loaded(1);
    assert_eq!(message(&mut dock, &[ENTER, 0xDEAD_BEEF], 0), Ok(vec![]));
    let ack = bytes(&[0xFF01_A244]);
    assert_eq!(policy(&mut dock, Give, ENTER, &[], 4), Ok(ack));
}

#[test]
fn give_brings_1_to_6_objects_for_modes_and_none_otherwise() {
    let objects = [7; 8];
    for header in ASKED {
        for count in 0..=8 {
            let fits = if header == MODES {
                (1..=6).contains(&count)
            } else {
                count == 0
            };
            let mut dock = loaded(3);
            let answer = answered(&mut dock, header, Give, &objects[..count]);
            assert_eq!(answer.is_ok(), fits);
            assert!(fits || answer == Err(10));
        }
    }
}

#[test]
fn nak_and_busy_bring_no_objects() {
    for header in ASKED {
        for answer in [Nak, Busy] {
            let mut dock = loaded(3);
            assert_eq!(answered(&mut dock, header, answer, &[7]), Err(10));
            assert_eq!(dock.standing(), Standing::Asking(named(header)));
        }
    }
}

#[test]
fn an_answer_to_another_request_is_refused_9_before_10_and_11() {
    let others = [0xFF02_A204, 0x0001_A204, 0xFF01_A205, 0xFF01_A304];
    for answer in [Give, Nak, Busy] {
        let mut dock = loaded(3);
        ask(&mut dock, ENTER);
        for other in others {
            assert_eq!(policy(&mut dock, answer, other, &[], WHOLE_ROOM), Err(9));
            assert_eq!(policy(&mut dock, answer, other, &[7], 0), Err(9));
        }
        assert!(policy(&mut dock, answer, ENTER, &[], WHOLE_ROOM).is_ok());
    }
}

#[test]
fn an_answer_when_none_is_waiting_is_refused_9() {
    for answer in [Give, Nak, Busy] {
        let mut dock = loaded(3);
        assert_eq!(policy(&mut dock, answer, SVIDS, &[], WHOLE_ROOM), Err(9));
        page_given(&mut dock);
        assert_eq!(policy(&mut dock, answer, SVIDS, &[], WHOLE_ROOM), Err(9));
        assert_eq!(dock.sent(), Ok(()));
        assert_eq!(policy(&mut dock, answer, SVIDS, &[7], 0), Err(9));
    }
}

#[test]
fn a_short_buffer_is_refused_11_after_10_and_leaves_the_dock_asking() {
    let answers: [(u32, PolicyAnswer, &[u32], usize); 8] = [
        (IDENTITY, Give, &[], 16),
        (SVIDS, Give, &[], 12),
        (MODES, Give, &[7; 6], 28),
        (ENTER, Give, &[], 4),
        (EXIT, Give, &[], 4),
        (IDENTITY, Nak, &[], 4),
        (SVIDS, Busy, &[], 4),
        (MODES, Busy, &[], 4),
    ];
    for (header, answer, objects, needed) in answers {
        let mut dock = loaded(3);
        ask(&mut dock, header);
        assert_eq!(policy(&mut dock, answer, header, &[7; 7], 0), Err(10));
        for room in 0..needed {
            assert_eq!(policy(&mut dock, answer, header, objects, room), Err(11));
        }
        let sent = policy(&mut dock, answer, header, objects, needed);
        assert_eq!(sent.unwrap().len(), needed);
    }
}

#[test]
fn sent_and_failed_are_refused_9_unless_an_answer_is_being_sent() {
    let [mut ready, mut asking, sending] = standings();
    for dock in [&mut ready, &mut asking] {
        let before = dock.clone();
        assert_eq!(dock.sent(), Err(9));
        assert_eq!(dock.failed(), Err(9));
        assert_eq!(*dock, before);
    }
    for end in [Dock::sent, Dock::failed] {
        let mut dock = sending.clone();
        assert_eq!(end(&mut dock), Ok(()));
        assert_eq!(dock.standing(), Standing::Ready);
        assert_eq!(dock.sent(), Err(9));
        assert_eq!(dock.failed(), Err(9));
    }
}

#[test]
fn only_a_confirmed_page_moves_to_the_next() {
    let mut dock = loaded(13);
    for _ in 0..3 {
        assert_eq!(page_given(&mut dock), first_twelve());
        assert_eq!(dock.page(), 0);
        assert_eq!(dock.failed(), Ok(()));
    }
    for answer in [Nak, Busy] {
        answered(&mut dock, SVIDS, answer, &[]).unwrap();
        assert_eq!(dock.sent(), Ok(()));
        assert_eq!(dock.page(), 0);
    }
    for (header, objects) in [(MODES, &[7][..]), (ENTER, &[]), (EXIT, &[])] {
        answered(&mut dock, header, Give, objects).unwrap();
        assert_eq!(dock.sent(), Ok(()));
        assert_eq!(dock.page(), 0);
    }
    assert_eq!(page_confirmed(&mut dock), first_twelve());
    assert_eq!(dock.page(), 1);
}

#[test]
fn the_last_page_stays_the_last_until_the_next_identity() {
    let mut dock = loaded(13);
    page_confirmed(&mut dock);
    for _ in 0..3 {
        assert_eq!(page_confirmed(&mut dock), list_ack(&[0x000D_0000]));
        assert_eq!(dock.page(), 1);
    }
    ask(&mut dock, IDENTITY);
    assert_eq!(page_confirmed(&mut dock), first_twelve());
}

#[test]
fn identity_sets_the_page_to_0_on_receipt_and_nothing_else_does() {
    for dock in standings() {
        for header in [SVIDS, MODES, ENTER, EXIT] {
            let mut dock = dock.clone();
            ask(&mut dock, header);
            assert_eq!(dock.page(), 1);
        }
        let mut dock = dock;
        ask(&mut dock, IDENTITY);
        assert_eq!(dock.page(), 0);
        assert!(policy(&mut dock, Nak, IDENTITY, &[], 4).is_ok());
        assert_eq!(dock.failed(), Ok(()));
        assert_eq!(page_given(&mut dock), first_twelve());
    }
}

#[test]
fn a_new_request_replaces_the_old_one_as_if_it_had_failed() {
    let [_, asking, sending] = standings();
    for mut dock in [asking, sending] {
        ask(&mut dock, MODES);
        assert_eq!(dock.sent(), Err(9));
        assert_eq!(policy(&mut dock, Give, SVIDS, &[], WHOLE_ROOM), Err(9));
        assert!(policy(&mut dock, Give, MODES, &[7], WHOLE_ROOM).is_ok());
        assert_eq!(dock.sent(), Ok(()));
        assert_eq!(dock.page(), 1);
    }
}

#[test]
fn other_commands_get_a_nak_at_once_in_every_standing() {
    let commands = [0].into_iter().chain(7..=31);
    for (command, mut dock) in commands.flat_map(|command| standings().map(|dock| (command, dock)))
    {
        let nak = bytes(&[0x1234_A380 | command]);
        assert_eq!(message(&mut dock, &[0x1234_A300 | command], 4), Ok(nak));
        assert_eq!(dock.standing(), Standing::Sending { moves_page: false });
        assert_eq!(dock.sent(), Ok(()));
        assert_eq!(dock.page(), 1);
    }
}

#[test]
fn such_a_nak_repeats_any_svid_and_position_but_not_the_objects() {
    for (header, nak) in [
        (0x0000_8000, 0x0000_8080),
        (0xFF00_A707, 0xFF00_A787),
        (0xFFFF_B81F, 0xFFFF_A89F),
    ] {
        for count in 0..=6 {
            let request = [&[header], &[7; 6][..count]].concat();
            let answer = message(&mut Dock::fresh(), &request, WHOLE_ROOM);
            assert_eq!(answer, Ok(bytes(&[nak])));
        }
    }
}

#[test]
fn without_room_for_such_a_nak_the_old_request_stays() {
    for mut dock in standings() {
        for room in 0..4 {
            assert_eq!(message(&mut dock, &[VENDOR], room), Err(11));
        }
    }
    let [_, mut asking, mut sending] = standings();
    assert_eq!(message(&mut asking, &[VENDOR], 3), Err(11));
    assert!(policy(&mut asking, Give, SVIDS, &[], WHOLE_ROOM).is_ok());
    assert_eq!(message(&mut sending, &[VENDOR], 3), Err(11));
    assert_eq!(sending.sent(), Ok(()));
    assert_eq!(sending.page(), 2);
}

#[test]
fn answers_and_attention_are_refused_6_whatever_the_room() {
    let messages: [&[u32]; 9] = [
        &[0xFF00_A041, 1, 2, 3],
        &[0xFF00_A082],
        &[0xFF00_A042, 0x0001_0000],
        &[0xFF01_A0C3],
        &[0xFF01_A144],
        &[0xFF01_A785],
        &[0xFF01_A106],
        &[0xFF01_A606, 7],
        &[0x1234_A39F],
    ];
    for mut dock in standings() {
        for objects in messages {
            assert_eq!(message(&mut dock, objects, 0), Err(6));
            assert_eq!(message(&mut dock, objects, WHOLE_ROOM), Err(6));
        }
    }
}

#[test]
fn bit_5_of_a_request_means_nothing_and_is_not_sent_back() {
    for header in ASKED.into_iter().chain([VENDOR]) {
        for dock in standings() {
            let [mut set, mut clear] = [dock.clone(), dock];
            let answer = message(&mut set, &[header | 0x20], WHOLE_ROOM);
            assert_eq!(answer, message(&mut clear, &[header], WHOLE_ROOM));
            assert_eq!(set, clear);
        }
    }
    let nak = bytes(&[0x1234_A39F]);
    let mut dock = Dock::fresh();
    assert_eq!(message(&mut dock, &[VENDOR | 0x20], 4), Ok(nak));
}

#[test]
fn damaged_messages_are_refused_1_to_5_and_leave_the_dock_alone() {
    let messages: [(&[u32], u8); 6] = [
        (&[], 1),
        (&[0xFF00_A001; 8], 1),
        (&[0xFF00_2001], 2),
        (&[0xFF00_C001], 3),
        (&[0xFF00_A101], 5),
        (&[0xFF00_A001, 0], 5),
    ];
    for mut dock in standings() {
        for (objects, refusal) in messages {
            assert_eq!(message(&mut dock, objects, 0), Err(refusal));
        }
        let cut = called(&mut dock, 0, |dock, out| dock.message(&[1; 3], out));
        assert_eq!(cut, Err(1));
    }
}

#[test]
fn case_11_an_unconfirmed_page_is_shown_again() {
    let mut dock = loaded(13);
    assert_eq!(page_given(&mut dock), first_twelve());
    assert_eq!(page_confirmed(&mut dock), first_twelve());
    assert_eq!(page_confirmed(&mut dock), list_ack(&[0x000D_0000]));
}
