//! Taking a page: the laptop's message call on recorded pages of the partner, the versions' answers,
//! then their speed by kind of page.

use crate::plain;
use crate::proved::{self, Library, ALL_VERSIONS, LIBRARIES};
use crate::rounds;
use second::edition::OURS;
use second::laptop::Awaited;
use second::messages::{write, Request, ACK, OBJECT_BYTES, PD_SID, SVIDS};
use second::pages::{page, MOST_SVIDS, PAGE_SVIDS};
use second::random::Random;
use second::refusals::ACCEPTED;
use second::side::Side;
use std::hint::black_box;

const SEED: u64 = 0x5EED_0000_0000_0003;
/// Lists of 72 SVIDs, a laptop for each.
const LISTS: usize = 16;
/// Pages of each kind.
const PAGES: usize = 20_000;
const FULL_PAGES: usize = MOST_SVIDS / PAGE_SVIDS;
const IDENTITY_OBJECTS: u8 = 3;
const FIRST_HALF: u32 = 16;
/// What is handed over before the call.
const UNTOUCHED: proved::Handed = [9; 8];

const AWAITED: Awaited = Awaited {
    side: Side::Partner,
    request: Request {
        svid: PD_SID,
        command: SVIDS,
        position: 0,
    },
};

#[derive(Clone, Copy, Debug)]
enum Kind {
    Full,
    Repeat,
    Ending,
    Bad,
}

/// A page that comes when so many SVIDs of the list are gathered. Taking it leaves the array as it
/// was, since what it adds stands there already.
struct Input {
    list: usize,
    gathered: u8,
    bytes: Vec<u8>,
}

impl Input {
    fn draw(kind: Kind, lists: &[Vec<u16>], random: &mut Random) -> Self {
        let list = random.below(LISTS);
        let svids = &lists[list];
        let number = random.below(FULL_PAGES);
        let (gathered, mut objects) = match kind {
            Kind::Full | Kind::Bad => (number, page(svids, number).objects),
            Kind::Repeat => (number + 1, page(svids, number).objects),
            Kind::Ending => {
                let count = number * PAGE_SVIDS + 1 + random.below(PAGE_SVIDS - 1);
                (number, page(&svids[..count], number).objects)
            }
        };
        if let Kind::Bad = kind {
            let last = objects.len() - 1;
            objects[last] = u32::from(svids[0]) << FIRST_HALF | objects[0] >> FIRST_HALF;
        }
        Input {
            list,
            gathered: (gathered * PAGE_SVIDS) as u8,
            bytes: acknowledged(&objects),
        }
    }
}

fn acknowledged(objects: &[u32]) -> Vec<u8> {
    let mut bytes = vec![0; (1 + objects.len()) * OBJECT_BYTES];
    let answer = write(PD_SID, SVIDS, ACK, 0, OURS.number(), objects, &mut bytes);
    assert_eq!(answer, ACCEPTED);
    bytes
}

fn proved_state(gathered: u8) -> proved::State {
    let mut state = [0; 22];
    state[..4].copy_from_slice(&[1, PD_SID, SVIDS.into(), 0]);
    state[4..7].copy_from_slice(&[1, IDENTITY_OBJECTS.into(), gathered.into()]);
    state[12] = OURS.number().into();
    state[21] = OURS.number().into();
    state
}

/// The same, of the plain laptop.
fn set_plain_state(laptop: &mut plain::Laptop, gathered: u8) {
    laptop.awaited = Some(AWAITED);
    laptop.sides.partner.state = plain::State {
        stage: plain::Stage::ListOpen,
        gathered: plain::Size {
            objects: IDENTITY_OBJECTS,
            count: gathered,
        },
        ..plain::State::FRESH
    };
    laptop.sides.cable.state = plain::State::FRESH;
}

/// The plain laptop's state as the proved library's numbers.
fn numbers(laptop: &plain::Laptop) -> proved::State {
    let awaited = laptop.awaited.map_or([0; 4], |Awaited { side, request }| {
        let side = 1 + side as u16;
        let [command, position] = [request.command, request.position].map(u16::from);
        [side, request.svid, command, position]
    });
    let mut numbers = [0; 22];
    numbers[..4].copy_from_slice(&awaited);
    numbers[4..13].copy_from_slice(&numbers_of_side(&laptop.sides.partner.state));
    numbers[13..].copy_from_slice(&numbers_of_side(&laptop.sides.cable.state));
    numbers
}

fn numbers_of_side(state: &plain::State) -> [u16; 9] {
    let held = state
        .held
        .map_or([0; 3], |size| [1, size.objects.into(), size.count.into()]);
    [
        state.stage as u16,
        state.gathered.objects.into(),
        state.gathered.count.into(),
        state.stored.into(),
        state.pages.into(),
        held[0],
        held[1],
        held[2],
        state.edition.number().into(),
    ]
}

/// A laptop for each list. All libraries are lent the same memory: a page leaves it as it was.
struct Laptops {
    proved: Vec<proved::Memory>,
    plain: Vec<plain::Laptop>,
}

impl Laptops {
    fn with(lists: &[Vec<u16>]) -> Self {
        let mut laptops = Laptops {
            proved: Vec::new(),
            plain: Vec::new(),
        };
        for list in lists {
            let mut memory = proved::Memory::empty();
            memory.svids.copy_from_slice(list);
            laptops.proved.push(memory);
            let mut laptop = plain::Laptop::fresh();
            laptop.sides.partner.candidate.svids.copy_from_slice(list);
            laptops.plain.push(laptop);
        }
        laptops
    }

    /// Gives the answer, and panics where the versions differ.
    fn compare(&mut self, input: &Input) -> u8 {
        let mut handed = UNTOUCHED;
        let laptop = &mut self.plain[input.list];
        set_plain_state(laptop, input.gathered);
        let number = laptop.message(Side::Partner, &input.bytes, &mut handed);
        let svids = laptop.sides.partner.candidate.svids;
        let plain = (number, numbers(laptop), svids, handed);
        let memory = &mut self.proved[input.list];
        for library in LIBRARIES {
            let (mut state, mut handed) = (proved_state(input.gathered), UNTOUCHED);
            let number = (library.message)(memory, &mut state, &input.bytes, &mut handed);
            assert_eq!(
                (number, state, memory.svids, handed),
                plain,
                "{} (left) and Rust (right) differ on {:02X?} after {} SVIDs",
                library.name,
                input.bytes,
                input.gathered
            );
        }
        number
    }
}

/// Not inlined: all libraries run through the same loop.
#[inline(never)]
fn proved_round(library: &Library, laptops: &mut [proved::Memory], inputs: &[Input]) {
    let message = black_box(library.message);
    let mut handed = [0; 8];
    for input in inputs {
        let mut state = proved_state(input.gathered);
        let memory = &mut laptops[input.list];
        black_box(message(memory, &mut state, &input.bytes, &mut handed));
        black_box((&state, &handed));
    }
}

fn plain_round(laptops: &mut [plain::Laptop], inputs: &[Input]) {
    let mut handed = [0; 8];
    for input in inputs {
        let laptop = &mut laptops[input.list];
        set_plain_state(laptop, input.gathered);
        black_box(laptop.message(Side::Partner, &input.bytes, &mut handed));
        black_box((&*laptop, &handed));
    }
}

pub fn measure() {
    let mut random = Random::from_seed(SEED);
    let lists: Vec<Vec<u16>> = (0..LISTS)
        .map(|_| random.different_svids(MOST_SVIDS))
        .collect();
    let mut laptops = Laptops::with(&lists);
    let mut all = Vec::new();
    for kind in [Kind::Full, Kind::Repeat, Kind::Ending, Kind::Bad] {
        let inputs: Vec<Input> = (0..PAGES)
            .map(|_| Input::draw(kind, &lists, &mut random))
            .collect();
        let refused = inputs
            .iter()
            .filter(|input| laptops.compare(input) != ACCEPTED)
            .count();
        println!(
            "\n{kind:?}: taking {PAGES} pages, {ALL_VERSIONS} answer alike, {refused} refused"
        );
        time(&mut laptops, &inputs);
        all.extend(inputs);
    }
    println!("\nall {} pages", all.len());
    time(&mut laptops, &all);
}

fn time(laptops: &mut Laptops, inputs: &[Input]) {
    let Laptops { proved, plain } = laptops;
    rounds::compare(
        inputs.len(),
        |library| proved_round(library, proved, inputs),
        || plain_round(plain, inputs),
    );
}
