//! Culling arenas and erasing from them: the proved calls against plain Rust, by the answers, by the set, and by every
//! byte of the arena.
use plain::culling::SET_BYTES;
use plain::layout::{ARENA_BYTES, COUNT, u32_at};
use plain::order;
use plain::random::Random;
use plain::samples::arenas::Arena;
use plain::samples::culls::{full, small};
use plain::samples::damaged_arenas::damage;
use plain::samples::graphs::{Node, snapshot};
use plain::{culling, erasing};

use crate::proved;

/// Of a thousand arenas at least so many are erased from, and refused for their set; and at least so many nodes go.
const LEAST_ERASED: usize = 200;
const LEAST_SETS: usize = 100;
const LEAST_NODES: usize = 500;

/// Culls and erases in so many arenas: with small graphs, one larger one for each hundred, and some damaged. Answers
/// whether all agree and each case came up often enough.
pub fn compare(seed: u64, count: usize) -> bool {
    let mut random = Random::new(seed);
    let mut any = Arena::any(&mut random);
    let (mut refused, mut gone) = ([0; 12], 0);
    for at in 0..count {
        let arena = match at % 100 {
            99 => of(&mut random, |random| full(random, 200, true)),
            at if at % 4 == 3 => filled(&mut random, &mut any),
            at => of(&mut random, |random| small(random, at % 2 == 0)),
        };
        let nodes = u32_at(&arena, COUNT);
        match agreed(&mut random, arena) {
            Ok(answer) => {
                refused[answer.map_or_else(|number| number as usize, |_| 0)] += 1;
                gone += answer.map_or(0, |kept| (nodes - kept) as usize);
            }
            Err(call) => {
                println!("arena {at} of seed {seed}: {call} differs");
                return false;
            }
        }
    }
    let [erased, sizes, damaged, empty, .., sets] = refused;
    println!(
        "{erased} arenas are culled and erased from as they should be, {gone} nodes go; refused: {sizes} sets of another \
        size, {damaged} arenas with no graph, {empty} empty, {sets} sets"
    );
    [(erased, LEAST_ERASED), (sets, LEAST_SETS), (gone, LEAST_NODES)]
        .iter()
        .all(|&(found, least)| found * 1_000 >= least * count)
}

/// An arena with a graph; every second one is ordered, if it has an order. Bytes that it does not use are of one value.
fn of(random: &mut Random, nodes: impl Fn(&mut Random) -> Vec<Node>) -> Vec<u8> {
    let nodes = nodes(random);
    let mut arena = vec![random.byte(); ARENA_BYTES];
    plain::snapshot::read(&snapshot(&nodes), &mut arena).expect("a graph that a snapshot may have");
    let lists = if random.one_in(2) { order::sorted(&nodes) } else { None };
    lists.iter().for_each(|lists| order::write(lists, &mut arena));
    arena
}

/// An arena with a graph of any fields, any child lists and any order; some are damaged.
fn filled(random: &mut Random, any: &mut Arena) -> Vec<u8> {
    any.fill(random);
    if random.one_in(4) {
        damage(any, random);
    }
    let arena = any.bytes().to_vec();
    any.restore();
    arena
}

/// Culls, finds the set and erases by it, or by one that differs in a byte; now and then the set is a byte too short.
/// What erasing answers, or the call whose answer, set or arena differs from plain Rust's.
fn agreed(random: &mut Random, mut arena: Vec<u8>) -> Result<Result<u32, u32>, &'static str> {
    let mut expected = arena.clone();
    let culled = culling::cull(&mut expected).map(|()| 0).map_err(u32::from);
    if proved::cull(&mut arena) != culled || arena != expected {
        return Err("culling");
    }
    let mut set = vec![random.byte(); SET_BYTES - usize::from(random.one_in(200))];
    let mut expected_set = set.clone();
    let found = culling::erasable(&expected, &mut expected_set).map(|()| 0).map_err(u32::from);
    if proved::erasable(&arena, &mut set) != found || set != expected_set {
        return Err("the erasable set");
    }
    if random.one_in(2) {
        set[random.pick(&[0, 1, 2, 3, 4, 5, 6, 8, 12, 20])] = random.pick(&[0, 1, 1, 1, 2, 255]);
    }
    let kept = erasing::erase(&mut expected, &set).map(|kept| kept as u32).map_err(u32::from);
    if proved::erase(&mut arena, &set) != kept || arena != expected {
        return Err("erasing");
    }
    Ok(kept)
}
