//! Lists of symmetry operators: groups, and groups that were damaged.

use crate::random::Random;
use reference::group::{determinant, product, IDENTITY, MOST};
use reference::operator::{Row, FACTORS, NUMBERS, PARTS, WHOLE};

/// The factors of generators: turns, mirrors and the inversion about the axes of a cube, and of a
/// hexagon.
const CUBIC: [[i8; FACTORS]; 7] = [
    [-1, 0, 0, 0, -1, 0, 0, 0, -1],
    [-1, 0, 0, 0, -1, 0, 0, 0, 1],
    [-1, 0, 0, 0, 1, 0, 0, 0, -1],
    [1, 0, 0, 0, -1, 0, 0, 0, 1],
    [0, -1, 0, 1, 0, 0, 0, 0, 1],
    [0, 0, 1, 1, 0, 0, 0, 1, 0],
    [0, 1, 0, 1, 0, 0, 0, 0, 1],
];
const HEXAGONAL: [[i8; FACTORS]; 5] = [
    [0, -1, 0, 1, -1, 0, 0, 0, 1],
    [1, -1, 0, 1, 0, 0, 0, 0, 1],
    [0, 1, 0, 1, 0, 0, 0, 0, -1],
    [1, 0, 0, 0, 1, 0, 0, 0, -1],
    [-1, 0, 0, 0, -1, 0, 0, 0, -1],
];
const UNTURNED: [i8; FACTORS] = [1, 0, 0, 0, 1, 0, 0, 0, 1];
/// Steps of translations, in 24ths.
const STEPS: [usize; 6] = [24, 12, 12, 8, 6, 4];
/// Generators of the largest groups, of 192 operators: all turns and mirrors of a cube, with three
/// centrings, without and with glides.
const LARGEST: [[Row; 5]; 2] = [
    [
        row([0, -1, 0, 1, 0, 0, 0, 0, 1], [0, 0, 0]),
        row([0, 0, 1, 1, 0, 0, 0, 1, 0], [0, 0, 0]),
        row([-1, 0, 0, 0, -1, 0, 0, 0, -1], [0, 0, 0]),
        row(UNTURNED, [0, 12, 12]),
        row(UNTURNED, [12, 0, 12]),
    ],
    [
        row([0, -1, 0, 1, 0, 0, 0, 0, 1], [18, 6, 18]),
        row([0, 0, 1, 1, 0, 0, 0, 1, 0], [0, 0, 0]),
        row([-1, 0, 0, 0, -1, 0, 0, 0, -1], [6, 6, 6]),
        row(UNTURNED, [0, 12, 12]),
        row(UNTURNED, [12, 0, 12]),
    ],
];

/// Numbers out of range: of factors, and of translations.
const OUT_OF_RANGE: [[i8; 4]; 2] = [[-2, i8::MIN, 2, i8::MAX], [-1, i8::MIN, 24, i8::MAX]];

/// A way to damage a list.
type Damage = fn(&mut Vec<i8>, &mut Random);

/// Each way by name. The list has whole rows, at least one.
pub const DAMAGES: [(&str, Damage); 13] = [
    ("row dropped", |list, random| drop_rows(list, random, 1)),
    ("row doubled", |list, random| {
        let row = some_row(list, random);
        insert(list, random, &row);
    }),
    ("row changed", |list, random| {
        let at = random.below(list.len());
        list[at] = within(at, random);
    }),
    ("row turned", |list, random| {
        let (at, row) = (random.below(list.len() / NUMBERS), generator(random));
        list[NUMBERS * at..][..NUMBERS].copy_from_slice(&row);
    }),
    ("row more", |list, random| {
        let row = generator(random);
        insert(list, random, &row);
    }),
    ("rows dropped", |list, random| {
        let count = 1 + random.below(list.len() / NUMBERS);
        drop_rows(list, random, count);
    }),
    ("rows moved", shuffle),
    ("identity dropped", |list, _| {
        let rows: Vec<Row> = rows(list).into_iter().filter(|row| *row != IDENTITY).collect();
        *list = rows.concat();
    }),
    ("another determinant", |list, random| {
        let row = loop {
            let row: Row = std::array::from_fn(|at| within(at, random));
            if determinant(&row).abs() != 1 {
                break row;
            }
        };
        insert(list, random, &row);
    }),
    ("number out of range", |list, random| {
        let at = random.below(list.len());
        list[at] = random.pick(&OUT_OF_RANGE[usize::from(at % NUMBERS >= FACTORS)]);
    }),
    ("numbers dropped", |list, random| {
        list.truncate(list.len() - 1 - random.below(NUMBERS - 1));
    }),
    ("numbers more", |list, random| {
        let count = 1 + random.below(NUMBERS - 1);
        list.extend(&IDENTITY[..count]);
    }),
    ("too many rows", |list, random| {
        let rows = MOST + random.pick(&[1, 1, 2, 8, 64, 192]);
        *list = list.iter().copied().cycle().take(NUMBERS * rows).collect();
    }),
];

const fn row(factors: [i8; FACTORS], [x, y, z]: [i8; 3]) -> Row {
    let [a, b, c, d, e, f, g, h, i] = factors;
    [a, b, c, d, e, f, g, h, i, x, y, z]
}

/// The rows of a list.
fn rows(list: &[i8]) -> Vec<Row> {
    list.as_chunks().0.into()
}

fn some_row(list: &[i8], random: &mut Random) -> Row {
    random.pick(&rows(list))
}

fn insert(list: &mut Vec<i8>, random: &mut Random, row: &Row) {
    let at = NUMBERS * random.below(list.len() / NUMBERS + 1);
    list.splice(at..at, *row);
}

fn drop_rows(list: &mut Vec<i8>, random: &mut Random, count: usize) {
    for _ in 0..count {
        let at = NUMBERS * random.below(list.len() / NUMBERS);
        list.drain(at..at + NUMBERS);
    }
}

/// The rows in any other order.
fn shuffle(list: &mut Vec<i8>, random: &mut Random) {
    let mut rows = rows(list);
    for at in 1..rows.len() {
        rows.swap(at, random.below(at + 1));
    }
    *list = rows.concat();
}

/// A number that may stand at this place of a list.
fn within(at: usize, random: &mut Random) -> i8 {
    if at % NUMBERS < FACTORS {
        random.pick(&[-1, 0, 1])
    } else {
        random.below(WHOLE as usize) as i8
    }
}

/// A generator of any kind.
fn generator(random: &mut Random) -> Row {
    let factors = match random.below(4) {
        0 => UNTURNED,
        1 => random.pick(&HEXAGONAL),
        _ => random.pick(&CUBIC),
    };
    with_translation(factors, random)
}

fn with_translation(factors: [i8; FACTORS], random: &mut Random) -> Row {
    let step = random.pick(&STEPS);
    row(factors, [0; 3].map(|_: i8| (step * random.below(WHOLE as usize / step)) as i8))
}

/// The group that these rows generate, the identity first; none where it has over 192 operators, or
/// factors beyond 1.
pub fn generated(generators: &[Row]) -> Option<Vec<Row>> {
    let mut group = vec![IDENTITY];
    let mut at = 0;
    while at < group.len() {
        for generator in generators {
            let row = product(&group[at], generator);
            if row[..FACTORS].iter().any(|factor| factor.abs() > 1) || group.len() > MOST {
                return None;
            }
            if !group.contains(&row) {
                group.push(row);
            }
        }
        at += 1;
    }
    (group.len() <= MOST).then_some(group)
}

/// A largest group, its rows in any order.
pub fn largest(random: &mut Random) -> Vec<i8> {
    let generators = random.pick(&LARGEST);
    let mut list = generated(&generators).expect("they generate 192 operators").concat();
    shuffle(&mut list, random);
    list
}

/// Generated lists.
pub struct Groups {
    random: Random,
}

impl Groups {
    pub fn new(seed: u64) -> Self {
        Groups { random: Random::new(seed.rotate_left(40)) }
    }

    /// A group, its rows in any order; one in forty has 192 rows, most have few.
    pub fn group(&mut self) -> Vec<i8> {
        let random = &mut self.random;
        if random.once_in(40) {
            return largest(random);
        }
        let kinds: &[[i8; FACTORS]] = if random.once_in(3) { &HEXAGONAL } else { &CUBIC };
        let mut list = loop {
            let count = random.pick(&[0, 1, 1, 2, 2, 3]);
            let generators: Vec<Row> = (0..count)
                .map(|_| {
                    let factors = if random.once_in(4) { UNTURNED } else { random.pick(kinds) };
                    with_translation(factors, random)
                })
                .collect();
            if let Some(group) = generated(&generators) {
                break group.concat();
            }
        };
        if random.once_in(2) {
            shuffle(&mut list, random);
        }
        list
    }

    /// A group that was damaged in the way of this number.
    pub fn damaged(&mut self, damage: usize) -> Vec<i8> {
        let mut list = self.group();
        DAMAGES[damage].1(&mut list, &mut self.random);
        list
    }

    /// Any list: a group, or one with one to three damages.
    pub fn list(&mut self) -> Vec<i8> {
        let mut list = self.group();
        for _ in 0..self.random.pick(&[0, 1, 1, 2, 3]) {
            if list.len() >= NUMBERS && list.len().is_multiple_of(NUMBERS) {
                self.random.pick(&DAMAGES).1(&mut list, &mut self.random);
            }
        }
        list
    }
}

/// Every number at every place of the first, a middle and the last of three rows.
pub fn every_number() -> impl Iterator<Item = Vec<i8>> {
    let group = [IDENTITY, row(UNTURNED, [8, 0, 0]), row(UNTURNED, [16, 0, 0])].concat();
    (0..group.len()).flat_map(move |at| {
        let group = group.clone();
        (i8::MIN..=i8::MAX).map(move |number| {
            let mut list = group.clone();
            list[at] = number;
            list
        })
    })
}

/// Every choice of factors, beside the identity and alone.
pub fn every_matrix() -> impl Iterator<Item = Vec<i8>> {
    (0..3_usize.pow(FACTORS as u32)).flat_map(|number| {
        let digit = |place: usize| (number / 3_usize.pow(place as u32) % 3) as i8 - 1;
        let row = row(std::array::from_fn(digit), [0; 3]);
        [vec![IDENTITY, row].concat(), row.to_vec()]
    })
}

/// Every translation beside the identity, with some turns: products modulo 1.
pub fn every_translation() -> impl Iterator<Item = Vec<i8>> {
    let kinds = CUBIC.into_iter().chain(HEXAGONAL).chain([UNTURNED]);
    kinds.flat_map(|factors| {
        (0..PARTS).flat_map(move |place| {
            (0..WHOLE).map(move |translation| {
                let mut translations = [0, 6, 16];
                translations[place] = translation;
                let generators = [row(factors, translations)];
                generated(&generators).unwrap_or(vec![IDENTITY, generators[0]]).concat()
            })
        })
    })
}

/// Runs of every length up to beyond five rows, and about the longest list.
pub fn lengths() -> impl Iterator<Item = Vec<i8>> {
    let group = generated(&LARGEST[0]).expect("they generate 192 operators").concat();
    let ends = (0..=5 * NUMBERS + 1).chain(NUMBERS * (MOST - 1) - 1..=NUMBERS * (MOST + 1) + 1);
    let beyond = [256, 257, 256 + 192, 65_536, 65_536 + 192].map(|rows| NUMBERS * rows);
    ends.chain(beyond).map(move |length| group.iter().copied().cycle().take(length).collect())
}

/// The largest groups, one of half their size and a small one: with some rows dropped, doubled in
/// another place, and changed in each number.
pub fn rows_damaged() -> Vec<Vec<i8>> {
    let mut lists: Vec<Vec<i8>> = vec![];
    let small = [row(CUBIC[4], [0, 0, 6]), row(CUBIC[0], [12, 12, 0])];
    let half = [LARGEST[0][0], LARGEST[0][1], LARGEST[0][2], row(UNTURNED, [12, 12, 12])];
    let groups = [&LARGEST[0][..], &LARGEST[1], &half, &small].map(generated);
    for group in groups.into_iter().flatten() {
        lists.push(group.concat());
        lists.push(group.iter().rev().copied().collect::<Vec<_>>().concat());
        for at in (0..group.len()).step_by(group.len() / 16) {
            let (before, after) = (&group[..at], &group[at + 1..]);
            lists.push([before, after].concat().concat());
            lists.push([after, before].concat().concat());
            lists.push([after, &group[at..=at], before].concat().concat());
            lists.push(
                [before, &after[..after.len() / 2], &group[at..=at], after].concat().concat(),
            );
            for number in 0..NUMBERS {
                let mut list = group.concat();
                let changed = &mut list[NUMBERS * at + number];
                *changed = if *changed == 0 { 1 } else { 0 };
                lists.push(list);
            }
        }
    }
    lists
}

/// Lists of one to three rows of a few operators, in every order and with every repetition.
pub fn few_rows() -> impl Iterator<Item = Vec<i8>> {
    const ROWS: [Row; 10] = [
        IDENTITY,
        row(UNTURNED, [12, 0, 0]),
        row(UNTURNED, [0, 0, 1]),
        row(UNTURNED, [23, 23, 23]),
        row(CUBIC[0], [0, 0, 0]),
        row(CUBIC[0], [1, 2, 3]),
        row(CUBIC[4], [0, 0, 6]),
        row(CUBIC[5], [0, 0, 0]),
        row([1, 1, 0, 0, 1, 0, 0, 0, 1], [0, 0, 0]),
        row([1, 0, 0, 1, 0, 0, 0, 0, 1], [0, 0, 0]),
    ];
    let ones = ROWS.into_iter().map(|a| vec![a]);
    let twos = ROWS.into_iter().flat_map(|a| ROWS.map(|b| vec![a, b]));
    let threes = ROWS
        .into_iter()
        .flat_map(|a| ROWS.into_iter().flat_map(move |b| ROWS.map(|c| vec![a, b, c])));
    ones.chain(twos).chain(threes).map(|rows| rows.concat())
}
