//! Reading over the generators: round trips, areas, and every refusal number.

mod common;

use second::area::{decode, encode, is_well_formed, SIZE};
use second::generate::random::Random;
use second::generate::{areas, independent, tables, texts};
use second::limits::{INPUTS, NAME_BYTES, ROWS, TEXT_BYTES};
use second::print;
use second::reading::{find, read, Answer, Found};
use second::table::Table;
use second::Refusal;
use std::collections::{HashMap, HashSet};

#[test]
fn every_table_reads_back_from_its_plain_text() {
    for seed in 0..2000 {
        let table = tables::table(&mut Random::new(seed));
        let text = print::text(&table);
        let end = text.len() - 1;
        assert_eq!(find(&text, 0), Ok(Found::Table(table, end)), "seed {seed}");
    }
}

#[test]
fn every_table_reads_back_from_any_of_its_texts() {
    for seed in 0..3000 {
        let mut random = Random::new(seed);
        let table = tables::table(&mut random);
        let text = texts::of_table(&mut random, &table);
        let shown = String::from_utf8_lossy(&text);
        assert_eq!(
            find(&text, 0),
            Ok(Found::Table(table, text.len())),
            "seed {seed}: {shown}"
        );
    }
}

#[test]
fn tables_survive_their_area() {
    for seed in 0..2000 {
        let table = tables::table(&mut Random::new(seed));
        let mut lent = [0xaa; SIZE];
        let text = print::text(&table);
        assert_eq!(read(&text, 0, &mut lent), Answer::Table(text.len() - 1));
        assert_eq!(lent, encode(&table));
        assert_eq!(decode(&lent), Some(table));
    }
}

#[test]
fn tables_cover_the_limits() {
    let made: Vec<Table> = (0..3000)
        .map(|seed| tables::table(&mut Random::new(seed)))
        .collect();
    let inputs: HashSet<usize> = made.iter().map(|table| table.inputs).collect();
    let rows: HashSet<usize> = made.iter().map(|table| table.rows.len()).collect();
    let names: HashSet<usize> = made.iter().map(|table| table.name.len()).collect();
    assert_eq!(inputs, (1..=INPUTS).collect());
    assert_eq!(rows, (1..=ROWS).collect());
    assert_eq!(names, (1..=NAME_BYTES).collect());
}

/// Well-formed exactly if the plain text of what the bytes seem to say reads as them.
#[test]
fn well_formed_areas_are_those_that_some_text_reads_as() {
    let (mut formed, mut not) = (0, 0);
    for seed in 0..6000 {
        let area = areas::area(&mut Random::new(seed));
        match decode(&area) {
            Some(table) => {
                let mut lent = [0; SIZE];
                assert!(matches!(
                    read(&print::text(&table), 0, &mut lent),
                    Answer::Table(_)
                ));
                assert_eq!(lent[..], area[..], "seed {seed}");
                formed += 1;
            }
            None => not += 1,
        }
    }
    assert!(formed > 1500 && not > 1500, "{formed} formed, {not} not");
}

#[test]
fn areas_with_one_thing_wrong() {
    let keep = common::area(common::KEEP);
    assert!(is_well_formed(&keep));
    for (place, byte) in [
        (0, 0),
        (0, 3),
        (0, 5),
        (0, 33),
        (0, 255),
        (1, b'9'),
        (2, b' '),
        (6, b'q'),
        (32, 1),
        (33, b'c'),
        (33, b'S'),
        (33, 0),
        (34, 0),
        (34, 1),
        (34, 3),
        (34, 10),
        (35, b'X'),
        (35, 0),
        (35, b'b'),
        (36, 0),
        (36, 2),
        (36, 4),
        (36, 65),
        (37, b'X'),
        (37, 0),
        (38, b'r'),
        (37, b'-'),
        (41, b'0'),
        (54, 1),
        (55, 0),
        (55, b'-'),
        (55, b'r'),
        (56, b'?'),
        (56, b'b'),
        (97, b'0'),
        (SIZE - 1, 1),
        (57, b'?'),
        (77, b'0'),
    ] {
        let mut area = keep;
        assert_ne!(area[place], byte, "place {place}");
        area[place] = byte;
        assert!(!is_well_formed(&area), "place {place}, byte {byte}");
    }
    for (place, byte) in [
        (1, b'K'),
        (35, b'0'),
        (35, b'1'),
        (38, b'1'),
        (76, b'-'),
        (75, b'b'),
    ] {
        let mut area = keep;
        area[place] = byte;
        assert!(is_well_formed(&area), "place {place}, byte {byte}");
    }
}

#[test]
fn reading_refuses_the_area_first_and_writes_only_tables() {
    let long = vec![b' '; TEXT_BYTES + 1];
    for size in [0, SIZE - 1, SIZE + 1] {
        let mut lent = vec![7; size];
        assert_eq!(
            read(&long, 0, &mut lent),
            Answer::Refused(Refusal::new(10, 0))
        );
        assert_eq!(lent, vec![7; size]);
    }
    let mut lent = [7; SIZE];
    assert_eq!(
        read(&long, 0, &mut lent),
        Answer::Refused(Refusal::new(1, TEXT_BYTES))
    );
    assert_eq!(read(b" ", 0, &mut lent), Answer::End);
    assert_eq!(
        read(b"z", 0, &mut lent),
        Answer::Refused(Refusal::new(3, 0))
    );
    assert_eq!(lent, [7; SIZE]);
}

/// The first refusal met when a text is read from primitive to primitive.
fn first_refusal(text: &[u8]) -> Option<Refusal> {
    let mut place = 0;
    loop {
        match find(text, place) {
            Ok(Found::Table(_, next)) => place = next,
            Ok(Found::End) => return None,
            Err(refusal) => return Some(refusal),
        }
    }
}

#[test]
fn faults_with_aim_hit_their_number_at_many_places() {
    for number in 1..=9u8 {
        let mut places = HashSet::new();
        let mut hits = 0;
        let rounds = if number == 1 { 60 } else { 600 };
        for seed in 0..rounds {
            let text = texts::with_fault(&mut Random::new(seed), number);
            if let Some(refusal) = first_refusal(&text).filter(|found| found.number == number) {
                hits += 1;
                places.insert(refusal.place);
            }
        }
        assert!(hits * 3 > rounds, "{number} hit {hits} times of {rounds}");
        assert!(
            number == 1 || places.len() > 60,
            "{number} at {} places",
            places.len()
        );
    }
}

#[test]
fn cases_hit_every_answer() {
    let mut numbers: HashMap<u8, usize> = HashMap::new();
    let (mut read_tables, mut ends) = (0, 0);
    for seed in 0..20_000 {
        let case = texts::case(&mut Random::new(seed));
        match find(&case.text, case.start) {
            Ok(Found::Table(..)) => read_tables += 1,
            Ok(Found::End) => ends += 1,
            Err(refusal) => *numbers.entry(refusal.number).or_default() += 1,
        }
    }
    assert!(
        read_tables > 2000 && ends > 500,
        "{read_tables} tables, {ends} ends"
    );
    for number in 1..=9 {
        let hits = numbers.get(&number).copied().unwrap_or(0);
        assert!(hits > 100, "{number} hit {hits} times");
    }
}

#[test]
fn sizes_at_the_limits() {
    let mut random = Random::new(11);
    for _ in 0..40 {
        let numbers = [
            first_refusal(&texts::largest(&mut random)),
            first_refusal(&texts::one_more_input(&mut random)),
            first_refusal(&texts::one_more_row(&mut random)),
            first_refusal(&texts::names_of(&mut random, NAME_BYTES)),
            first_refusal(&texts::names_of(&mut random, NAME_BYTES + 1)),
            first_refusal(&texts::of_length(&mut random, TEXT_BYTES)),
            first_refusal(&texts::of_length(&mut random, TEXT_BYTES + 1)),
        ];
        let numbers = numbers.map(|refusal| refusal.map_or(0, |refusal| refusal.number));
        assert_eq!(numbers, [0, 6, 6, 0, 4, 0, 1]);
    }
}

#[test]
fn the_largest_table_has_64_rows_often() {
    let rows = (0..40).map(|seed| {
        independent::same_steps(&mut Random::new(seed), INPUTS, ROWS)
            .rows
            .len()
    });
    assert!(rows.filter(|&rows| rows == ROWS).count() > 20);
}
