//! Three judges of one question, and evaluation under them.

mod common;

use common::table;
use second::area::encode;
use second::evaluation::{along, evaluate};
use second::generate::independent;
use second::generate::random::Random;
use second::generate::tables;
use second::judge::all_orders::{full_orders, is_independent};
use second::judge::{fast, judge, pairwise, Finding, Judged};
use second::limits::{INPUTS, ROWS};
use second::table::Table;
use second::value::{vector, Value};
use second::Refusal;

/// Compares all judges and answers whether the table is independent.
fn judged_alike(table: &Table, seed: u64) -> bool {
    let fast = fast::judge(table);
    assert_eq!(fast, pairwise::judge(table), "seed {seed}: {table:?}");
    assert_eq!(fast.finding, fast::finding(table), "seed {seed}: {table:?}");
    let independent = fast.finding == Finding::Independent;
    if table.inputs <= 3 || (table.inputs == 4 && seed.is_multiple_of(20)) {
        assert_eq!(independent, is_independent(table), "seed {seed}: {table:?}");
    }
    assert_eq!(
        independent,
        fast.square.iter().flatten().all(|&yes| yes),
        "seed {seed}"
    );
    independent
}

#[test]
fn judges_agree_on_small_tables() {
    let mut independent = 0;
    for seed in 0..6000 {
        let mut random = Random::new(seed);
        let inputs = *random.pick(&[1, 2, 2, 2, 2, 3, 3, 3, 4]);
        let table = tables::sized(&mut random, inputs);
        independent += usize::from(judged_alike(&table, seed));
    }
    assert!(
        (1200..4800).contains(&independent),
        "both verdicts have a good share: {independent}"
    );
}

#[test]
fn judges_agree_on_tables_of_five_and_six_inputs() {
    for seed in 0..60 {
        let mut random = Random::new(1_000_000 + seed);
        let inputs = random.between(5, 6);
        let table = tables::sized(&mut random, inputs);
        assert_eq!(
            fast::judge(&table),
            pairwise::judge(&table),
            "seed {seed}: {table:?}"
        );
    }
}

/// Both orders of a witness give what it says, on tables too large for the plain judges.
#[test]
fn witnesses_of_large_tables_hold() {
    let mut dependent = 0;
    for seed in 0..60 {
        let mut random = Random::new(2_000_000 + seed);
        let inputs = random.between(7, INPUTS);
        let table = tables::sized(&mut random, inputs);
        let Finding::Dependent(witness) = fast::finding(&table) else {
            continue;
        };
        let (prev, cur) = (
            vector(&witness.prev).unwrap(),
            vector(&witness.cur).unwrap(),
        );
        let old = Value::from_byte(witness.old).unwrap();
        let output = |order| along(&table, &prev, &cur, old, order).byte();
        assert_eq!(output(&witness.order1), witness.out1);
        assert_eq!(output(&witness.order2), witness.out2);
        assert_ne!(witness.out1, witness.out2);
        dependent += 1;
    }
    assert!(dependent > 10, "{dependent} dependent tables");
}

#[test]
fn independent_makers_make_independent_tables() {
    for seed in 0..6 {
        let mut random = Random::new(seed);
        for table in [
            independent::combinational(&mut random, INPUTS, ROWS),
            independent::level_rows(&mut random, INPUTS, ROWS),
            independent::same_steps(&mut random, INPUTS, ROWS),
        ] {
            assert!(table.is_valid());
            assert!(table.rows.len() > 60);
            let yes = [[true; 9]; 9];
            let judged = Judged {
                finding: Finding::Independent,
                square: yes,
            };
            assert_eq!(fast::judge(&table), judged);
        }
    }
}

/// Random pairs of full orders find no difference where the fast judge says there is none.
#[test]
fn full_orders_agree_on_large_independent_tables() {
    let orders = full_orders(INPUTS);
    assert_eq!(orders.len(), 362_880);
    let mut random = Random::new(5);
    for _ in 0..30 {
        let table = independent::any(&mut random, INPUTS);
        for _ in 0..200 {
            let mut pick = || *random.pick(&Value::ALL);
            let prev: Vec<Value> = (0..INPUTS).map(|_| pick()).collect();
            let cur: Vec<Value> = (0..INPUTS).map(|_| pick()).collect();
            let old = pick();
            let [a, b] = [random.pick(&orders), random.pick(&orders)];
            assert_eq!(
                along(&table, &prev, &cur, old, a),
                along(&table, &prev, &cur, old, b)
            );
        }
    }
}

#[test]
fn orders_are_listed_once_and_rising() {
    for (n, count) in [(1, 1), (2, 2), (3, 6), (4, 24)] {
        let orders = full_orders(n);
        assert_eq!(orders.len(), count);
        assert!(orders.windows(2).all(|two| two[0] < two[1]));
    }
}

const FLIP_FLOP: &str = "primitive prim_ff_en(q, d, ck, en);
    output q; reg q; input d, ck, en;
    table
    0 (01) 1:?:0; 1 (01) 1:?:1; ? (10) ?:?:-; * ? ?:?:-; ? ? 0:?:-; ? ? *:?:-;
    endtable endprimitive";

const FLIP_FLOP_WITH_RESET: &str = "primitive prim_ff_en_rst(q, d, ck, en, rst);
    output q; reg q; input d, ck, en, rst;
    table
    0 (01) 1 ?:?:0; 1 (01) 1 0:?:1; ? (10) ? 0:?:-; * ? ? 0:?:-; ? ? 0 0:?:-; ? ? * 0:?:-;
    ? ? ? 1:?:0; ? ? ? *:0:0;
    endtable endprimitive";

fn output(table: &Table, prev: &str, cur: &str, old: Value, order: &[u8]) -> char {
    let [prev, cur] = [prev, cur].map(|bytes| vector(bytes.as_bytes()).unwrap());
    along(table, &prev, &cur, old, order).byte() as char
}

/// Source 000, figure 1: d and en commute, d and ck do not.
#[test]
fn flip_flop_with_enable_of_source_000() {
    let table = table(FLIP_FLOP);
    let judged = fast::judge(&table);
    assert_eq!(judged, pairwise::judge(&table));
    assert_eq!([judged.square[0][1], judged.square[0][2]], [false, true]);
    for old in Value::ALL {
        assert_eq!(output(&table, "001", "111", old, &[2, 1, 3]), '0');
        assert_eq!(output(&table, "001", "111", old, &[1, 2, 3]), '1');
    }
}

/// Source 000, figure 3: among inputs 0 and 1, d and rst disagree only from rst at 1 and old output 1 or x.
#[test]
fn flip_flop_with_reset_of_source_000() {
    let table = table(FLIP_FLOP_WITH_RESET);
    let judged = fast::judge(&table);
    assert_eq!(judged, pairwise::judge(&table));
    assert!(!judged.square[0][3] && !judged.square[1][2]);
    assert_eq!(output(&table, "0000", "0110", Value::One, &[2, 3]), '1');
    assert_eq!(output(&table, "0000", "0110", Value::One, &[3, 2]), '0');
    let mut seen = 0;
    for case in 0..3 << 6 {
        let value = |k: usize| Value::ALL[case >> k & 1];
        let old = Value::ALL[case >> 6];
        let prev = [value(0), value(1), value(2), value(3)];
        let cur = [value(4), value(1), value(2), value(5)];
        let outputs = [[1, 4], [4, 1]].map(|order| along(&table, &prev, &cur, old, &order));
        if outputs[0] != outputs[1] {
            assert_eq!(prev[3], Value::One);
            assert_ne!(old, Value::Zero);
            seen += 1;
        }
    }
    assert!(seen > 0);
}

#[test]
fn refusals_of_evaluation_and_judging() {
    let keep = common::area(common::KEEP);
    let mut broken = keep;
    broken[40] = b'!';
    let ten = Err(Refusal::new(10, 0));
    assert_eq!(evaluate(&broken, b"0", b"2", b'z', &[7, 7]), ten);
    assert_eq!(judge(&broken), Err(Refusal::new(10, 0)));
    assert_eq!(judge(&keep[1..]), Err(Refusal::new(10, 0)));
    let eleven = Err(Refusal::new(11, 0));
    for (prev, cur, old) in [
        ("0", "00", b'0'),
        ("000", "00", b'0'),
        ("00", "", b'0'),
        ("0X", "00", b'0'),
        ("00", "0?", b'0'),
        ("00", "00", b'X'),
        ("00", "00", 0),
        ("00", "0\0", b'1'),
    ] {
        assert_eq!(
            evaluate(&keep, prev.as_bytes(), cur.as_bytes(), old, &[9]),
            eleven
        );
    }
    for (order, index) in [
        (&[0][..], 0),
        (&[1, 3], 1),
        (&[1, 1], 1),
        (&[1, 2, 1], 2),
        (&[2, 1, 0], 2),
        (b"1", 0),
    ] {
        assert_eq!(
            evaluate(&keep, b"00", b"11", b'0', order),
            Err(Refusal::new(12, index))
        );
    }
}

#[test]
fn a_level_row_wins_over_an_edge_row_wherever_it_stands() {
    let text = common::sequential("p", "? r:?:0; 1 1:?:1;");
    let area = encode(&table(&text));
    assert_eq!(evaluate(&area, b"10", b"11", b'x', &[2]), Ok(b'1'));
    assert_eq!(evaluate(&area, b"00", b"01", b'x', &[2]), Ok(b'0'));
    assert_eq!(evaluate(&area, b"00", b"11", b'x', &[2, 1]), Ok(b'1'));
}
