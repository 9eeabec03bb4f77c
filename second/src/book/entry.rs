//! One entry of the book as a line.

use crate::judge::{pair_first, Finding, Witness};
use crate::limits::{INPUTS, ROWS};
use crate::name::is_name;
use crate::table::Table;
use crate::value::Value;

/// What is stored of one judged primitive; a lent one may hold anything.
#[derive(Clone, PartialEq, Eq, Debug)]
pub struct Verdict {
    pub name: Vec<u8>,
    pub inputs: usize,
    pub rows: usize,
    pub finding: Finding,
}

impl Verdict {
    pub fn of(table: &Table, finding: Finding) -> Verdict {
        let (inputs, rows) = (table.inputs, table.rows.len());
        Verdict {
            name: table.name.clone(),
            inputs,
            rows,
            finding,
        }
    }

    pub fn fits(&self) -> bool {
        is_name(&self.name)
            && (1..=INPUTS).contains(&self.inputs)
            && (1..=ROWS).contains(&self.rows)
            && match &self.finding {
                Finding::Independent => true,
                Finding::Dependent(witness) => witness_fits(witness, self.inputs),
            }
    }
}

fn witness_fits(witness: &Witness, n: usize) -> bool {
    let values = [witness.old, witness.out1, witness.out2];
    let vectors = [&witness.prev, &witness.cur];
    vectors
        .iter()
        .all(|vector| vector.len() == n && vector.iter().all(|&byte| is_value(byte)))
        && values.iter().all(|&byte| is_value(byte))
        && witness.out1 != witness.out2
        && orders_fit(witness, n)
}

fn orders_fit(witness: &Witness, n: usize) -> bool {
    let changed: Vec<usize> = (0..n)
        .filter(|&k| witness.prev[k] != witness.cur[k])
        .collect();
    match changed[..] {
        [i, j] => witness.order1 == pair_first(n, i, j) && witness.order2 == pair_first(n, j, i),
        _ => false,
    }
}

fn is_value(byte: u8) -> bool {
    Value::from_byte(byte).is_some()
}

/// The fields of a fitting verdict without space and trailer, as the lister prints them.
pub fn fields(verdict: &Verdict) -> Option<Vec<u8>> {
    if !verdict.fits() {
        return None;
    }
    let mut out = verdict.name.clone();
    out.extend(format!(" {} {} ", verdict.inputs, verdict.rows).bytes());
    match &verdict.finding {
        Finding::Independent => out.push(b'I'),
        Finding::Dependent(witness) => add_witness(&mut out, witness),
    }
    Some(out)
}

fn add_witness(out: &mut Vec<u8>, witness: &Witness) {
    let digits = |order: &[u8]| {
        order
            .iter()
            .map(|number| b'0' + number)
            .collect::<Vec<u8>>()
    };
    let fields = [
        b"D".to_vec(),
        witness.prev.clone(),
        witness.cur.clone(),
        vec![witness.old],
        digits(&witness.order1),
        vec![witness.out1],
        digits(&witness.order2),
        vec![witness.out2],
    ];
    out.extend(fields.join(&b' '));
}

/// The whole entry that starts at `place`, or nothing for a verdict that does not fit the layout.
pub fn write(verdict: &Verdict, place: usize) -> Option<Vec<u8>> {
    let mut line = fields(verdict)?;
    line.extend(format!(" @{place:05}\n").bytes());
    Some(line)
}

/// The verdict of a line that starts at `place`; only the exact form counts.
pub fn read(line: &[u8], place: usize) -> Option<Verdict> {
    let text = line.strip_suffix(b"\n")?;
    let fields: Vec<&[u8]> = text.split(|&byte| byte == b' ').collect();
    let finding = match fields[..] {
        [_, _, _, b"I", _] => Finding::Independent,
        [_, _, _, b"D", prev, cur, old, order1, out1, order2, out2, _] => {
            Finding::Dependent(witness([prev, cur, old, order1, out1, order2, out2])?)
        }
        _ => return None,
    };
    let name = fields[0].to_vec();
    let verdict = Verdict {
        name,
        inputs: number(fields[1])?,
        rows: number(fields[2])?,
        finding,
    };
    (write(&verdict, place)? == line).then_some(verdict)
}

fn witness([prev, cur, old, order1, out1, order2, out2]: [&[u8]; 7]) -> Option<Witness> {
    Some(Witness {
        prev: prev.to_vec(),
        cur: cur.to_vec(),
        old: single(old)?,
        order1: order(order1)?,
        out1: single(out1)?,
        order2: order(order2)?,
        out2: single(out2)?,
    })
}

fn single(field: &[u8]) -> Option<u8> {
    match field {
        [byte] => Some(*byte),
        _ => None,
    }
}

fn order(field: &[u8]) -> Option<Vec<u8>> {
    field.iter().map(|digit| digit.checked_sub(b'0')).collect()
}

/// At most two digits are of use, so longer fields need no care for overflow.
fn number(field: &[u8]) -> Option<usize> {
    if field.is_empty() || field.len() > 2 || !field.iter().all(u8::is_ascii_digit) {
        return None;
    }
    Some(
        field
            .iter()
            .fold(0, |sum, digit| sum * 10 + usize::from(digit - b'0')),
    )
}
