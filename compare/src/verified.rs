//! The verified library's calls in the second implementation's types.

use bankplover::{Entry, Finding, Reading, Refusal, Witness};
use second::book::{Opened, Verdict};
use second::judge::{self, Judged};
use second::reading::Answer;

type Told<A> = Result<A, second::Refusal>;

pub fn refusal(refusal: Refusal) -> second::Refusal {
    second::Refusal::new(refusal.number, refusal.place)
}

pub fn read(text: &[u8], start: usize, area: &mut [u8]) -> Answer {
    match bankplover::read(text, start, area) {
        Ok(Reading::Table(next)) => Answer::Table(next),
        Ok(Reading::End) => Answer::End,
        Err(refused) => Answer::Refused(refusal(refused)),
    }
}

pub fn evaluate(area: &[u8], prev: &[u8], cur: &[u8], old: u8, order: &[u8]) -> Told<u8> {
    bankplover::evaluate(area, prev, cur, old, order).map_err(refusal)
}

/// Finding and square, which are two calls; both must refuse alike.
pub fn judge(area: &[u8]) -> Told<Judged> {
    let (finding, square) = (bankplover::judge(area), bankplover::square(area));
    if let (Err(finding), Err(square)) = (&finding, &square) {
        assert_eq!(finding, square, "judge and square refuse differently");
    }
    Ok(Judged {
        finding: finding.map(finding_of).map_err(refusal)?,
        square: square.map_err(refusal)?,
    })
}

fn finding_of(finding: Finding) -> judge::Finding {
    match finding {
        Finding::Independent => judge::Finding::Independent,
        Finding::Dependent(witness) => judge::Finding::Dependent(judge::Witness {
            prev: witness.prev,
            cur: witness.cur,
            old: witness.old,
            order1: witness.order1,
            out1: witness.out1,
            order2: witness.order2,
            out2: witness.out2,
        }),
    }
}

fn finding_for(finding: &judge::Finding) -> Finding {
    match finding.clone() {
        judge::Finding::Independent => Finding::Independent,
        judge::Finding::Dependent(witness) => Finding::Dependent(Witness {
            prev: witness.prev,
            cur: witness.cur,
            old: witness.old,
            order1: witness.order1,
            out1: witness.out1,
            order2: witness.order2,
            out2: witness.out2,
        }),
    }
}

pub fn open(book: &[u8], stated: usize) -> Told<Opened> {
    let opened = bankplover::open(book, stated).map_err(refusal)?;
    Ok(Opened {
        count: opened.entries,
        good: opened.good,
        torn: opened.torn,
    })
}

pub fn append(book: &mut [u8], stated: usize, verdict: &Verdict) -> Told<usize> {
    let entry = Entry {
        name: verdict.name.clone(),
        inputs: verdict.inputs,
        rows: verdict.rows,
        finding: finding_for(&verdict.finding),
    };
    bankplover::append(book, stated, &entry).map_err(refusal)
}

pub fn fetch(book: &[u8], stated: usize, k: usize) -> Told<Verdict> {
    let entry = bankplover::fetch(book, stated, k).map_err(refusal)?;
    Ok(Verdict {
        name: entry.name,
        inputs: entry.inputs,
        rows: entry.rows,
        finding: finding_of(entry.finding),
    })
}
