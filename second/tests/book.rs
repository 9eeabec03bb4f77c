//! The book: lines, opening, append, fetch, and every state a cut may leave.

mod common;

use common::dependent;
use second::book::cut::Pending;
use second::book::{append, entry, fetch, open, Opened, Verdict};
use second::generate::books;
use second::generate::lines;
use second::generate::random::Random;
use second::generate::verdicts;
use second::judge::Finding;
use second::Refusal;
use std::collections::HashSet;

fn independent(name: &str) -> Verdict {
    Verdict {
        name: name.into(),
        inputs: 1,
        rows: 1,
        finding: Finding::Independent,
    }
}

#[test]
fn lines_that_fail() {
    let good = "keep 2 3 D 01 10 0 12 1 21 0 @00000\n";
    assert!(entry::read(good.as_bytes(), 0).is_some());
    for (from, to) in [
        ("keep", ""),
        ("keep", "table"),
        ("keep", "9"),
        ("keep", "k-p"),
        (" 2 ", " 0 "),
        (" 2 ", " 10 "),
        (" 2 ", " 02 "),
        (" 2 ", " 3 "),
        (" 3 ", " 0 "),
        (" 3 ", " 65 "),
        (" 3 ", " 03 "),
        (" D ", " d "),
        (" D ", " I "),
        (" D ", "  D "),
        ("01", "0X"),
        ("01", "010"),
        ("10 0", "11 0"),
        ("10 0", "01 0"),
        (" 0 12", " X 12"),
        ("12 1", "21 1"),
        ("12 1", "1 1"),
        ("21 0", "12 0"),
        ("21 0", "21 1"),
        ("21 0", "21 b"),
        ("@00000", "@00001"),
        ("@00000", "@0000"),
        ("@00000", "@000000"),
        ("@00000", "00000"),
        ("\n", "\r\n"),
        ("\n", " \n"),
        (" @", "@"),
        ("keep", &"k".repeat(33)),
        (" @", " 0 @"),
        (" 0 @", " @"),
    ] {
        let line = good.replacen(from, to, 1);
        assert_ne!(line, good);
        assert_eq!(entry::read(line.as_bytes(), 0), None, "{line}");
        let book = format!("{good}{}", line.replace("@00000", "@00036"));
        let refused = Err(Refusal::new(13, 36));
        assert_eq!(open(book.as_bytes(), book.len()), refused, "{line}");
    }
}

#[test]
fn names_may_repeat_and_torn_bytes_are_never_judged() {
    let book = b"a 1 1 I @00000\na 1 1 I @00015\n\0\xff@@ 9";
    let opened = Opened {
        count: 2,
        good: 30,
        torn: 6,
    };
    assert_eq!(open(book, book.len()), Ok(opened));
    assert_eq!(open(book, 30), Ok(Opened { torn: 0, ..opened }));
    assert_eq!(
        open(book, 29),
        Ok(Opened {
            count: 1,
            good: 15,
            torn: 14
        })
    );
    assert_eq!(fetch(book, 29, 1), Ok(independent("a")));
    assert_eq!(fetch(book, 29, 2), Err(Refusal::new(16, 0)));
    assert_eq!(fetch(book, 30, 0), Err(Refusal::new(16, 0)));
    assert_eq!(
        open(b"torn", 4),
        Ok(Opened {
            count: 0,
            good: 0,
            torn: 4
        })
    );
}

#[test]
fn stated_length_above_the_smaller_of_buffer_and_limit() {
    assert_eq!(open(b"\n", 2), Err(Refusal::new(13, 1)));
    assert_eq!(open(&[b' '; 70_000], 65_537), Err(Refusal::new(13, 65_536)));
    assert_eq!(
        open(&[b' '; 70_000], 65_536),
        Ok(Opened {
            count: 0,
            good: 0,
            torn: 65_536
        })
    );
    assert_eq!(
        append(&mut [], 1, &independent("")),
        Err(Refusal::new(13, 0))
    );
    assert_eq!(fetch(b"", usize::MAX, 0), Err(Refusal::new(13, 0)));
}

#[test]
fn append_refuses_in_order_and_changes_nothing() {
    let mut small = [b'#'; 14];
    assert_eq!(
        append(&mut small, 3, &independent("a")),
        Err(Refusal::new(15, 0))
    );
    assert_eq!(
        append(&mut small, 3, &independent("")),
        Err(Refusal::new(14, 0))
    );
    assert_eq!(
        append(&mut small, 15, &independent("")),
        Err(Refusal::new(13, 14))
    );
    assert_eq!(small, [b'#'; 14]);
}

#[test]
fn append_keeps_the_stated_length_where_torn_bytes_reach_further() {
    let mut book = [b'#'; 40];
    assert_eq!(append(&mut book, 20, &independent("a")), Ok(20));
    assert_eq!(&book[..20], b"a 1 1 I @00000\n#####");
    assert_eq!(append(&mut book, 20, &independent("b")), Ok(30));
    assert_eq!(&book[..], b"a 1 1 I @00000\nb 1 1 I @00015\n##########");
}

#[test]
fn fitting_verdicts_come_back_and_faulty_ones_are_refused() {
    for seed in 0..3000 {
        let mut random = Random::new(seed);
        let mut buffer = vec![0; 200];
        let verdict = verdicts::verdict(&mut random);
        let stated = append(&mut buffer, 0, &verdict).unwrap();
        assert!(stated <= 93);
        assert_eq!(fetch(&buffer, stated, 1), Ok(verdict));
        let faulty = verdicts::faulty(&mut random);
        assert_eq!(
            append(&mut buffer, stated, &faulty),
            Err(Refusal::new(14, 0)),
            "{faulty:?}"
        );
    }
    assert_eq!(
        entry::write(&verdicts::longest(&mut Random::new(1)), 0)
            .unwrap()
            .len(),
        93
    );
}

/// Every state before the LF reopens to the entries before, every state after to all of them.
fn reopen_all(held: &[u8], verdict: &Verdict) -> usize {
    let mut buffer = held.to_vec();
    buffer.resize(held.len() + 100, b'#');
    let before = open(&buffer, held.len()).unwrap();
    let pending = Pending::new(&buffer, held.len(), verdict).unwrap();
    let whole = pending.whole();
    let stated = append(&mut buffer, held.len(), verdict).unwrap();
    assert_eq!(whole, buffer[..stated]);
    let mut states = 0;
    pending.each(|file| {
        let opened = open(file, file.len()).unwrap();
        if file == whole {
            assert_eq!(opened.count, before.count + 1);
            assert_eq!(fetch(file, file.len(), opened.count).as_ref(), Ok(verdict));
        } else {
            assert_eq!((opened.count, opened.good), (before.count, before.good));
            assert_eq!(opened.torn, file.len() - before.good);
        }
        states += 1;
    });
    states
}

#[test]
fn every_cut_of_a_short_entry() {
    // Lengths 0 to 15: two choices at each held place but the LF's, which has one; and the whole.
    assert_eq!(
        reopen_all(b"", &independent("a")),
        (1 << 15) - 1 + (1 << 14) + 1
    );
    // Four torn bytes have three choices each; the file never gets shorter than they reach.
    let torn = reopen_all(b"a 1 1 I @00000\n####", &independent("b"));
    let longer: usize = (0..=10).map(|k| 81 << k).sum();
    assert_eq!(torn, longer + (81 << 10) + 1);
}

#[test]
fn every_cut_within_long_torn_bytes() {
    // Fifteen zero bytes torn: new byte or zero at each of 14 places, one length only.
    assert_eq!(reopen_all(&[0; 20], &independent("a")), (1 << 14) + 1);
}

#[test]
fn sampled_cuts_are_among_all_cuts() {
    let mut all = HashSet::new();
    let pending = Pending::new(&[b'#'; 60], 2, &independent("a")).unwrap();
    pending.each(|file| {
        all.insert(file.to_vec());
    });
    let mut random = Random::new(3);
    let mut sampled = HashSet::new();
    for _ in 0..500 {
        let file = pending.sample_any(&mut random);
        assert!(all.contains(&file));
        sampled.insert(file);
    }
    assert!(sampled.len() > 200, "{} different states", sampled.len());
}

#[test]
fn runs_with_cuts_keep_exactly_the_stored_verdicts() {
    let mut torn = 0;
    for seed in 0..2000 {
        let (lent, stored) = books::run(&mut Random::new(seed));
        let opened = open(&lent.buffer, lent.stated).unwrap();
        assert_eq!(opened.count, stored.len(), "seed {seed}");
        torn += usize::from(opened.torn > 0);
        for (k, verdict) in stored.iter().enumerate() {
            assert_eq!(
                fetch(&lent.buffer, lent.stated, k + 1).as_ref(),
                Ok(verdict)
            );
        }
    }
    assert!(torn > 200, "{torn} runs end torn");
}

#[test]
fn damaged_lines_mostly_fail() {
    let mut failed = 0;
    for seed in 0..4000 {
        let line = lines::damaged(&mut Random::new(seed), 0);
        assert!(line.ends_with(b"\n"));
        failed += usize::from(entry::read(&line, 0).is_none());
    }
    assert!(failed > 3400, "{failed} of 4000 fail");
}

#[test]
fn lent_books_are_of_every_kind() {
    let (mut sound, mut torn, mut lines, mut lengths) = (0, 0, 0, 0);
    for seed in 0..2000 {
        let lent = books::lent(&mut Random::new(seed));
        match open(&lent.buffer, lent.stated) {
            Ok(opened) if opened.torn > 0 => torn += 1,
            Ok(_) => sound += 1,
            Err(refusal) if refusal.place == lent.buffer.len().min(65_536) => lengths += 1,
            Err(_) => lines += 1,
        }
    }
    assert!([sound, torn, lines, lengths].iter().all(|&kind| kind > 60));
}

#[test]
fn a_dependent_verdict_of_one_input_does_not_fit() {
    let finding = dependent("0 1 0 1 1 1 0");
    let verdict = Verdict {
        name: b"a".to_vec(),
        inputs: 1,
        rows: 1,
        finding,
    };
    assert!(!verdict.fits());
}
