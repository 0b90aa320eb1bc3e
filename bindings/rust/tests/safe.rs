//! What no sheet may do to the functions, and calls from several threads.

use ndurabeew::{solve, verdict, How, Limits, Trials};

/// A reservoir of head 100 and a junction with no link: document 01's sheet of 119 bytes.
fn smallest() -> Vec<u8> {
    let mut sheet = b"OP".to_vec();
    for x in [0.001f64, 0.0, 0.0] {
        sheet.extend(x.to_le_bytes());
    }
    sheet.extend([40, 0, 0]);
    for (kind, elevation, head) in [(1u8, 0.0f64, 100.0f64), (0, 5.0, 0.0)] {
        sheet.extend(b"ND");
        sheet.extend([kind, 0]);
        for x in [elevation, 0.0, head, 0.0, 0.0] {
            sheet.extend(x.to_le_bytes());
        }
        sheet.push(0);
    }
    sheet
}

#[test]
fn any_bytes_are_taken() {
    for sheet in [&b""[..], b"O", b"OP", &[0; 100_000], b"not a sheet at all"] {
        let answer = solve(sheet);
        assert_eq!((answer.number, answer.place), (1, 0));
        assert!(answer.heads.is_empty() && answer.statuses.is_empty() && answer.record.is_empty());
        assert_eq!(verdict(sheet, &Limits::default()).1.number, 1);
    }
}

#[test]
fn the_smallest_sheet_is_repaired_and_not_sold() {
    let (answer, told) = verdict(&smallest(), &Limits::default());
    assert_eq!((answer.number, answer.trials, answer.grounded), (0, 2, 1));
    assert_eq!(answer.heads, [100.0, 0.0]);
    assert_eq!((answer.record[0].mark, answer.record[0].number), (*b"GN", 1));
    assert_eq!((told.number, told.place), (2, 0));
    assert!(!told.may_be_sold());
    assert_eq!(solve(&smallest()), answer);
}

#[test]
fn threads_get_what_one_gets() {
    let alone = solve(&smallest());
    let threads: Vec<_> = (0..8).map(|_| std::thread::spawn(|| (0..100).map(|_| solve(&smallest())).collect::<Vec<_>>())).collect();
    for thread in threads {
        assert!(thread.join().unwrap().iter().all(|answer| *answer == alone));
    }
}

#[test]
fn trials_one_by_one_are_the_whole_solve() {
    let sheet = smallest();
    let mut trials = Trials::start(&sheet);
    let mut taken = 0;
    while trials.told().how == How::More {
        trials = trials.answer().err().unwrap();
        taken += 1;
        assert_eq!(trials.take().trials, taken);
        assert_eq!(trials.record().len() as u64, taken);
    }
    assert_eq!(trials.state().grounded[..3], [0, 1, 0]);
    let told = trials.told();
    let held = trials.state().clone();
    assert_eq!(trials.take(), told);
    assert_eq!(*trials.state(), held);
    assert_eq!(trials.answer().ok().unwrap(), solve(&sheet));
}

#[test]
fn no_trial_follows_a_refused_start() {
    let mut trials = Trials::start(b"OP");
    let told = trials.told();
    assert_eq!((told.how, told.number, told.place), (How::Refused, 1, 0));
    assert_eq!(trials.take(), told);
    assert_eq!(trials.answer().ok().unwrap(), solve(b"OP"));
}
