//! Document 01's own example and its "Run" bench cases.

use epanet_oracle::answer::run;

fn op(trials: u16) -> Vec<u8> {
    let mut s = b"OP".to_vec();
    for x in [0.001f64, 0.0, 0.0] {
        s.extend(x.to_le_bytes());
    }
    s.extend(trials.to_le_bytes());
    s.push(0);
    s
}

fn nd(kind: u8, elevation: f64, head: f64) -> Vec<u8> {
    let mut s = b"ND".to_vec();
    s.extend([kind, 0]);
    for x in [elevation, 0.0, head, 0.0, 0.0] {
        s.extend(x.to_le_bytes());
    }
    s.push(0);
    s
}

fn tcv(diameter: f64) -> Vec<u8> {
    let mut s = b"LK".to_vec();
    s.extend([5, 0, 2, 0, 0, 1, 0]);
    for x in [3.0, 1.0, diameter, 0.0, 1.0] {
        s.extend(f64::to_le_bytes(x));
    }
    s
}

#[test]
fn example() {
    let sheet = [op(40), nd(1, 0.0, 100.0), nd(0, 5.0, 0.0)].concat();
    assert_eq!(sheet.len(), 119);
    assert_eq!(
        run(&sheet).listing(),
        "A 0 0 2 0 1\nT GN 1\nT OK 0\n\
         N 0 4059000000000000 0000000000000000\n\
         N 1 0000000000000000 0000000000000000\n\
         B 0000000000000000 0000000000000000 0000000000000000\n"
    );
}

#[test]
fn bounds() {
    let with = |n: usize, trials| {
        let mut s = op(trials);
        s.extend(nd(1, 0.0, 100.0));
        s.extend(nd(0, 5.0, 0.0).repeat(n - 1));
        let a = run(&s);
        (a.number, a.place)
    };
    assert_eq!(with(64, 200), (0, 0));
    assert_eq!(with(65, 200), (2, 0));
    assert_eq!(with(2, 201), (3, 0));
    assert_eq!(run(&[]).listing(), "A 1 0 0 0 0\n");
    let pair = [op(40), nd(1, 0.0, 100.0), nd(0, 5.0, 0.0)].concat();
    let least: f64 = 1.0 / 1024.0;
    let under = f64::from_bits(least.to_bits() - 1);
    assert_eq!(run(&[pair.clone(), tcv(least)].concat()).number, 0);
    let a = run(&[pair, tcv(under)].concat());
    assert_eq!((a.number, a.place), (3, 119));
}
