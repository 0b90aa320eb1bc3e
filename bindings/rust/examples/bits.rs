//! bits SHEET...: the verdict and the listing of each sheet, as the program `verdict` prints them.

use ndurabeew::{verdict, Limits};

fn main() {
    for path in std::env::args().skip(1) {
        let sheet = std::fs::read(&path).expect("a sheet");
        let (a, v) = verdict(&sheet, &Limits::default());
        println!("V {} {}", v.number, v.place);
        println!("A {} {} {} {} {}", a.number, a.place, a.trials, a.freed, a.grounded);
        for entry in &a.record {
            println!("T {} {}", String::from_utf8_lossy(&entry.mark), entry.number);
        }
        for (i, (head, demand)) in a.heads.iter().zip(&a.demands).enumerate() {
            println!("N {} {:016x} {:016x}", i, head.to_bits(), demand.to_bits());
        }
        for (i, (flow, status)) in a.flows.iter().zip(&a.statuses).enumerate() {
            println!("L {} {:016x} {}", i, flow.to_bits(), status);
        }
        if a.number == 0 {
            println!("B {:016x} {:016x} {:016x}", a.total_demand.to_bits(), a.total_supply.to_bits(), a.error.to_bits());
        }
        println!("--");
    }
}
