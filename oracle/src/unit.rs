//! The unit coefficients: what the Rust's own `compute_r` yields at factor 1.0, for the orders 1 to 5.
use crate::words::hex;

type Float = f64;

// The function as it stands in the published text, where it is private: oracle/build takes it out.
include!("../../target/oracle/compute_r.rs");

const ORDERS: std::ops::RangeInclusive<usize> = 1..=5;

/// As `show_unit` prints them: a line for each row of each order, `U`, the order, the row's number, and the entries by their bits.
pub fn bits() -> String {
    let mut text = String::new();
    for order in ORDERS {
        for (i, row) in compute_r(order, 1.0).iter().enumerate() {
            let entries: String = row.iter().map(|&x| format!(" {}", hex(x))).collect();
            text += &format!("U {order} {i}{entries}\n");
        }
    }
    text
}

/// As docs/UNIT-COEFFICIENTS.md has them: a table for each order, an entry in decimal and by its bits.
pub fn page() -> String {
    let mut text = String::new();
    for order in ORDERS {
        let heads: String = (0..=order).map(|j| format!(" {j} |")).collect();
        text += &format!("## Order {order}\n\n| i \\ j |{heads}\n|---|{}\n", "---|".repeat(order + 1));
        for (i, row) in compute_r(order, 1.0).iter().enumerate() {
            let entries: String = row.iter().map(|&x| format!(" {x} `{}` |", hex(x))).collect();
            text += &format!("| {i} |{entries}\n");
        }
        text += "\n";
    }
    text
}
