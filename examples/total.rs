// Adds up numbers. Each request is a number, and the line for it the sum so far, or `no number`.
//
// The sum is in a variable: the host keeps it. docs/WORKERS.md has the line that builds it.

use std::io;

fn main() -> io::Result<()> {
    let mut total: i64 = 0;
    for request in io::stdin().lines() {
        match request?.parse::<i64>().ok().and_then(|number| total.checked_add(number)) {
            Some(sum) => {
                total = sum;
                println!("{total}");
            }
            None => println!("no number"),
        }
    }
    Ok(())
}
