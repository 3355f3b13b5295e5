// rustc --emit=mir -C panic=abort --crate-type=lib -C overflow-checks=off

pub fn collatz(start: u64) -> u32 {
    let mut n = start;
    let mut steps = 0;
    while n != 1 {
        let even = n % 2 == 0;
        n = if even { n / 2 } else { 3 * n + 1 };
        steps = steps + 1;
    }
    steps
}
