// rustc --emit=mir -C panic=abort --crate-type=lib -O

pub fn fibonacci(n: u32) -> u64 {
    let mut pair = (0_u64, 1_u64);
    let mut done = 0;
    while done < n {
        pair = (pair.1, pair.0 + pair.1);
        done = done + 1;
    }
    pair.0
}
