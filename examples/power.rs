// rustc --emit=mir -C panic=abort --crate-type=lib -O

pub fn power(base: u64, exponent: u32) -> u64 {
    let mut result = 1;
    let mut square = base;
    let mut left = exponent;
    while left > 0 {
        if left & 1 == 1 {
            result = result * square;
        }
        square = square * square;
        left = left >> 1;
    }
    result
}
