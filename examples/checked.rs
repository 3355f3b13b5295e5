// rustc --emit=mir -C panic=abort --crate-type=lib

pub fn add(a: i32, b: i32) -> i32 {
    let s = a + b;
    s
}

pub fn fact(n: u64) -> u64 {
    if n == 0 { 1 } else { n * fact(n - 1) }
}
