// rustc --emit=mir -C panic=abort --crate-type=lib

pub fn range(a: u32, b: u32, c: u32) -> u32 {
    let (low, high) = if a < b { (a, b) } else { (b, a) };
    let low = if c < low { c } else { low };
    let high = if c > high { c } else { high };
    high - low
}
