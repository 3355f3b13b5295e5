// rustc --emit=mir -C panic=abort --crate-type=lib

pub fn clamp(value: i32, low: i32, high: i32) -> i32 {
    let below = value < low;
    let above = value > high;
    let outside = below || above;
    if outside {
        if below { low } else { high }
    } else {
        value
    }
}
