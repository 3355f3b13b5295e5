// rustc --emit=mir -C panic=abort --crate-type=lib
// at the head of compare.mir: enum Sign { Minus, Zero, Plus }

pub enum Sign {
    Minus,
    Zero,
    Plus,
}

pub fn compare(a: i32, b: i32) -> i32 {
    let sign = if a < b {
        Sign::Minus
    } else if a == b {
        Sign::Zero
    } else {
        Sign::Plus
    };
    match sign {
        Sign::Minus => -1,
        Sign::Zero => 0,
        Sign::Plus => 1,
    }
}
