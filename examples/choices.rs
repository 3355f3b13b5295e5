// rustc --emit=mir -C panic=abort --crate-type=lib

pub fn max(a: u64, b: u64) -> u64 {
    if a < b { b } else { a }
}

pub fn is_digit(b: u8) -> bool {
    match b {
        48 => true,
        49 => true,
        _ => false,
    }
}

pub fn widen(b: u8) -> u64 {
    b as u64
}

pub fn swap(p: (u8, bool)) -> (bool, u8) {
    (p.1, p.0)
}

pub fn set(x: &mut u16) {
    *x = 7;
}
