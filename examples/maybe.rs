// rustc --emit=mir -C panic=abort --crate-type=lib
// at the head of maybe.mir: enum Maybe { None, Some(u32) }

pub enum Maybe {
    None,
    Some(u32),
}

pub fn divided(a: u32, b: u32) -> Maybe {
    if b == 0 { Maybe::None } else { Maybe::Some(a / b) }
}

pub fn or_zero(found: Maybe) -> u32 {
    match found {
        Maybe::None => 0,
        Maybe::Some(value) => value,
    }
}

pub fn ratio(a: u32, b: u32) -> u32 {
    let found = divided(a, b);
    or_zero(found)
}
