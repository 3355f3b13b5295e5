// rustc --emit=mir -C panic=abort --crate-type=lib
// at the head of grey.mir: struct Colour { red: u8, green: u8, blue: u8 }

pub struct Colour {
    red: u8,
    green: u8,
    blue: u8,
}

pub fn grey(packed: u32) -> u32 {
    let colour = Colour {
        red: (packed >> 16) as u8,
        green: (packed >> 8) as u8,
        blue: packed as u8,
    };
    let sum = colour.red as u32 + colour.green as u32 + colour.blue as u32;
    let level = sum / 3;
    (level << 16) | (level << 8) | level
}
