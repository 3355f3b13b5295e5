// rustc --emit=mir -C panic=abort --crate-type=lib
// at the head of words.mir: extern fn next_byte() -> u8;
// at the head of words.mir: extern fn word(u32) -> ();

extern "C" {
    fn next_byte() -> u8;
    fn word(length: u32);
}

pub fn words(bytes: u32) -> u32 {
    let mut left = bytes;
    let mut inside = false;
    let mut length = 0;
    let mut count = 0;
    while left > 0 {
        let byte = unsafe { next_byte() };
        let letter = byte >= b'a' && byte <= b'z';
        if letter {
            if !inside {
                inside = true;
                length = 0;
                count = count + 1;
            }
            length = length + 1;
        } else if inside {
            inside = false;
            unsafe { word(length) };
        }
        left = left - 1;
    }
    count
}
