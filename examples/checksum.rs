// rustc --emit=mir -C panic=abort --crate-type=lib -C overflow-checks=off
// at the head of checksum.mir: extern fn next_byte() -> u8;

extern "C" {
    fn next_byte() -> u8;
}

pub fn checksum(count: u32) -> u16 {
    let mut low = 1_u16;
    let mut high = 0_u16;
    let mut read = 0;
    while read < count {
        let byte = unsafe { next_byte() };
        low = (low + byte as u16) % 251;
        high = (high + low) % 251;
        read = read + 1;
    }
    (high << 8) | low
}
