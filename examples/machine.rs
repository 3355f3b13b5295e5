// rustc --emit=mir -C panic=abort --crate-type=lib -O

pub fn machine(mut turns: u32) -> u32 {
    let mut state = 0_u8;
    let mut seen = 0_u32;
    loop {
        match state {
            0 => {
                if turns == 0 {
                    return seen;
                }
                state = 1;
            }
            1 => {
                seen = seen ^ turns;
                state = 2;
            }
            _ => {
                turns = turns - 1;
                state = 0;
            }
        }
    }
}
