// rustc --emit=mir -C panic=abort --crate-type=lib
// at the head of quiet.mir: extern fn note(u32) -> ();

extern "C" {
    fn note(value: u32);
}

pub fn quiet(value: u32) -> u32 {
    let verbose = false;
    let level = if verbose { 2 } else { 0 };
    let result = value ^ 0x5555;
    if level > 1 {
        unsafe { note(value) };
        unsafe { note(result) };
    }
    result
}
