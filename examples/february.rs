// rustc --emit=mir -C panic=abort --crate-type=lib

pub fn february(year: u32) -> u32 {
    let leap = year % 4 == 0 && (year % 100 != 0 || year % 400 == 0);
    if leap { 29 } else { 28 }
}
