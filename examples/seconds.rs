// rustc --emit=mir -C panic=abort --crate-type=lib

pub fn seconds(days: u32) -> u32 {
    let minute = 60;
    let hour = 60 * minute;
    let day = 24 * hour;
    days * day
}
