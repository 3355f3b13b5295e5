// rustc --emit=mir -C panic=abort --crate-type=lib -O

fn swap(a: &mut u32, b: &mut u32) {
    let kept = *a;
    *a = *b;
    *b = kept;
}

pub fn ordered(mut a: u32, mut b: u32) -> (u32, u32) {
    if b < a {
        swap(&mut a, &mut b);
    }
    (a, b)
}
