// rustc --emit=mir -C panic=abort --crate-type=lib -C overflow-checks=off
// at the head of distance.mir: struct Point { x: i32, y: i32 }

pub struct Point {
    x: i32,
    y: i32,
}

pub fn distance(ax: i32, ay: i32, bx: i32, by: i32) -> i32 {
    let a = Point { x: ax, y: ay };
    let b = Point { x: bx, y: by };
    let step = Point { x: b.x - a.x, y: b.y - a.y };
    let squares = (step.x * step.x, step.y * step.y);
    squares.0 + squares.1
}
