// rustc --emit=mir -C panic=abort --crate-type=lib
// at the head of shapes.mir: struct Point { x: i32, y: i32 }
// at the head of shapes.mir: enum Shape { Dot, Line(u32), Box { w: u32, h: u32 } }

pub struct Point {
    x: i32,
    y: i32,
}

pub enum Shape {
    Dot,
    Line(u32),
    Box { w: u32, h: u32 },
}

pub fn flip(p: Point) -> Point {
    Point { x: p.y, y: p.x }
}

pub fn area(s: Shape) -> u32 {
    match s {
        Shape::Dot => 0,
        Shape::Line(_) => 1,
        Shape::Box { w, h } => w & h,
    }
}

pub fn mk(n: u32) -> Shape {
    Shape::Line(n)
}
