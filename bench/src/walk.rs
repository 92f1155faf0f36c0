//! The walk of the kernel's cut, written in plain Rust.

use std::iter;

use crate::body::{Axis, Body, Cell};

#[derive(Clone, Copy, PartialEq, Eq, Debug)]
#[repr(C)]
pub struct Point {
    pub x: u16,
    pub y: u16,
    pub z: u16,
}

#[derive(Clone, Copy, PartialEq, Eq, Debug)]
#[repr(C)]
pub struct Cuboid {
    pub low: Point,
    pub high: Point,
}

/// A box of a cut, laid out as in the kernel.
#[derive(Clone, Copy, PartialEq, Eq, Debug)]
#[repr(C)]
pub struct BoxRecord {
    pub cuboid: Cuboid,
    pub piece: u32,
}

/// The letters name the axes A, B and C.
#[derive(Clone, Copy, Debug)]
pub enum Order {
    Xyz,
    Xzy,
    Yxz,
    Yzx,
    Zxy,
    Zyx,
}

impl Order {
    pub const ALL: [Order; 6] = [
        Order::Xyz,
        Order::Xzy,
        Order::Yxz,
        Order::Yzx,
        Order::Zxy,
        Order::Zyx,
    ];

    fn axes(self) -> [Axis; 3] {
        use Axis::{X, Y, Z};
        match self {
            Order::Xyz => [X, Y, Z],
            Order::Xzy => [X, Z, Y],
            Order::Yxz => [Y, X, Z],
            Order::Yzx => [Y, Z, X],
            Order::Zxy => [Z, X, Y],
            Order::Zyx => [Z, Y, X],
        }
    }

    /// The point with given coordinates along A, B and C.
    fn point(self, a: u16, b: u16, c: u16) -> Point {
        let (x, y, z) = match self {
            Order::Xyz => (a, b, c),
            Order::Xzy => (a, c, b),
            Order::Yxz => (b, a, c),
            Order::Yzx => (c, a, b),
            Order::Zxy => (b, c, a),
            Order::Zyx => (c, b, a),
        };
        Point { x, y, z }
    }
}

/// The skips of a body along an axis, by plane.
fn skips(body: &impl Body, axis: Axis) -> Vec<u16> {
    let mut stop = 0;
    (0..body.side(axis))
        .map(|plane| {
            if plane == stop {
                stop = body.skip(axis, plane);
            }
            stop
        })
        .collect()
}

/// A body seen along the axes of an order.
struct View<'a, B> {
    body: &'a B,
    order: Order,
    /// The skips along A, B and C.
    next: [Vec<u16>; 3],
}

impl<'a, B: Body> View<'a, B> {
    fn new(body: &'a B, order: Order) -> View<'a, B> {
        View {
            body,
            order,
            next: order.axes().map(|axis| skips(body, axis)),
        }
    }

    fn is_solid(&self, a: u16, b: u16, c: u16) -> bool {
        let Point { x, y, z } = self.order.point(a, b, c);
        self.body.is_solid(Cell { x, y, z })
    }
}

/// A test of the numbers below a size.
trait Line {
    /// By number, a later one up to which all is as there; the size is their length.
    fn next(&self) -> &[u16];

    fn holds(&self, i: u16) -> bool;

    fn is_below(&self, i: u16) -> bool {
        usize::from(i) < self.next().len()
    }

    /// Where the numbers from `i` on end at which the test gives `value`, as it does at `i`.
    fn end(&self, i: u16, value: bool) -> u16 {
        let next = self.next();
        let mut end = next[usize::from(i)];
        while usize::from(end) < next.len() && self.holds(end) == value {
            end = next[usize::from(end)];
        }
        end
    }

    /// Whether the stretch that holds `i` begins there.
    fn is_first(&self, i: u16) -> bool {
        i == 0 || !self.holds(i - 1)
    }

    /// Whether all holds from `low`, where it does, up to `high`.
    fn covers(&self, low: u16, high: u16) -> bool {
        let next = self.next();
        let mut at = next[usize::from(low)];
        while at < high {
            if !self.holds(at) {
                return false;
            }
            at = next[usize::from(at)];
        }
        true
    }

    /// Whether the numbers from `low` up to `high` are a longest stretch.
    fn is_stretch(&self, (low, high): (u16, u16)) -> bool {
        self.holds(low)
            && self.is_first(low)
            && !(self.is_below(high) && self.holds(high))
            && self.covers(low, high)
    }
}

/// The cells of a row, along C.
struct Row<'a, B> {
    view: &'a View<'a, B>,
    a: u16,
    b: u16,
}

impl<B: Body> Line for Row<'_, B> {
    fn next(&self) -> &[u16] {
        &self.view.next[2]
    }

    fn holds(&self, c: u16) -> bool {
        self.view.is_solid(self.a, self.b, c)
    }
}

impl<B: Body> Row<'_, B> {
    fn gap_end(&self, c: u16) -> u16 {
        if self.is_below(c) {
            self.end(c, false)
        } else {
            c
        }
    }

    /// The longest stretches of solid cells.
    fn runs(&self) -> impl Iterator<Item = (u16, u16)> + '_ {
        let mut start = if self.holds(0) { 0 } else { self.gap_end(0) };
        iter::from_fn(move || {
            if !self.is_below(start) {
                return None;
            }
            let run = (start, self.end(start, true));
            start = self.gap_end(run.1);
            Some(run)
        })
    }
}

/// The rows of a plane across A in which a range of C is a run, along B.
struct Runs<'a, B> {
    view: &'a View<'a, B>,
    a: u16,
    c: (u16, u16),
}

impl<B: Body> Line for Runs<'_, B> {
    fn next(&self) -> &[u16] {
        &self.view.next[1]
    }

    fn holds(&self, b: u16) -> bool {
        let &Runs { view, a, c } = self;
        Row { view, a, b }.is_stretch(c)
    }
}

/// The planes across A in which ranges of B and C are a plate, along A.
struct Plates<'a, B> {
    view: &'a View<'a, B>,
    b: (u16, u16),
    c: (u16, u16),
}

impl<B: Body> Line for Plates<'_, B> {
    fn next(&self) -> &[u16] {
        &self.view.next[0]
    }

    fn holds(&self, a: u16) -> bool {
        let &Plates { view, b, c } = self;
        Runs { view, a, c }.is_stretch(b)
    }
}

impl<B: Body> View<'_, B> {
    /// The box of a plate of the plane a, if it begins there.
    fn box_of_plate(&self, a: u16, b: (u16, u16), c: (u16, u16)) -> Option<BoxRecord> {
        let plates = Plates { view: self, b, c };
        if !plates.is_first(a) {
            return None;
        }
        let a_end = plates.end(a, true);
        Some(BoxRecord {
            cuboid: Cuboid {
                low: self.order.point(a, b.0, c.0),
                high: self.order.point(a_end, b.1, c.1),
            },
            piece: 0,
        })
    }

    /// The box of a run of the row (a, b), if it begins there.
    fn box_of_run(&self, a: u16, b: u16, c: (u16, u16)) -> Option<BoxRecord> {
        let runs = Runs { view: self, a, c };
        if !runs.is_first(b) {
            return None;
        }
        self.box_of_plate(a, (b, runs.end(b, true)), c)
    }
}

/// The planes of a walk by skips.
fn planes(next: &[u16]) -> impl Iterator<Item = u16> + '_ {
    iter::successors(Some(0), |&plane| next.get(usize::from(plane)).copied())
        .take_while(|&plane| usize::from(plane) < next.len())
}

/// Writes the boxes of a body to the front of the table and gives their number; none where the table
/// is too short.
pub fn write_boxes(body: &impl Body, order: Order, table: &mut [BoxRecord]) -> Option<usize> {
    let view = &View::new(body, order);
    let mut entries = table.iter_mut();
    let mut count = 0;
    for a in planes(&view.next[0]) {
        for b in planes(&view.next[1]) {
            for run in (Row { view, a, b }).runs() {
                if let Some(record) = view.box_of_run(a, b, run) {
                    *entries.next()? = record;
                    count += 1;
                }
            }
        }
    }
    Some(count)
}
