//! The boxes of a shape, found from their lower points. The generators need
//! their number; the reference finds boxes in another way.

use std::ops::Range;

use super::{Place, Shape};

pub const ORDERS: [&str; 6] = ["XYZ", "XZY", "YXZ", "YZX", "ZXY", "ZYX"];

/// A shape with its axes taken in another order.
struct Turned<'a> {
    shape: &'a Shape,
    axes: [usize; 3],
}

impl Turned<'_> {
    fn sides(&self) -> Place {
        self.axes.map(|axis| self.shape.sides()[axis])
    }

    /// The place with these coordinates along the turned axes.
    fn place(&self, turned: Place) -> Place {
        let mut place = [0; 3];
        for (axis, coordinate) in self.axes.into_iter().zip(turned) {
            place[axis] = coordinate;
        }
        place
    }

    /// Cells outside the shape, also before its first cells, are empty.
    fn is_solid(&self, a: usize, b: usize, c: usize) -> bool {
        let [side_a, side_b, side_c] = self.sides();
        let inside = a < side_a && b < side_b && c < side_c;
        inside && self.shape.is_solid(self.place([a, b, c]))
    }

    fn is_run(&self, a: usize, b: usize, c: &Range<usize>) -> bool {
        c.clone().all(|c| self.is_solid(a, b, c))
            && !self.is_solid(a, b, before(c.start))
            && !self.is_solid(a, b, c.end)
    }

    fn is_plate(&self, a: usize, b: &Range<usize>, c: &Range<usize>) -> bool {
        b.clone().all(|b| self.is_run(a, b, c))
            && !self.is_run(a, before(b.start), c)
            && !self.is_run(a, b.end, c)
    }

    /// The upper point of the box whose lower point this is.
    fn box_from(&self, [a, b, c]: Place) -> Option<Place> {
        let c = c..first_without(c, |c| self.is_solid(a, b, c));
        if c.is_empty() || !self.is_run(a, b, &c) {
            return None;
        }
        let b = b..first_without(b, |b| self.is_run(a, b, &c));
        if !self.is_plate(a, &b, &c) || self.is_plate(before(a), &b, &c) {
            return None;
        }
        let end = first_without(a, |a| self.is_plate(a, &b, &c));
        Some([end, b.end, c.end])
    }
}

/// The coordinate before, which lies in no shape where there is none.
fn before(coordinate: usize) -> usize {
    coordinate.wrapping_sub(1)
}

fn first_without(mut coordinate: usize, holds: impl Fn(usize) -> bool) -> usize {
    while holds(coordinate) {
        coordinate += 1;
    }
    coordinate
}

/// Lower and upper points of the boxes, in the order of their numbers.
pub fn boxes(shape: &Shape, order: &str) -> Vec<(Place, Place)> {
    let mut axes = [0; 3];
    for (axis, letter) in axes.iter_mut().zip(order.bytes()) {
        *axis = usize::from(letter - b'X');
    }
    let turned = Turned { shape, axes };
    let [side_a, side_b, side_c] = turned.sides();
    let mut boxes = Vec::new();
    for a in 0..side_a {
        for b in 0..side_b {
            for c in 0..side_c {
                if let Some(end) = turned.box_from([a, b, c]) {
                    boxes.push((turned.place([a, b, c]), turned.place(end)));
                }
            }
        }
    }
    boxes
}
