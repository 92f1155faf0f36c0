//! Foams: the walls of random balls in a cube.

use super::{Place, Random, Shape};

/// Thickness of the walls in cells.
const WALL: usize = 2;

struct Ball {
    centre: Place,
    radius: usize,
}

impl Ball {
    fn random(side: usize, random: &mut Random) -> Ball {
        Ball {
            centre: [0; 3].map(|_| random.between(0, side - 1)),
            radius: random.between(WALL + 1 + side / 16, WALL + 1 + side / 6),
        }
    }

    /// Whether a cell lies in the wall.
    fn has_in_wall(&self, cell: Place) -> bool {
        let square: usize = (0..3)
            .map(|axis| cell[axis].abs_diff(self.centre[axis]).pow(2))
            .sum();
        (self.radius - WALL).pow(2) <= square && square < self.radius.pow(2)
    }

    /// Makes the wall solid where it lies in the cube.
    fn add_wall(&self, shape: &mut Shape) {
        let [x, y, z] = self.centre;
        let side = shape.sides()[0];
        let near =
            |centre: usize| centre.saturating_sub(self.radius)..side.min(centre + self.radius + 1);
        for i in near(x) {
            for j in near(y) {
                for k in near(z) {
                    if self.has_in_wall([i, j, k]) {
                        shape.set([i, j, k], true);
                    }
                }
            }
        }
    }
}

/// The walls of random balls in a cube of a given side.
pub fn foam(side: usize, seed: u64, balls: usize) -> Shape {
    let mut random = Random::new(seed);
    let mut shape = Shape::empty([side; 3]);
    for _ in 0..balls {
        Ball::random(side, &mut random).add_wall(&mut shape);
    }
    shape
}
