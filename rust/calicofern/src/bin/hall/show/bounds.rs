//! Boxes in space.

/// A box along the axes. Numbers are wide enough that differences of any two stored coordinates are finite.
#[derive(Debug, Clone, Copy, PartialEq)]
pub struct Bounds {
    pub low: [f64; 3],
    pub high: [f64; 3],
}

impl Bounds {
    /// The box of nothing.
    pub const NONE: Bounds = Bounds { low: [f64::INFINITY; 3], high: [f64::NEG_INFINITY; 3] };

    pub fn add(&mut self, point: [f64; 3]) {
        for (axis, number) in point.into_iter().enumerate() {
            self.low[axis] = self.low[axis].min(number);
            self.high[axis] = self.high[axis].max(number);
        }
    }

    /// Its length along an axis; 0 for the box of nothing.
    pub fn extent(&self, axis: usize) -> f64 {
        (self.high[axis] - self.low[axis]).max(0.0)
    }

    pub fn largest(&self) -> f64 {
        (0..3).map(|axis| self.extent(axis)).fold(0.0, f64::max)
    }

    pub fn contains(&self, point: [f64; 3]) -> bool {
        self.beyond(point) == [0.0; 3]
    }

    /// How far a point is outside on the axis where it is farthest.
    pub fn off(&self, point: [f64; 3]) -> f64 {
        self.beyond(point).into_iter().fold(0.0, f64::max)
    }

    /// How far it is from the box.
    pub fn distance(&self, point: [f64; 3]) -> f64 {
        self.beyond(point).into_iter().fold(0.0, f64::hypot)
    }

    fn beyond(&self, point: [f64; 3]) -> [f64; 3] {
        std::array::from_fn(|axis| (self.low[axis] - point[axis]).max(point[axis] - self.high[axis]).max(0.0))
    }
}

#[cfg(test)]
mod tests {
    use super::*;

    #[test]
    fn a_point_is_inside_or_so_far_away() {
        let mut bounds = Bounds::NONE;
        assert_eq!((bounds.extent(0), bounds.largest()), (0.0, 0.0));
        bounds.add([0.0, 1.0, 2.0]);
        bounds.add([4.0, 1.0, 0.0]);
        assert_eq!((bounds.extent(0), bounds.extent(1), bounds.largest()), (4.0, 0.0, 4.0));
        assert!(bounds.contains([4.0, 1.0, 1.0]) && !bounds.contains([4.0, 1.5, 1.0]));
        assert_eq!((bounds.off([7.0, 1.0, -4.0]), bounds.distance([7.0, 1.0, -4.0])), (4.0, 5.0));
        let huge = f64::from(f32::MAX);
        bounds.add([-huge; 3]);
        assert!(bounds.distance([huge; 3]).is_finite() && bounds.off([huge; 3]) >= huge);
    }
}
