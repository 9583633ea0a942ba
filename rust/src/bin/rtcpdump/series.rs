//! What one source reports about another, over time, in little memory.

/// As many points are kept; more are merged by pairs.
const MOST: usize = 256;

/// A point of time, and what is reported there.
#[derive(Clone, Copy, Debug, PartialEq)]
pub struct Point {
    /// The number of the datagram.
    pub number: u64,
    /// Seconds from the capture's first datagram on.
    pub seconds: Option<f64>,
    pub fraction: u8,
    pub lost: i32,
    pub jitter: u32,
}

#[derive(Debug, Default)]
pub struct Series {
    points: Vec<Point>,
    /// How many reports a point stands for, as a power of 2.
    power: u32,
    /// How many reports the last point has.
    in_last: u64,
}

impl Series {
    pub fn points(&self) -> &[Point] {
        &self.points
    }

    pub fn add(&mut self, point: Point) {
        if self.in_last == 1 << self.power || self.points.is_empty() {
            self.points.push(point);
            self.in_last = 1;
        } else if let Some(last) = self.points.last_mut() {
            *last = merged(*last, point);
            self.in_last += 1;
        }
        if self.points.len() > MOST {
            let pairs = self.points.chunks(2);
            self.points = pairs.map(|it| merged(it[0], it[it.len() - 1])).collect();
            self.power += 1;
        }
    }
}

/// The later of two points, with the worse of both fractions and jitters.
fn merged(first: Point, second: Point) -> Point {
    Point {
        fraction: first.fraction.max(second.fraction),
        jitter: first.jitter.max(second.jitter),
        ..second
    }
}
