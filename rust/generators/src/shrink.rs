//! Polygons made as small as they can be for something to stay true of them: for findings.

use crate::polygons::Polygons;

/// What can be left out: a contour of the subject or the clip, or one point of it.
#[derive(Clone, Copy)]
struct Part {
    is_clip: bool,
    contour: usize,
    point: Option<usize>,
}

impl Polygons {
    /// The fewest contours and points of which the same is still true: each is left out if it can be, until none can.
    pub fn shrink(self, is_true_of: impl Fn(&Self) -> bool) -> Self {
        let mut polygons = self;
        loop {
            let fewer = polygons.clone().leave_out(&polygons.contours(), &is_true_of);
            let smaller = fewer.clone().leave_out(&fewer.points(), &is_true_of);
            if smaller == polygons {
                return polygons;
            }
            polygons = smaller;
        }
    }

    /// Leaves out each part of which the same is true without it, the last first.
    fn leave_out(self, parts: &[Part], is_true_of: impl Fn(&Self) -> bool) -> Self {
        parts.iter().rev().fold(self, |polygons, part| {
            let smaller = polygons.without(*part);
            if is_true_of(&smaller) { smaller } else { polygons }
        })
    }

    fn contours(&self) -> Vec<Part> {
        let parts = |is_clip: bool, count: usize| (0..count).map(move |contour| Part { is_clip, contour, point: None });
        parts(false, self.subject.len()).chain(parts(true, self.clip.len())).collect()
    }

    fn points(&self) -> Vec<Part> {
        let length = |part: &Part| if part.is_clip { &self.clip } else { &self.subject }[part.contour].len();
        let points = |part: Part| (0..length(&part)).map(move |point| Part { point: Some(point), ..part });
        self.contours().into_iter().flat_map(points).collect()
    }

    fn without(&self, part: Part) -> Self {
        let mut smaller = self.clone();
        let side = if part.is_clip { &mut smaller.clip } else { &mut smaller.subject };
        match part.point {
            Some(point) => drop(side[part.contour].remove(point)),
            None => drop(side.remove(part.contour)),
        }
        smaller
    }
}
