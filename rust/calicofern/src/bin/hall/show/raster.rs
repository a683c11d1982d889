//! A view as a picture of points, for more triangles than paths are good for.

use super::palette::{Style, HATCHED, SURFACE};
use super::png::{self, Base64};
use std::io::{self, Write};

/// Points for each unit of the drawing.
const FINE: f64 = 2.0;
/// Triangles without an edge of so many points are drawn without edges, which would cover all else.
const SMALL: f64 = 40.0;

/// Edges that are drawn, and those that only belong to the surface.
const EDGE: u8 = 1;
const FAINT: u8 = 2;
/// How much more opaque a surface is for each layer beyond the two of a closed room, up to the last that is told apart. Where triangles are too small to have
/// edges, nothing else shows what is inside.
const LAYER: f64 = 0.05;
const LAYERS: usize = 10;

/// No points, or no rows: the first is beyond the last.
const NONE: (usize, usize) = (usize::MAX, 0);

/// The number of points of a length.
pub fn points(length: f64) -> u32 {
    (length * FINE).round().max(1.0) as u32
}

/// A colour's byte over each other one.
fn blended(own: u8, opacity: f64) -> [u8; 256] {
    std::array::from_fn(|under| (under as f64 * (1.0 - opacity) + f64::from(own) * opacity).round() as u8)
}

pub struct Raster {
    width: usize,
    height: usize,
    /// Points for each unit, across and down; a little less than `FINE`, so that the last point is the end.
    fine: [f64; 2],
    colours: Vec<u8>,
    /// How often the present geometry covers a point, and whether edges go through it: `EDGE`, or `FAINT` for those of small triangles.
    surface: Vec<u8>,
    edges: Vec<u8>,
    /// The points of each row that the present geometry may have touched.
    touched: Vec<(usize, usize)>,
    /// The rows that have such points.
    rows: (usize, usize),
}

impl Raster {
    /// A white picture of so many units.
    pub fn new(width: f64, height: f64) -> Raster {
        let (across, down) = (points(width) as usize, points(height) as usize);
        let fine = |points: usize, length: f64| if length > 0.0 { (points - 1) as f64 / length } else { 0.0 };
        Raster {
            width: across,
            height: down,
            fine: [fine(across, width), fine(down, height)],
            colours: vec![255; across * down * 3],
            surface: vec![0; across * down],
            edges: vec![0; across * down],
            touched: vec![NONE; down],
            rows: NONE,
        }
    }

    /// Adds a triangle to the present geometry. Its corners are in units, from the upper left.
    pub fn add(&mut self, corners: [[f64; 2]; 3]) {
        let [a, b, c] = corners.map(|[x, y]| [x * self.fine[0], y * self.fine[1]]);
        self.fill([a, b, c]);
        let length = |[x, y]: [f64; 2], [u, v]: [f64; 2]| (x - u).abs().max((y - v).abs());
        let kind = if length(a, b).max(length(b, c)).max(length(c, a)) >= SMALL { EDGE } else { FAINT };
        self.line(a, b, kind);
        self.line(b, c, kind);
        self.line(c, a, kind);
    }

    /// Every point whose middle is inside. On an edge that two triangles share it is inside one of them.
    fn fill(&mut self, corners: [[f64; 2]; 3]) {
        let [a, b, c] = corners;
        // from the upper end to the lower, for both triangles alike
        let edges = [[a, b], [b, c], [c, a]].map(|[from, to]| if from[1] <= to[1] { [from, to] } else { [to, from] });
        let (top, bottom) = (a[1].min(b[1]).min(c[1]), a[1].max(b[1]).max(c[1]));
        for row in top.ceil() as usize..(bottom.ceil() as usize).min(self.height) {
            let y = row as f64;
            let (mut first, mut last) = (f64::INFINITY, f64::NEG_INFINITY);
            for [[x, from], [u, to]] in edges {
                if from <= y && y < to {
                    let at = x + (u - x) * ((y - from) / (to - from));
                    (first, last) = (first.min(at), last.max(at));
                }
            }
            self.span(row, first.ceil().max(0.0) as usize, last.ceil().max(0.0) as usize);
        }
    }

    /// The points of a row from the first to the one before the end.
    fn span(&mut self, row: usize, first: usize, end: usize) {
        let end = end.min(self.width);
        if first < end {
            let points = &mut self.surface[row * self.width + first..row * self.width + end];
            points.iter_mut().for_each(|layers| *layers = layers.saturating_add(1));
            self.touch(row, first, end - 1);
        }
    }

    fn touch(&mut self, row: usize, first: usize, last: usize) {
        let (low, high) = self.touched[row];
        self.touched[row] = (low.min(first), high.max(last));
        self.rows = (self.rows.0.min(row), self.rows.1.max(row));
    }

    /// Every point on the way.
    fn line(&mut self, [x, y]: [f64; 2], [u, v]: [f64; 2], kind: u8) {
        let steps = (u - x).abs().max((v - y).abs()).ceil().max(1.0);
        for step in 0..=steps as u32 {
            let part = f64::from(step) / steps;
            let column = ((x + (u - x) * part).round() as usize).min(self.width - 1);
            let row = ((y + (v - y) * part).round() as usize).min(self.height - 1);
            let at = row * self.width + column;
            self.edges[at] |= kind;
            self.touch(row, column, column);
        }
    }

    /// Draws the present geometry over the others, each point once, and begins the next.
    pub fn finish_geometry(&mut self, style: Style) {
        let [line, hatched] = [1.0, HATCHED].map(|opacity| style.rgb().map(|own| blended(own, opacity)));
        let hatching = style.hatching();
        let opacity = |layers: usize| SURFACE + LAYER * layers.saturating_sub(2) as f64;
        let surface: [_; LAYERS] = std::array::from_fn(|layer| style.rgb().map(|own| blended(own, opacity(layer + 1))));
        let (top, bottom) = std::mem::replace(&mut self.rows, NONE);
        for row in top..=bottom {
            let (first, last) = self.touched[row];
            for column in first..=last {
                let at = row * self.width + column;
                if self.surface[at] | self.edges[at] == 0 {
                    continue;
                }
                let blended = match self.edges[at] & EDGE > 0 || !self.inside(row, column) {
                    true => &line,
                    false if hatching.as_ref().is_some_and(|on_line| on_line(column as f64 / FINE, row as f64 / FINE)) => &hatched,
                    false => &surface[usize::from(self.surface[at]).clamp(1, LAYERS) - 1],
                };
                for (shown, blended) in self.colours[3 * at..3 * at + 3].iter_mut().zip(blended) {
                    *shown = blended[usize::from(*shown)];
                }
            }
        }
        for row in top..=bottom {
            let (first, last) = std::mem::replace(&mut self.touched[row], NONE);
            if first <= last {
                self.surface[row * self.width + first..=row * self.width + last].fill(0);
                self.edges[row * self.width + first..=row * self.width + last].fill(0);
            }
        }
    }

    /// Whether the present geometry covers the points around one too.
    fn inside(&self, row: usize, column: usize) -> bool {
        let at = row * self.width + column;
        let covered = |at: usize| self.surface[at] | self.edges[at] > 0;
        row > 0
            && column > 0
            && row + 1 < self.height
            && column + 1 < self.width
            && covered(at - self.width)
            && covered(at - 1)
            && covered(at + 1)
            && covered(at + self.width)
    }

    /// Writes the picture as an image of the drawing.
    pub fn write(&self, out: &mut impl Write, left: f64, top: f64) -> io::Result<()> {
        let (width, height) = (self.width as f64 / FINE, self.height as f64 / FINE);
        write!(out, "<image x=\"{left:.2}\" y=\"{top:.2}\" width=\"{width}\" height=\"{height}\" href=\"data:image/png;base64,")?;
        let mut encoded = Base64::new(&mut *out);
        png::write(&mut encoded, self.width as u32, self.height as u32, &self.colours)?;
        encoded.finish()?;
        out.write_all(b"\"/>\n")
    }
}

#[cfg(test)]
mod tests {
    use super::super::palette::styles;
    use super::*;

    #[test]
    fn a_geometry_covers_each_point_once() {
        let style = styles([0].into_iter())[&0];
        let colour = |raster: &Raster, x: usize, y: usize| raster.colours[(y * raster.width + x) * 3];
        let light = blended(style.rgb()[0], SURFACE)[255];
        let mut raster = Raster::new(50.0, 40.0);
        raster.add([[0.0, 0.0], [50.0, 0.0], [0.0, 40.0]]);
        raster.add([[0.0, 0.0], [0.0, 40.0], [50.0, 0.0]]);
        raster.finish_geometry(style);
        assert_eq!((raster.width, raster.height), (100, 80));
        assert_eq!((colour(&raster, 20, 20), colour(&raster, 80, 60)), (light, 255));
        assert!(colour(&raster, 50, 0) < 160 && colour(&raster, 0, 40) < 160);
        // the next geometry begins anew
        raster.finish_geometry(style);
        assert_eq!(colour(&raster, 20, 20), light);
        // many layers of another are darker, up to a limit
        let mut layered = Raster::new(50.0, 40.0);
        (0..300).for_each(|_| layered.add([[0.0, 0.0], [50.0, 0.0], [0.0, 40.0]]));
        layered.finish_geometry(style);
        assert_eq!(colour(&layered, 20, 20), blended(style.rgb()[0], SURFACE + LAYER * 8.0)[255]);
    }

    #[test]
    fn small_triangles_have_an_outline_and_no_edges() {
        let style = styles([0].into_iter())[&0];
        let mut raster = Raster::new(60.0, 60.0);
        for at in 0..400 {
            let (x, y) = (20.0 + f64::from(at % 20), 20.0 + f64::from(at / 20));
            raster.add([[x, y], [x + 1.0, y], [x, y + 1.0]]);
            raster.add([[x + 1.0, y], [x + 1.0, y + 1.0], [x, y + 1.0]]);
        }
        raster.finish_geometry(style);
        let dark = raster.colours.chunks_exact(3).filter(|colour| colour[0] < 200).count();
        assert!((150..170).contains(&dark), "{dark}");
    }

    #[test]
    fn a_flat_view_is_a_line_of_points() {
        let mut raster = Raster::new(900.0, 0.0);
        raster.add([[0.0, 0.0], [900.0, 0.0], [450.0, 0.0]]);
        raster.finish_geometry(styles([0].into_iter())[&0]);
        assert_eq!((raster.width, raster.height), (1800, 1));
        assert!(raster.colours.chunks_exact(3).all(|colour| colour[0] < 200));
    }
}
