//! One view of a scene: its triangles, the numbers of its geometries, and its measures.

use super::numbers::{numbers, Number};
use super::palette::{Style, LINE};
use super::raster::Raster;
use super::scene::{Piece, Scene};
use super::words::{escaped, metres};
use crate::mesh::each;
use std::collections::BTreeMap;
use std::fmt;
use std::io::{self, Write};

const AXES: [&str; 3] = ["x", "y", "z"];

/// Everything drawn alike over all views.
pub struct Drawing<'a> {
    pub list: &'a [u8],
    pub scene: &'a Scene,
    pub styles: &'a BTreeMap<u16, Style>,
    /// Whether triangles are drawn as a picture.
    pub picture: bool,
}

/// Where a scene's points are in a view.
pub struct View {
    pub name: &'static str,
    /// The axis that runs to the right, and the one that runs up or down.
    pub across: usize,
    pub upright: usize,
    pub down: bool,
    /// Units of the drawing for each metre.
    pub scale: f64,
    pub left: f64,
    pub top: f64,
}

impl View {
    pub fn width(&self, scene: &Scene) -> f64 {
        scene.bounds.extent(self.across) * self.scale
    }

    pub fn height(&self, scene: &Scene) -> f64 {
        scene.bounds.extent(self.upright) * self.scale
    }

    /// A point of the scene, from the upper left of the view.
    pub fn place(&self, scene: &Scene, point: [f64; 3]) -> [f64; 2] {
        let (low, high) = (scene.bounds.low, scene.bounds.high);
        let y = if self.down { point[self.upright] - low[self.upright] } else { high[self.upright] - point[self.upright] };
        [(point[self.across] - low[self.across]) * self.scale, y * self.scale]
    }

    pub fn write(&self, drawing: &Drawing<'_>, out: &mut impl Write) -> io::Result<()> {
        let (right, upright, way) = (AXES[self.across], AXES[self.upright], if self.down { "down" } else { "up" });
        writeln!(
            out,
            "<text x=\"{:.2}\" y=\"{:.2}\">{} <tspan fill=\"#666666\" font-size=\"11\">{right} to the right, {upright} {way}</tspan></text>",
            self.left,
            self.top - 10.0,
            self.name
        )?;
        match drawing.picture {
            true => self.write_picture(drawing, out)?,
            false => self.write_paths(drawing, out)?,
        }
        self.write_numbers(drawing, out)
    }

    fn id(&self) -> String {
        self.name.replace(' ', "-")
    }

    fn write_paths(&self, drawing: &Drawing<'_>, out: &mut impl Write) -> io::Result<()> {
        let Drawing { list, scene, styles, .. } = drawing;
        let mut pieces = scene.pieces.iter().peekable();
        each(list, &format!("drawing the {}", self.name), |mesh, progress| {
            let Ok(mesh) = mesh else { return Ok(()) };
            let Some(piece) = pieces.next_if(|piece| piece.name == mesh.name) else { return Ok(()) };
            let style = styles.get(&piece.shader).map_or(String::new(), |style| style.attributes(self.stroke(piece)));
            write!(out, "<g id=\"{}-{:#}\"><title>{}</title><path {style} d=\"", self.id(), piece.name, escaped(&piece.title()))?;
            for triangle in mesh.triangles(progress).flatten().filter(|triangle| scene.shows(triangle)) {
                let [a, b, c] = turned(triangle.corners.map(|corner| self.place(scene, corner).map(Hundredths::of)), [self.left, self.top]);
                write!(out, "M{} {}L{} {}L{} {}Z", a[0], a[1], b[0], b[1], c[0], c[1])?;
            }
            out.write_all(b"\"/></g>\n")
        })
    }

    fn write_picture(&self, drawing: &Drawing<'_>, out: &mut impl Write) -> io::Result<()> {
        let Drawing { list, scene, styles, .. } = drawing;
        let mut raster = Raster::new(self.width(scene), self.height(scene));
        each(list, &format!("drawing the {}", self.name), |mesh, progress| {
            let Ok(mesh) = mesh else { return Ok::<(), io::Error>(()) };
            for triangle in mesh.triangles(progress).flatten().filter(|triangle| scene.shows(triangle)) {
                raster.add(triangle.corners.map(|corner| self.place(scene, corner)));
            }
            if let Some(style) = styles.get(&mesh.shader) {
                raster.finish_geometry(*style);
            }
            Ok(())
        })?;
        raster.write(out, self.left, self.top)
    }

    fn write_numbers(&self, drawing: &Drawing<'_>, out: &mut impl Write) -> io::Result<()> {
        writeln!(
            out,
            "<g id=\"{}-numbers\" font-size=\"10\" text-anchor=\"middle\" stroke=\"white\" stroke-width=\"3\" stroke-linejoin=\"round\" \
             paint-order=\"stroke\">",
            self.id()
        )?;
        for Number { piece, x, y } in numbers(self, drawing.scene) {
            let colour = drawing.styles.get(&piece.shader).map_or(String::new(), |style| style.colour());
            let title = escaped(&piece.title());
            writeln!(out, "<text x=\"{x:.2}\" y=\"{y:.2}\" fill=\"{colour}\"><title>{title}</title>{:#}</text>", piece.name)?;
        }
        writeln!(out, "</g>")
    }

    /// How wide the lines of a geometry's triangles are: finer where they are many, which would else cover all.
    fn stroke(&self, piece: &Piece) -> f64 {
        let [width, height] = [self.across, self.upright].map(|axis| piece.bounds.extent(axis) * self.scale);
        if width.min(height) < 2.0 {
            return LINE;
        }
        let edge = (2.0 * width * height / piece.triangles as f64).sqrt();
        (edge * 0.04).clamp(LINE / 5.0, LINE)
    }

    /// The length of the axis that runs to the right, below the view.
    pub fn write_width(&self, scene: &Scene, out: &mut impl Write) -> io::Result<()> {
        let (left, right, y) = (self.left, self.left + self.width(scene), self.top + self.height(scene) + 16.0);
        let said = format!("{} {}", AXES[self.across], metres(scene.bounds.extent(self.across)));
        writeln!(
            out,
            "<path d=\"M{left:.2} {y:.2}H{right:.2}M{left:.2} {:.2}v10M{right:.2} {:.2}v10\" stroke=\"black\" stroke-width=\"0.8\"/>\n\
             <text x=\"{:.2}\" y=\"{:.2}\" font-size=\"12\" text-anchor=\"middle\">{said}</text>",
            y - 5.0,
            y - 5.0,
            (left + right) / 2.0,
            y + 15.0
        )
    }

    /// The length of the other axis, on the left.
    pub fn write_height(&self, scene: &Scene, out: &mut impl Write) -> io::Result<()> {
        let (x, top, bottom) = (self.left - 16.0, self.top, self.top + self.height(scene));
        let said = format!("{} {}", AXES[self.upright], metres(scene.bounds.extent(self.upright)));
        let (beside, middle) = (x - 7.0, (top + bottom) / 2.0);
        writeln!(
            out,
            "<path d=\"M{x:.2} {top:.2}V{bottom:.2}M{:.2} {top:.2}h10M{:.2} {bottom:.2}h10\" stroke=\"black\" stroke-width=\"0.8\"/>\n\
             <text x=\"{beside:.2}\" y=\"{middle:.2}\" font-size=\"12\" text-anchor=\"middle\" \
             transform=\"rotate(-90 {beside:.2} {middle:.2})\">{said}</text>",
            x - 5.0,
            x - 5.0
        )
    }
}

/// A coordinate as it is written.
#[derive(Clone, Copy, PartialEq, Eq)]
struct Hundredths(i64);

impl Hundredths {
    fn of(number: f64) -> Self {
        Hundredths((number * 100.0).round() as i64)
    }
}

impl fmt::Display for Hundredths {
    fn fmt(&self, out: &mut fmt::Formatter<'_>) -> fmt::Result {
        write!(out, "{}.{:02}", self.0 / 100, self.0 % 100)
    }
}

/// The corners moved to their place in the drawing, in an order that turns the same way for every triangle. A surface is then filled where any triangle of it
/// is: were some turned the other way, they would take away from what lies over or under them.
fn turned(corners: [[Hundredths; 2]; 3], origin: [f64; 2]) -> [[Hundredths; 2]; 3] {
    let origin = origin.map(Hundredths::of);
    let [a, b, c] = corners.map(|[x, y]| [Hundredths(x.0 + origin[0].0), Hundredths(y.0 + origin[1].0)]);
    let turn = (b[0].0 - a[0].0) * (c[1].0 - a[1].0) - (b[1].0 - a[1].0) * (c[0].0 - a[0].0);
    if turn < 0 {
        [a, c, b]
    } else {
        [a, b, c]
    }
}
