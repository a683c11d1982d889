//! The sheet: views one above the other, then the scale, the materials and what is left out.

use super::numbers::numbers;
use super::palette::{styles, Style, LINE};
use super::raster::points;
use super::scene::Scene;
use super::view::{Drawing, View};
use super::words::{escaped, round_metres, wrapped};
use crate::table::{counted, grouped};
use std::collections::BTreeMap;
use std::io::{self, Write};

/// The length of the hall's longest side, and the space around the views.
const SIZE: f64 = 900.0;
const LEFT: f64 = 56.0;
const RIGHT: f64 = 40.0;
/// The materials of a row, and the height of a row.
const COLUMNS: usize = 4;
const ROW: f64 = 22.0;

pub struct Sheet<'a> {
    scene: &'a Scene,
    styles: BTreeMap<u16, Style>,
    pub plan: View,
    section: View,
    scale: f64,
    picture: bool,
}

impl<'a> Sheet<'a> {
    /// A scene of more than `most` triangles is drawn as pictures. The longer of the horizontal axes runs to the right, and the plan is seen from above: where
    /// y runs to the right, x runs down.
    pub fn of(scene: &'a Scene, most: u64) -> Sheet<'a> {
        let bounds = &scene.bounds;
        let across = if bounds.extent(0) >= bounds.extent(1) { 0 } else { 1 };
        let widest = bounds.largest();
        let scale = if widest > 0.0 { SIZE / widest } else { 1.0 };
        let plan = View { name: "plan", across, upright: 1 - across, down: across == 1, scale, left: LEFT, top: 44.0 };
        let top = plan.top + plan.height(scene) + 84.0;
        let section = View { name: "long section", across, upright: 2, down: false, scale, left: LEFT, top };
        Sheet { scene, styles: styles(scene.materials.keys().copied()), plan, section, scale, picture: scene.triangles() > most }
    }

    /// What a reader should know who does not see the drawing, besides what is left out.
    pub fn said(&self) -> Vec<String> {
        let mut said = Vec::new();
        let [plan, section] = [&self.plan, &self.section].map(|view| numbers(view, self.scene).len());
        let all = self.scene.pieces.len();
        if plan.min(section) < all {
            let geometries = counted(all as u64, "geometry", "geometries");
            said.push(format!("numbers are written for {plan} (plan) and {section} (long section) of {geometries}"));
        }
        if self.picture {
            let size = |view: &View| format!("{} x {}", grouped(points(view.width(self.scene))), grouped(points(view.height(self.scene))));
            let triangles = counted(self.scene.triangles(), "triangle", "triangles");
            said.push(format!("drawn as pictures of {} and {} points, since it has {triangles}", size(&self.plan), size(&self.section)));
        }
        said
    }

    pub fn write(&self, list: &[u8], out: &mut impl Write) -> io::Result<()> {
        let notes: Vec<String> = self.scene.hidden.said().iter().flat_map(|said| wrapped(said, 140)).collect();
        let bar = self.section.top + self.section.height(self.scene) + 44.0;
        let legend = bar + 2.0 * ROW;
        let below = legend + ROW * self.styles.len().div_ceil(COLUMNS) as f64;
        let (width, height) = (LEFT + SIZE + RIGHT, below + ROW * notes.len() as f64 + 10.0);
        writeln!(
            out,
            "<svg xmlns=\"http://www.w3.org/2000/svg\" width=\"{width:.0}\" height=\"{height:.0}\" viewBox=\"0 0 {width:.0} {height:.0}\" \
             font-family=\"sans-serif\" font-size=\"14\">\n<rect width=\"100%\" height=\"100%\" fill=\"white\"/>"
        )?;
        self.write_hatchings(out)?;
        let drawing = Drawing { list, scene: self.scene, styles: &self.styles, picture: self.picture };
        if self.scene.pieces.is_empty() {
            writeln!(out, "<text x=\"{LEFT}\" y=\"30\">nothing to draw: there are no triangles</text>")?;
        } else {
            self.plan.write(&drawing, out)?;
            self.plan.write_height(self.scene, out)?;
            self.plan.write_width(self.scene, out)?;
            self.section.write(&drawing, out)?;
            self.section.write_height(self.scene, out)?;
            self.write_bar(out, bar)?;
            self.write_legend(out, legend)?;
        }
        for (note, line) in notes.iter().zip(1..) {
            let y = below + ROW * f64::from(line) - 14.0;
            writeln!(out, "<text x=\"{LEFT}\" y=\"{y:.2}\" font-size=\"12\" fill=\"#b2182b\">{}</text>", escaped(note))?;
        }
        writeln!(out, "</svg>")
    }

    fn write_hatchings(&self, out: &mut impl Write) -> io::Result<()> {
        let mut hatchings: Vec<String> = self.styles.values().filter_map(|style| style.definition()).collect();
        // many materials may share one
        hatchings.sort();
        hatchings.dedup();
        match hatchings.is_empty() {
            true => Ok(()),
            false => writeln!(out, "<defs>\n{}</defs>", hatchings.concat()),
        }
    }

    /// A bar of a round length.
    fn write_bar(&self, out: &mut impl Write, y: f64) -> io::Result<()> {
        let length = 10f64.powf((SIZE / self.scale / 4.0).log10().floor());
        let end = LEFT + length * self.scale;
        writeln!(
            out,
            "<path d=\"M{LEFT} {y:.2}H{end:.2}\" stroke=\"black\" stroke-width=\"2\"/>\n<text x=\"{:.2}\" y=\"{:.2}\">{}</text>",
            end + 8.0,
            y + 5.0,
            round_metres(length)
        )
    }

    /// Every material, drawn as in the views.
    fn write_legend(&self, out: &mut impl Write, y: f64) -> io::Result<()> {
        for (place, (shader, style)) in self.styles.iter().enumerate() {
            let x = LEFT + SIZE / COLUMNS as f64 * (place % COLUMNS) as f64;
            let y = y + ROW * (place / COLUMNS) as f64;
            let triangles = counted(self.scene.materials.get(shader).copied().unwrap_or(0), "triangle", "triangles");
            writeln!(
                out,
                "<path {} d=\"M{x:.2} {:.2}h26v13h-26z\"/><text x=\"{:.2}\" y=\"{y:.2}\" font-size=\"12\">shader {shader} \
                 <tspan dx=\"4\" fill=\"#666666\">{triangles}</tspan></text>",
                style.attributes(LINE),
                y - 11.0,
                x + 34.0
            )?;
        }
        Ok(())
    }
}
