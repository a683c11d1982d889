//! `hall show`: a hall seen from above and from the side, as SVG.

mod bounds;
mod numbers;
mod palette;
mod png;
mod raster;
mod scene;
mod sheet;
mod strays;
#[cfg(test)]
mod testing;
mod view;
mod words;

use crate::arguments::Arguments;
use crate::failure::Failure;
use crate::files::Files;
use crate::halls::path;
use crate::output::Output;
use crate::said::Said;
use crate::source::Source;
use crate::table::counted;
use scene::Scene;
use sheet::Sheet;
use std::io::{self, Write};

/// More triangles than this are drawn as a picture: as paths they would be too much for the programs that show them.
const MOST_PATHS: u64 = 200_000;

pub fn run(mut arguments: Arguments) -> Result<Said, Failure> {
    let strict = arguments.flag("--strict")?;
    let mut files = Files::default();
    let source = Source::read(&mut arguments, &mut files)?;
    let out = path(&mut arguments, "file for the drawing")?;
    arguments.finish()?;
    files.note_output(&out)?;
    let (_, list) = source.list()?;
    let drawn = draw(list.as_bytes(), &out)?;
    let models = counted(list.models().count() as u64, "model", "models");
    let geometries = counted(list.models().geometries().count() as u64, "geometry", "geometries");
    let triangles = counted(list.triangle_count(), "triangle", "triangles");
    let text = format!("wrote {out}: plan and long section of {models}, {geometries}, {triangles}{}\n", drawn.said());
    Ok(Said::strictly(text, strict, &drawn.left_out))
}

/// Writes the drawing of a list's models, a hall's or a drawable's, to a file.
pub fn draw(list: &[u8], path: &str) -> Result<Drawn, Failure> {
    let mut out = Output::create(path)?;
    let drawn = write(list, MOST_PATHS, &mut out).map_err(|error| out.failed(error))?;
    out.finish()?;
    Ok(drawn)
}

/// The same, with pictures for more than `most` triangles.
fn write(list: &[u8], most: u64, out: &mut impl Write) -> io::Result<Drawn> {
    let scene = Scene::of(list);
    let sheet = Sheet::of(&scene, most);
    sheet.write(list, out)?;
    Ok(Drawn { left_out: scene.hidden.said(), besides: sheet.said() })
}

/// What a drawing came to.
pub struct Drawn {
    left_out: Vec<String>,
    besides: Vec<String>,
}

impl Drawn {
    /// For the closing line: what is left out, and how the rest is drawn where that is unusual. Each part begins with `; `.
    pub fn said(&self) -> String {
        self.left_out.iter().chain(&self.besides).map(|said| format!("; {said}")).collect()
    }
}

#[cfg(test)]
mod tests {
    use super::testing::{check_xml, grid, list, triangles, winding, Made};
    use super::*;

    fn drawn_with(list: &[u8], most: u64) -> (String, Drawn) {
        let mut out = Vec::new();
        let drawn = write(list, most, &mut out).unwrap();
        let text = String::from_utf8(out).unwrap();
        check_xml(&text);
        for line in text.lines().filter(|line| !line.starts_with("<image ")) {
            assert!(!["NaN", "inf", "fill=\"\""].iter().any(|wrong| line.contains(wrong)), "{line}");
        }
        (text, drawn)
    }

    fn drawn(list: &[u8]) -> (String, Drawn) {
        drawn_with(list, MOST_PATHS)
    }

    fn sample(name: &str) -> Vec<u8> {
        let read = |end: &str| std::fs::read(format!("{}/samples/{name}.{end}", env!("CARGO_MANIFEST_DIR"))).unwrap_or_default();
        let (system, graphics) = (read("system"), read("graphics"));
        calicofern::Sections::new(&system, &graphics).hall_list(calicofern::Sections::SYSTEM).unwrap().into_bytes()
    }

    #[test]
    fn the_plan_is_seen_from_above() {
        let (text, drawn) = drawn(&list(&[Made::new(3, &[[0.0, 0.0, 0.0], [20.0, 0.0, 0.0], [0.0, 32.0, 5.0]], &[0, 1, 2])]));
        // 32 m are 900 wide; y runs to the right and x down
        assert_eq!(triangles(&text, "plan-0.0"), [[[56.0, 44.0], [956.0, 44.0], [56.0, 606.5]]]);
        assert!(text.contains(">y 32.00 m<") && text.contains(">x 20.00 m<") && text.contains(">z 5.00 m<") && text.contains(">1 m<"));
        assert_eq!((drawn.said(), drawn.left_out.is_empty()), (String::new(), true));
    }

    /// Two triangles that face each other, and a slab whose top and bottom do.
    #[test]
    fn opposite_triangles_do_not_cancel() {
        let corners = [[0.0, 0.0, 0.0], [9.0, 0.0, 0.0], [0.0, 9.0, 0.0]];
        let slab = [[0, 1, 2], [0, 2, 3], [6, 5, 4], [7, 6, 4]].concat();
        let square = [[0.0, 0.0], [9.0, 0.0], [9.0, 9.0], [0.0, 9.0]];
        let both: Vec<[f32; 3]> = [1.0, 0.5].into_iter().flat_map(|z| square.map(|[x, y]| [x, y, z])).collect();
        for made in [Made::new(0, &corners, &[0, 1, 2, 0, 2, 1]), Made::new(0, &both, &slab)] {
            let (text, _) = drawn(&list(&[made]));
            let found = triangles(&text, "plan-0.0");
            // a third of the way from the corner at the origin, which is below on the left
            let point = [56.0 + 300.0, 944.0 - 300.0];
            assert_eq!(winding(&found, point).abs(), 2, "{found:?}");
            assert_eq!(winding(&found, [30.0, 30.0]), 0);
        }
    }

    #[test]
    fn the_balcony_of_the_shoebox_is_no_hole() {
        let (text, _) = drawn(&sample("shoebox"));
        assert_ne!(winding(&triangles(&text, "plan-1.2"), [870.0, 330.0]), 0);
        assert_ne!(winding(&triangles(&text, "long-section-0.1"), [300.0, 800.0]), 0);
        assert_eq!(text.matches('Z').count(), 2 * 382);
    }

    #[test]
    fn geometries_have_titles_and_numbers() {
        let (text, _) = drawn(&sample("shoebox"));
        for view in ["plan", "long-section"] {
            let group = format!("<g id=\"{view}-1.2\"><title>model 1 geometry 2, shader 2, 50 triangles</title><path ");
            assert_eq!(text.matches(&group).count(), 1, "{text}");
        }
        assert_eq!(text.matches("<title>model 1 geometry 2, shader 2, 50 triangles</title>1.2</text>").count(), 2, "{text}");
    }

    #[test]
    fn the_largest_geometries_are_numbered() {
        let made: Vec<Made> = (1..=160).map(|size| grid(0, 2, size as f32)).collect();
        let (text, drawn) = drawn(&list(&made));
        let written = ["plan", "long-section"].map(|view| {
            let numbers = text.split(&format!("<g id=\"{view}-numbers\"")).nth(1).unwrap().split("</g>").next().unwrap();
            assert!(numbers.contains("</title>0.159</text>") && !numbers.contains("</title>0.9</text>"));
            numbers.matches("</title>0.").count()
        });
        let [plan, section] = written;
        assert!((50..=150).contains(&plan) && (10..=150).contains(&section), "{written:?}");
        assert_eq!(drawn.said(), format!("; numbers are written for {plan} (plan) and {section} (long section) of 160 geometries"));
        assert_eq!(text.matches("<g id=\"plan-0.").count(), 160);
    }

    #[test]
    fn every_material_is_in_the_legend() {
        let made: Vec<Made> = (0..30).map(|shader| grid(shader * 2, 3, 10.0)).collect();
        let (text, _) = drawn(&list(&made));
        for shader in 0..30 {
            assert!(text.contains(&format!(">shader {} <tspan dx=\"4\" fill=\"#666666\">8 triangles</tspan>", shader * 2)), "{text}");
        }
        assert_eq!((text.matches("<pattern ").count(), text.matches("fill=\"url(#hatching-").count()), (6, 6 * 3));
    }

    #[test]
    fn what_is_left_out_is_said() {
        let (text, drawn_) = drawn(&sample("damaged"));
        let said = "1 geometry is left out: model 0 geometry 3 (no vertices)";
        assert!(!drawn_.left_out.is_empty() && drawn_.said().contains(said) && text.contains(said), "{}", drawn_.said());
        let sound = grid(0, 3, 5.0);
        let no_indices = Made { indices: None, ..sound.clone() };
        let cut = Made { count: 10, ..sound.clone() };
        let mut faulty = sound.clone();
        faulty.indices = Some(vec![0, 1, 9, 0, 1, 3, 0, 0, 2]);
        faulty.positions.as_mut().unwrap()[2] = [f32::NAN, f32::INFINITY, 0.0];
        let (_, two) = drawn(&list(&[no_indices.clone(), sound.clone(), cut, faulty]));
        assert_eq!(
            two.said(),
            "; 2 geometries are left out: model 0 geometry 0 (no indices), model 0 geometry 2 (check 9 refuses its vertices)\
             ; 1 triangle with an index beyond the vertices is left out; 1 triangle with a coordinate that is no number is left out"
        );
        let (text, many) = drawn(&list(&vec![no_indices; 1010]));
        assert!(many.said().ends_with("model 0 geometry 7 (no indices) and 1,002 more"), "{}", many.said());
        assert!(text.contains("nothing to draw"));
    }

    #[test]
    fn a_stray_vertex_does_not_shrink_the_hall() {
        for far in [1e3, 1e6, -3e38] {
            let mut made = [grid(0, 3, 20.0), grid(1, 4, 10.0)];
            made[1].positions.as_mut().unwrap()[5] = [5.0, 5.0, far];
            let (text, drawn_) = drawn(&list(&made));
            let said = drawn_.said();
            assert!(said.starts_with("; model 0 geometry 1 vertex 5 is ") && !drawn_.left_out.is_empty(), "{said}");
            assert!(said.ends_with(" away from the rest: 6 triangles at it are left out"), "{said}");
            assert!(text.contains(&said[2..]) && text.contains(">x 20.00 m<"), "{text}");
        }
    }

    #[test]
    fn where_nothing_would_remain_all_is_drawn() {
        // every triangle of the fan has the vertex far away
        let ring = (0..20u8).map(|step| (f32::from(step) / 3.0).sin_cos()).map(|(x, y)| [x, y, 0.0]);
        let positions: Vec<[f32; 3]> = ring.chain([[0.0, 0.0, 500.0]]).collect();
        let (text, drawn_) = drawn(&list(&[Made::new(0, &positions, &(0..19).flat_map(|step| [step, step + 1, 20]).collect::<Vec<_>>())]));
        assert!(drawn_.said().is_empty() && text.contains(">z 500.00 m<"), "{}", drawn_.said());
    }

    #[test]
    fn a_large_hall_is_a_picture() {
        let (text, drawn_) = drawn_with(&sample("shoebox"), 381);
        assert_eq!(drawn_.said(), "; drawn as pictures of 1,800 x 1,125 and 1,800 x 788 points, since it has 382 triangles");
        assert!(drawn_.left_out.is_empty());
        assert_eq!((text.matches("<image ").count(), text.matches('Z').count() > 2 * 382, text.len() < 1 << 20), (2, true, true));
        assert_eq!(text.matches("<title>model 1 geometry 2, shader 2, 50 triangles</title>1.2</text>").count(), 2);
        assert!(text.contains(">shader 4 <tspan") && text.contains(">z 14.00 m<"));
    }

    #[test]
    fn nothing_and_a_point_have_a_drawing_too() {
        let (text, drawn_) = drawn(&[]);
        assert!(text.contains(">nothing to draw: there are no triangles<") && drawn_.said().is_empty());
        let point = list(&[Made::new(0, &[[1.0; 3]], &[0, 0, 0])]);
        for most in [MOST_PATHS, 0] {
            assert!(drawn_with(&point, most).0.contains(">z 0 m<"));
        }
        let huge = Made::new(0, &[[f32::MAX; 3], [-f32::MAX; 3], [1e-45; 3]], &[0, 1, 2]);
        let tiny = Made::new(0, &[[0.0; 3], [1e-45; 3], [1e-45, 0.0, 0.0]], &[0, 1, 2]);
        for made in [huge, tiny] {
            assert!(drawn(&list(std::slice::from_ref(&made))).1.said().is_empty());
            drawn_with(&list(&[made]), 0);
        }
    }

    /// A list in which some bytes are wrong.
    #[test]
    fn any_bytes_have_a_drawing() {
        let sound = sample("layouts");
        let mut random = 1u32;
        for round in 0..150 {
            let mut list = sound.clone();
            for _ in 0..round % 20 {
                random = random.wrapping_mul(1_664_525).wrapping_add(1_013_904_223);
                let at = random as usize / 7 % list.len();
                list[at] = (random >> 24) as u8;
            }
            drawn_with(&list, if round == 99 { 0 } else { MOST_PATHS });
        }
    }
}
