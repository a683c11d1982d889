//! Where the numbers of geometries stand in a view.

use super::scene::{Piece, Scene};
use super::view::View;

/// The most numbers that a view has, of the geometries that are largest in it.
const MOST: usize = 150;
/// Up to so many geometries each has its number in each view. Of more, those have none whose number would cover another one.
const FEW: usize = 30;
/// The width of a letter, the height of a line, and how far off its place a number may be, in letters or lines.
const LETTER: f64 = 6.0;
const HEIGHT: f64 = 12.0;
const STEPS: i32 = 8;

/// A geometry's number: the middle of its base line.
pub struct Number<'a> {
    pub piece: &'a Piece,
    pub x: f64,
    pub y: f64,
}

/// A rectangle: left, top, right, bottom.
type Area = [f64; 4];

/// The numbers of a view, each near the middle of what is drawn of its geometry.
pub fn numbers<'a>(view: &View, scene: &'a Scene) -> Vec<Number<'a>> {
    let mut pieces: Vec<(Area, &Piece)> = scene.pieces.iter().map(|piece| (area(view, scene, piece), piece)).collect();
    // in whole units, so that equal ones stay in their order; lines by their length
    let size = |[left, top, right, bottom]: Area| (((right - left) * (bottom - top)).round(), (right - left + bottom - top).round());
    pieces.sort_by(|(one, _), (other, _)| size(*other).partial_cmp(&size(*one)).unwrap_or(std::cmp::Ordering::Equal));
    let steps = steps();
    let few = pieces.len() <= FEW;
    let whole = [view.left, view.top, view.left + view.width(scene), view.top + view.height(scene)];
    let (mut numbers, mut taken): (Vec<Number<'_>>, Vec<Area>) = (Vec::new(), Vec::new());
    for (own, piece) in pieces {
        let middle = [(own[0] + own[2]) / 2.0, (own[1] + own[3]) / 2.0];
        let half = [format!("{:#}", piece.name).len() as f64 * LETTER / 2.0, HEIGHT / 2.0];
        let at = |[x, y]: [f64; 2]| [x - half[0], y - half[1], x + half[0], y + half[1]];
        let free = |place: &[f64; 2], within: Area| inside(*place, within) && !taken.iter().any(|other| meet(*other, at(*place)));
        let mut places = steps.iter().map(|[x, y]| [middle[0] + x, middle[1] + y]);
        let found = places.clone().find(|place| free(place, own));
        let found = found.or_else(|| places.find(|place| few && free(place, whole))).or(few.then_some(middle));
        if let Some(place) = found {
            taken.push(at(place));
            numbers.push(Number { piece, x: place[0], y: place[1] + HEIGHT / 3.0 });
        }
        if numbers.len() == MOST {
            break;
        }
    }
    numbers
}

/// What is drawn of a geometry lies in this rectangle.
fn area(view: &View, scene: &Scene, piece: &Piece) -> Area {
    let ([x, y], [u, v]) = (view.place(scene, piece.bounds.low), view.place(scene, piece.bounds.high));
    [view.left + x.min(u), view.top + y.min(v), view.left + x.max(u), view.top + y.max(v)]
}

/// How far a number may be moved, the shortest ways first.
fn steps() -> Vec<[f64; 2]> {
    let all = (-STEPS..=STEPS).flat_map(|x| (-STEPS..=STEPS).map(move |y| [f64::from(x) * 2.0 * LETTER, f64::from(y) * HEIGHT]));
    let mut steps: Vec<[f64; 2]> = all.collect();
    // rather above or below than beside
    let length = |[x, y]: [f64; 2]| (2.0 * x).hypot(y);
    steps.sort_by(|one, other| length(*one).total_cmp(&length(*other)));
    steps
}

fn inside([x, y]: [f64; 2], [left, top, right, bottom]: Area) -> bool {
    (left..=right).contains(&x) && (top..=bottom).contains(&y)
}

fn meet(one: Area, other: Area) -> bool {
    one[0] < other[2] && other[0] < one[2] && one[1] < other[3] && other[1] < one[3]
}

#[cfg(test)]
mod tests {
    use super::super::sheet::Sheet;
    use super::super::testing::{grid, list, Made};
    use super::*;

    /// Squares of a metre in rows.
    fn squares(across: u16, down: u16) -> Scene {
        let moved = |place: u16| {
            let mut made = grid(0, 2, 1.0);
            for position in made.positions.as_mut().unwrap() {
                position[0] += f32::from(place % across);
                position[1] += f32::from(place / across);
            }
            made
        };
        Scene::of(&list(&(0..across * down).map(moved).collect::<Vec<Made>>()))
    }

    #[test]
    fn a_number_is_in_the_middle() {
        let scene = squares(3, 1);
        let sheet = Sheet::of(&scene, 0);
        let found: Vec<[f64; 2]> = numbers(&sheet.plan, &scene).iter().map(|number| [number.x, number.y]).collect();
        assert_eq!(found, [[206.0, 198.0], [506.0, 198.0], [806.0, 198.0]]);
    }

    #[test]
    fn few_have_all_their_numbers_and_many_those_that_have_a_place() {
        for (across, down, least, most) in [(30, 1, 30, 30), (31, 1, 31, 31), (150, 1, 30, 50), (15, 10, 150, 150), (15, 12, 150, 150)] {
            let scene = squares(across, down);
            let found = numbers(&Sheet::of(&scene, 0).plan, &scene).len();
            assert!((least..=most).contains(&found), "{found} of {across} x {down}");
        }
        // all at one place
        let same = Scene::of(&list(&vec![grid(0, 3, 1.0); 30]));
        assert_eq!(numbers(&Sheet::of(&same, 0).plan, &same).len(), 30);
    }
}
