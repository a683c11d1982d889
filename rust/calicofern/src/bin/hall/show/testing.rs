//! Lists for tests, and what drawings of them say.

/// A geometry of a list.
#[derive(Clone)]
pub struct Made {
    pub shader: u16,
    pub positions: Option<Vec<[f32; 3]>>,
    /// The number of vertices, as their block says.
    pub count: u32,
    pub indices: Option<Vec<u32>>,
}

impl Made {
    pub fn new(shader: u16, positions: &[[f32; 3]], indices: &[u32]) -> Made {
        Made { shader, positions: Some(positions.to_vec()), count: positions.len() as u32, indices: Some(indices.to_vec()) }
    }
}

/// A square floor of so many vertices and metres a side.
pub fn grid(shader: u16, side: u32, size: f32) -> Made {
    let at = |number: u32| number as f32 * size / (side - 1) as f32;
    let positions: Vec<[f32; 3]> = (0..side * side).map(|number| [at(number % side), at(number / side), 0.0]).collect();
    let cells = (0..side - 1).flat_map(|y| (0..side - 1).map(move |x| y * side + x));
    Made::new(shader, &positions, &cells.flat_map(|at| [at, at + 1, at + side, at + 1, at + side + 1, at + side]).collect::<Vec<_>>())
}

/// The list of one model.
pub fn list(geometries: &[Made]) -> Vec<u8> {
    let mut list = Vec::new();
    let mut record = |kind: u16, body: Vec<u8>| {
        list.extend((body.len() as u32).to_le_bytes());
        list.extend(kind.to_le_bytes());
        list.extend(body);
    };
    record(1, vec![0; 6]);
    for made in geometries {
        record(2, [&made.shader.to_le_bytes()[..], &[0; 12]].concat());
        if let Some(positions) = &made.positions {
            let floats = positions.as_flattened().iter().flat_map(|number| number.to_le_bytes());
            record(4, [0, 12, 0].into_iter().chain(made.count.to_le_bytes()).chain(floats).collect());
        }
        if let Some(indices) = &made.indices {
            record(5, [indices.len() as u32].iter().chain(indices).flat_map(|index| index.to_le_bytes()).collect());
        }
    }
    list
}

/// The triangles of the path in a group.
pub fn triangles(text: &str, id: &str) -> Vec<[[f64; 2]; 3]> {
    let group = text.split(&format!("<g id=\"{id}\">")).nth(1).unwrap().split("</g>").next().unwrap();
    let path = group.split(" d=\"").nth(1).unwrap().split('"').next().unwrap();
    let point = |text: &str| text.split_once(' ').map(|(x, y)| [x, y].map(|number| number.parse::<f64>().unwrap())).unwrap();
    let corners = |part: &str| part.trim_start_matches('M').split('L').map(point).collect::<Vec<_>>().try_into().unwrap();
    path.split_terminator('Z').map(corners).collect()
}

/// How often the triangles go around a point.
pub fn winding(triangles: &[[[f64; 2]; 3]], [x, y]: [f64; 2]) -> i32 {
    let edges = triangles.iter().flat_map(|[a, b, c]| [[a, b], [b, c], [c, a]]);
    edges
        .map(|[from, to]| {
            let side = (to[0] - from[0]) * (y - from[1]) - (x - from[0]) * (to[1] - from[1]);
            match (from[1] <= y, to[1] <= y) {
                (true, false) if side > 0.0 => 1,
                (false, true) if side < 0.0 => -1,
                _ => 0,
            }
        })
        .sum()
}

/// Whether text is well-formed XML, as far as drawings use it, with ids that are there once.
pub fn check_xml(text: &str) {
    let (mut open, mut ids): (Vec<&str>, Vec<&str>) = (Vec::new(), Vec::new());
    for part in text.split('<').skip(1) {
        let (tag, between) = part.split_once('>').unwrap();
        assert!(!between.contains('>') && between.replace("&amp;", "").replace("&lt;", "").find('&').is_none(), "{between}");
        if let Some(name) = tag.strip_prefix('/') {
            assert_eq!(open.pop(), Some(name));
            continue;
        }
        let (tag, whole) = tag.strip_suffix('/').map_or((tag, false), |tag| (tag, true));
        let (name, mut rest) = tag.split_once(' ').unwrap_or((tag, ""));
        while let Some((attribute, behind)) = rest.split_once("=\"") {
            let (value, behind) = behind.split_once('"').unwrap();
            if attribute == "id" {
                ids.push(value);
            }
            rest = behind.trim_start();
        }
        assert!(rest.is_empty() && name.bytes().all(|letter| letter.is_ascii_lowercase()), "{tag}");
        if !whole {
            open.push(name);
        }
    }
    assert!(open.is_empty() && text.starts_with("<svg ") && text.ends_with("</svg>\n"));
    let count = ids.len();
    ids.sort();
    ids.dedup();
    assert_eq!(ids.len(), count);
}
