//! The names that a line may have, and what is said of others.

use super::words::cut;
use crate::failure::Failure;
use calicofern::{nearest, UnknownName, VertexComponentType, VertexSemantic};

pub fn semantic(word: &str) -> Result<VertexSemantic, Failure> {
    word.parse().map_err(|error: UnknownName| unknown("semantic", word, error.names()))
}

/// A type; one without bytes too.
pub fn component_type(word: &str) -> Result<VertexComponentType, Failure> {
    word.parse().map_err(|error: UnknownName| {
        let useful = |name: &str| name.parse().is_ok_and(|known: VertexComponentType| known.size_in_bytes() > 0);
        unknown("type", word, &error.names().iter().copied().filter(|name| useful(name)).collect::<Vec<_>>())
    })
}

/// There is no such call, semantic or type; the nearest name, where one is near.
pub fn unknown(what: &str, word: &str, names: &[&str]) -> Failure {
    let meant = nearest(word, names).map_or(String::new(), |name| format!(" did you mean {name}?"));
    Failure::Usage(format!("there is no {what} '{}';{meant} 'hall help script' lists them", cut(word)))
}

#[cfg(test)]
mod tests {
    use super::*;

    #[test]
    fn names_in_any_case() {
        assert_eq!(semantic("texcoord7").ok(), Some(VertexSemantic::TexCoord7));
        assert_eq!(component_type("rgba8snorm").ok(), Some(VertexComponentType::Rgba8Snorm));
        assert_eq!(component_type("Nothing").ok(), Some(VertexComponentType::Nothing));
    }

    #[test]
    fn others_have_a_nearest() {
        let line = |failure: Failure| failure.to_string();
        let listed = "'hall help script' lists them";
        assert_eq!(line(semantic("Positon").unwrap_err()), format!("there is no semantic 'Positon'; did you mean Position? {listed}"));
        assert_eq!(line(semantic("Unknown").unwrap_err()), format!("there is no semantic 'Unknown'; {listed}"));
        assert_eq!(line(component_type("Flaot3").unwrap_err()), format!("there is no type 'Flaot3'; did you mean Float3? {listed}"));
        // nothing that would be refused is proposed
        assert_eq!(line(component_type("Nothin").unwrap_err()), format!("there is no type 'Nothin'; {listed}"));
    }
}
