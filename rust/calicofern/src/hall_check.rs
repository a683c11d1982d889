//! Whether a list is a hall.

use crate::calls::{self, Told};
use crate::{reason, Refusal};

/// Whether these bytes are a hall: the list of its models and geometries, in which every count agrees and every triangle has three different indices.
/// Otherwise the first of checks 11 to 18, 27 and 19, in this order, that fails anywhere in it, for 12, 14 to 18 and 27 with the first place that fails it
/// and the numbers there.
///
/// ```
/// use calicofern::{hall_check, Check, Sections};
///
/// # let system = std::fs::read(concat!(env!("CARGO_MANIFEST_DIR"), "/samples/shoebox.system")).unwrap();
/// let hall = Sections::new(&system, &[]).hall_list(Sections::SYSTEM).unwrap();
/// assert_eq!(hall_check(hall.as_bytes()), Ok(()));
///
/// // The first geometry's record stands behind its model's. One triangle more in it, and nothing else:
/// let geometry = 12 + 2 * hall.models().next().unwrap().geometries().count();
/// let mut list = hall.into_bytes();
/// list[geometry + 12] += 1;
/// let refusal = hall_check(&list).unwrap_err();
/// assert_eq!(refusal.check(), Check::IndexCounts);
/// assert!(refusal.to_string().starts_with("check 17: index counts disagree"));
/// assert!(refusal.to_string().ends_with(": model 0, geometry 0: index count 240, but 3 x triangle count 243"));
///
/// // A list that ends inside a record is none.
/// assert_eq!(hall_check(&list[..20]).unwrap_err().check(), Check::Records);
/// ```
pub fn hall_check(list: &[u8]) -> Result<(), Refusal> {
    let told = Told { check: calls::hall_check(list), size: 0 };
    Refusal::told(told, list.len()).map(|_| ()).map_err(|refusal| reason::of_list(refusal.check(), list))
}
