//! Images in words, for where two of them differ.

use crate::proved::device::Image;
use second::script::shown;

/// Each field's name and value.
fn fields(image: &Image) -> [(&'static str, String); 18] {
    [
        ("state", image.state.to_string()),
        ("first", image.first.to_string()),
        ("spoiled", image.spoiled.to_string()),
        ("times", image.times.to_string()),
        ("opened", image.opened.to_string()),
        ("network", image.network.to_string()),
        ("over", image.over.to_string()),
        ("any", image.any.to_string()),
        ("count", image.count.to_string()),
        ("length", image.length.to_string()),
        ("live_used", image.live_used.to_string()),
        ("live_records", image.live_records.to_string()),
        ("load_used", image.load_used.to_string()),
        ("load_records", image.load_records.to_string()),
        ("payload", shown(&image.payload)),
        ("version", shown(&image.version)),
        ("versions", shown(&image.versions)),
        ("store", shown(&image.store)),
    ]
}

pub fn fields_told(image: &Image) -> String {
    let told = fields(image).map(|(name, value)| format!("{name} {value}"));
    told.join(", ")
}

/// The fields in which two images differ.
pub fn differing(got: &Image, wanted: &Image) -> String {
    let both = fields(got).into_iter().zip(fields(wanted));
    let differing = both.filter(|(got, wanted)| got != wanted);
    let told = differing.map(|((name, got), (_, wanted))| format!("{name} {got} and {wanted}"));
    told.collect::<Vec<String>>().join(", ")
}
