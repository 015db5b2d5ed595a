//! Applies the listed edits to a text, each found exactly once or not at all.

use crate::patches::Edit;
use std::ops::Range;

/// A piece of the published text and what stands in its place.
struct Change {
    place: Range<usize>,
    new: String,
}

/// The text with all edits made. `own_sources` is the folder with the files of `Edit::Child`.
///
/// # Errors
///
/// Says which text was not found exactly once, or which edits overlap.
pub fn apply(text: &str, edits: &[&Edit], own_sources: &str) -> Result<String, String> {
    let mut changes =
        edits.iter().map(|edit| change(text, edit, own_sources)).collect::<Result<Vec<_>, _>>()?;
    changes.sort_by_key(|change| change.place.start);
    splice(text, &changes)
}

fn change(text: &str, edit: &Edit, own_sources: &str) -> Result<Change, String> {
    match edit {
        Edit::Replace { old, new } => {
            let start = find_once(text, old)?;
            Ok(Change { place: start..start + old.len(), new: (*new).to_owned() })
        }
        Edit::Span { from, until, new } => {
            let (start, end) = (find_once(text, from)?, find_once(text, until)?);
            if end < start {
                return Err(format!("`{until}` stands before `{from}`"));
            }
            Ok(Change { place: start..end, new: (*new).to_owned() })
        }
        Edit::Tail { from, new } => {
            Ok(Change { place: find_once(text, from)?..text.len(), new: (*new).to_owned() })
        }
        Edit::Child { file } => Ok(Change {
            place: text.len()..text.len(),
            new: format!("\n#[path = {:?}]\npub mod access;\n", format!("{own_sources}/{file}")),
        }),
    }
}

/// Where `wanted` stands in the text.
fn find_once(text: &str, wanted: &str) -> Result<usize, String> {
    let mut places = text.match_indices(wanted).map(|(place, _)| place);
    match (places.next(), places.next()) {
        (Some(place), None) => Ok(place),
        (None, _) => Err(format!("`{wanted}` isn't there")),
        (Some(_), Some(_)) => Err(format!("`{wanted}` is there more than once")),
    }
}

fn splice(text: &str, changes: &[Change]) -> Result<String, String> {
    let mut out = String::with_capacity(text.len());
    let mut done = 0;
    for Change { place, new } in changes {
        if place.start < done {
            return Err(format!("two edits overlap at byte {}", place.start));
        }
        out.push_str(&text[done..place.start]);
        out.push_str(new);
        done = place.end;
    }
    out.push_str(&text[done..]);
    Ok(out)
}

#[cfg(test)]
mod tests {
    use super::apply;
    use crate::patches::Edit;

    const TEXT: &str = "one two three two-and-a-half four";

    fn edited(edits: &[&Edit]) -> Result<String, String> {
        apply(TEXT, edits, "/own")
    }

    #[test]
    fn edits_are_made_in_any_order() {
        let last = Edit::Tail { from: "four", new: "4" };
        let first = Edit::Replace { old: "one", new: "1" };
        let middle = Edit::Span { from: "three", until: "two-and", new: "3 " };
        let text = edited(&[&last, &first, &middle]);
        assert_eq!(text.as_deref(), Ok("1 two 3 two-and-a-half 4"));
    }

    #[test]
    fn a_child_module_stands_at_the_end() {
        let text = edited(&[&Edit::Child { file: "door.rs" }]).expect("no text is looked for");
        assert!(text.starts_with(TEXT));
        assert!(text.ends_with("#[path = \"/own/door.rs\"]\npub mod access;\n"));
    }

    #[test]
    fn a_missing_text_is_refused() {
        assert!(edited(&[&Edit::Replace { old: "five", new: "" }]).is_err());
        assert!(edited(&[&Edit::Tail { from: "five", new: "" }]).is_err());
        assert!(edited(&[&Edit::Span { from: "one", until: "five", new: "" }]).is_err());
    }

    #[test]
    fn a_text_that_is_there_twice_is_refused() {
        assert!(edited(&[&Edit::Replace { old: "two", new: "" }]).is_err());
        assert!(edited(&[&Edit::Span { from: "one", until: "two", new: "" }]).is_err());
    }

    #[test]
    fn overlapping_or_reversed_edits_are_refused() {
        let span = Edit::Span { from: "one", until: "four", new: "" };
        assert!(edited(&[&span, &Edit::Replace { old: "three", new: "" }]).is_err());
        assert!(edited(&[&Edit::Span { from: "four", until: "one", new: "" }]).is_err());
    }
}
