//! Prints the list of patches: module, purpose, and what is changed.

use source::patches::{Edit, PATCHES};

fn main() {
    for patch in PATCHES {
        println!("{}, {}, {:?}: {}", patch.krate, patch.module, patch.purpose, change(&patch.edit));
    }
}

fn change(edit: &Edit) -> String {
    match edit {
        Edit::Replace { old, new } => format!("{old:?} becomes {new:?}"),
        Edit::Span { from, until, new } => format!("{from:?} up to {until:?} becomes {new:?}"),
        Edit::Tail { from, new } => format!("{from:?} up to the end becomes {new:?}"),
        Edit::Child { file } => format!("{file} is added as a child module"),
    }
}
