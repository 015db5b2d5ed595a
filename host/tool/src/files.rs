//! Files that are read, with their faults named.

use jinnychair::journal::sha256;
use std::ffi::OsString;
use std::fs;
use std::os::unix::ffi::{OsStrExt, OsStringExt};
use std::path::{Path, PathBuf};

/// The text of a file: without a mark of UTF-8 in front, each line's end a line feed.
///
/// # Errors
///
/// Names the file, why it can't be read, and what to do.
pub fn read(path: &Path) -> Result<String, String> {
    read_with_checksum(path).map(|(text, _)| text)
}

/// The same, with the checksum of the file's bytes.
///
/// # Errors
///
/// As [`read`].
pub fn read_with_checksum(path: &Path) -> Result<(String, String), String> {
    let bytes = read_bytes(path)?;
    let checksum = sha256(&bytes);
    let text = text_of(bytes).map_err(|fault| format!("{}: {fault}", path.display()))?;
    Ok((text, checksum))
}

/// A file's bytes.
///
/// # Errors
///
/// Names the file and why it can't be read.
pub fn read_bytes(path: &Path) -> Result<Vec<u8>, String> {
    fs::read(path)
        .map_err(|error| format!("{}: can't be read: {error}. Check the name", path.display()))
}

/// The text that bytes are.
///
/// # Errors
///
/// Says what they are instead, and what to do.
pub fn text_of(bytes: Vec<u8>) -> Result<String, String> {
    if let Some(foreign) = foreign(&bytes) {
        return Err(foreign);
    }
    let text = String::from_utf8(bytes).map_err(|error| {
        let before = &error.as_bytes()[..error.utf8_error().valid_up_to()];
        let line = 1 + before.iter().filter(|byte| **byte == b'\n').count();
        format!("line {line}: a byte that isn't UTF-8. Save the file as plain text in UTF-8")
    })?;
    let text = text.strip_prefix('\u{feff}').unwrap_or(&text);
    Ok(if text.contains('\r') {
        text.replace("\r\n", "\n").replace('\r', "\n")
    } else {
        text.to_owned()
    })
}

/// What the Python package does with files of other programs.
const PHOTOGRAPHS: &str =
    "`python -m jinnychair photographs FILES --grid 14x5 --pitch 20` finds the dots in photographs";
const CONVERT: &str = "`python -m jinnychair convert FILE views.txt` makes views of it";

/// How files of other kinds begin, what they are, and what reads them.
const FOREIGN: &[(&[u8], &str, &str)] = &[
    (b"\x89PNG\r\n\x1a\n", "a PNG picture", PHOTOGRAPHS),
    (b"\xff\xd8\xff", "a JPEG picture", PHOTOGRAPHS),
    (b"II*\0", "a TIFF picture", PHOTOGRAPHS),
    (b"MM\0*", "a TIFF picture", PHOTOGRAPHS),
    (b"GIF8", "a GIF picture", PHOTOGRAPHS),
    (b"BM", "a BMP picture", PHOTOGRAPHS),
    (b"P5", "a PGM picture", PHOTOGRAPHS),
    (b"P6", "a PPM picture", PHOTOGRAPHS),
    (b"%PDF", "a PDF document", "Save the numbers in it as text"),
    (b"%YAML", "a YAML file, as OpenCV's FileStorage writes it", CONVERT),
    (b"<?xml", "an XML file, as OpenCV's FileStorage writes it", CONVERT),
    (b"<opencv_storage", "a file of OpenCV's FileStorage", CONVERT),
    (b"{", "a JSON file, as OpenCV's FileStorage writes it", CONVERT),
    (
        b"PK\x03\x04",
        "a ZIP archive or an office document",
        "Save its table as text, numbers parted by spaces",
    ),
    (b"\x1f\x8b", "a gzip archive", "Unpack it with `gunzip`"),
    (b"\xff\xfe", "text in UTF-16", "Save it as UTF-8"),
    (b"\xfe\xff", "text in UTF-16", "Save it as UTF-8"),
];

/// What bytes are that aren't this program's, by how they begin, and the command that reads them.
fn foreign(bytes: &[u8]) -> Option<String> {
    let text = bytes.strip_prefix(b"\xef\xbb\xbf").unwrap_or(bytes);
    let (_, what, remedy) = FOREIGN.iter().find(|(head, ..)| text.starts_with(head))?;
    Some(format!("this is {what}. {remedy}"))
}

/// A name with an ending; neither a dot in it nor an ending of another kind is cut off.
#[must_use]
pub fn with_ending(name: &Path, ending: &str) -> PathBuf {
    let mut name: OsString = name.into();
    name.push(ending);
    name.into()
}

/// A file's name as text from which [`named`] finds it again: each byte that isn't text in UTF-8, or that would move a terminal's
/// cursor, is written as `\xNN`.
#[must_use]
pub fn name_text(name: &Path) -> String {
    let chunks = name.as_os_str().as_bytes().utf8_chunks();
    let escape =
        |bytes: &[u8]| bytes.iter().map(|byte| format!("\\x{byte:02x}")).collect::<String>();
    chunks
        .flat_map(|chunk| {
            let letters = chunk.valid().chars().map(|letter| match letter {
                letter if letter.is_control() => escape(letter.to_string().as_bytes()),
                letter => letter.to_string(),
            });
            letters.chain([escape(chunk.invalid())]).collect::<Vec<_>>()
        })
        .collect()
}

/// The name that [`name_text`] wrote as text.
#[must_use]
pub fn named(text: &str) -> PathBuf {
    let mut bytes = vec![];
    let mut left = text;
    while let Some((before, after)) = left.split_once("\\x") {
        bytes.extend(before.as_bytes());
        let digits = after.get(..2).and_then(|digits| u8::from_str_radix(digits, 16).ok());
        match digits {
            Some(byte) => bytes.push(byte),
            None => bytes.extend(b"\\x"),
        }
        left = if digits.is_some() { &after[2..] } else { after };
    }
    bytes.extend(left.as_bytes());
    OsString::from_vec(bytes).into()
}

#[cfg(test)]
mod tests {
    use super::*;
    use std::ffi::OsStr;

    #[test]
    fn endings_are_added() {
        assert_eq!(with_ending(Path::new("a.b.c"), ".svg"), Path::new("a.b.c.svg"));
    }

    #[test]
    fn names_that_are_no_text_are_read_back() {
        for (name, expected) in [
            (&b"caf\xe9 1\nb.txt"[..], "caf\\xe9 1\\x0ab.txt"),
            ("plain é.txt".as_bytes(), "plain é.txt"),
            (b"\xff\\x", "\\xff\\x"),
            (b"\xc2\x9bm", "\\xc2\\x9bm"),
        ] {
            let path = Path::new(OsStr::from_bytes(name));
            let text = name_text(path);
            assert_eq!((&text[..], named(&text).as_path()), (expected, path));
        }
    }

    #[test]
    fn every_end_of_a_line_is_taken() {
        let text = |bytes: &[u8]| text_of(bytes.to_vec());
        assert_eq!(text(b"\xef\xbb\xbfa\r\nb\rc\n"), Ok("a\nb\nc\n".into()));
        assert!(text(b"a\n\xff").unwrap_err().starts_with("line 2: a byte that isn't UTF-8"));
    }

    #[test]
    fn files_of_other_programs_are_called_what_they_are() {
        for (bytes, what) in [
            (
                &b"\x89PNG\r\n\x1a\n...."[..],
                "this is a PNG picture. `python -m jinnychair photographs",
            ),
            (b"\xff\xd8\xff\xe0", "this is a JPEG picture"),
            (b"%PDF-1.7\n", "this is a PDF document. Save the numbers in it as text"),
            (
                b"%YAML:1.0\n---\n",
                "this is a YAML file, as OpenCV's FileStorage writes it. `python -m jinnychair convert",
            ),
            (b"\xef\xbb\xbf<?xml version=\"1.0\"?>\n<opencv_storage>", "this is an XML file"),
            (b"{\"views\": []}", "this is a JSON file"),
            (b"\xff\xfev\0", "this is text in UTF-16. Save it as UTF-8"),
        ] {
            let told = text_of(bytes.to_vec()).unwrap_err();
            assert!(told.starts_with(what), "{told}");
        }
    }
}
