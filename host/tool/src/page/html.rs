//! The elements of a page.

/// A text within an element or an attribute.
pub fn escaped(text: &str) -> String {
    let mut escaped = String::new();
    for c in text.chars() {
        match c {
            '&' => escaped += "&amp;",
            '<' => escaped += "&lt;",
            '>' => escaped += "&gt;",
            '"' => escaped += "&quot;",
            '\'' => escaped += "&#39;",
            c => escaped.push(c),
        }
    }
    escaped
}

/// A text whose options, as --step, stay on one line.
fn unbroken(text: &str) -> String {
    let word = |word: &str| {
        let escaped = escaped(word);
        if word.contains("--") { format!("<span class=\"word\">{escaped}</span>") } else { escaped }
    };
    text.split(' ').map(word).collect::<Vec<_>>().join(" ")
}

/// A text as a string of CSS, which no letter of it can end.
pub fn css_string(text: &str) -> String {
    let letter = |c: char| match c {
        c if c.is_ascii_alphanumeric() || " .,:-_".contains(c) => c.to_string(),
        c => format!("\\{:x} ", u32::from(c)),
    };
    format!("\"{}\"", text.chars().map(letter).collect::<String>())
}

/// An element with a text.
pub fn element(name: &str, text: &str) -> String {
    format!("<{name}>{}</{name}>\n", unbroken(text))
}

/// A paragraph that looks as its class says.
pub fn paragraph(class: &str, text: &str) -> String {
    format!("<p class=\"{class}\">{}</p>\n", unbroken(text))
}

/// What is as wide as it has to be: a narrow screen shows a part of it at a time.
pub fn wide(holds: &str) -> String {
    format!(
        "{}<div class=\"wide\">{holds}</div>\n",
        paragraph("note narrow", "Wider than this screen: move it sideways.")
    )
}

/// A section with its heading; what it holds is HTML.
pub fn section(class: &str, heading: &str, holds: &str) -> String {
    format!("<section class=\"{class}\">\n<h2>{}</h2>\n{holds}</section>\n", escaped(heading))
}

/// A part with its heading, below a section's; what it holds is HTML.
pub fn part(heading: &str, holds: &str) -> String {
    format!("<div class=\"keep\">\n<h3>{}</h3>\n{holds}</div>\n", escaped(heading))
}

/// Names and what is said of them. A name that begins with spaces belongs to the one above it.
pub fn facts(rows: &[(String, String)]) -> String {
    let row = |(name, value): &(String, String)| {
        let class = if name.starts_with(' ') || name.is_empty() { " class=\"in\"" } else { "" };
        let (name, value) = (escaped(name.trim()), unbroken(value));
        format!("<tr><th scope=\"row\"{class}>{name}</th><td>{value}</td></tr>\n")
    };
    format!(
        "<table class=\"facts\"><tbody>\n{}</tbody></table>\n",
        rows.iter().map(row).collect::<String>()
    )
}

/// A list with a heading for each column; those whose heading begins with `#` hold numbers. The last row may be a sum.
pub fn list(heads: &[&str], rows: &[Vec<String>], has_sum: bool) -> String {
    let is_number = |i: usize| heads[i].starts_with('#');
    let class = |i: usize| if is_number(i) { " class=\"n\"" } else { "" };
    let head = |(i, head): (usize, &&str)| {
        format!("<th scope=\"col\"{}>{}</th>", class(i), escaped(head.trim_start_matches('#')))
    };
    let row = |(place, row): (usize, &Vec<String>)| {
        let cell = |(i, text): (usize, &String)| format!("<td{}>{}</td>", class(i), escaped(text));
        let cells: String = row.iter().enumerate().map(cell).collect();
        let sum = if has_sum && place + 1 == rows.len() { " class=\"sum\"" } else { "" };
        format!("<tr{sum}>{cells}</tr>\n")
    };
    let heads: String = heads.iter().enumerate().map(head).collect();
    let rows: String = rows.iter().enumerate().map(row).collect();
    format!(
        "<div class=\"wide\"><table class=\"list\"><thead><tr>{heads}</tr></thead><tbody>\n{rows}</tbody></table></div>\n"
    )
}
