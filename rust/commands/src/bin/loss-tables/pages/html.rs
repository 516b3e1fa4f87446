//! HTML 5: a whole page, tables, links and names.

use std::ffi::OsStr;
use std::fmt::Write;
use std::os::unix::ffi::OsStrExt;

use commands::markup::escaped;

/// How every page begins.
pub const BEGINS: &str = "<!DOCTYPE html>\n<html lang=\"en\">\n<head>\n<meta charset=\"utf-8\">\n\
                          <meta name=\"generator\" content=\"loss-tables\">\n";
const STYLE: &str = include_str!("style.css");

/// A page with this title. The empty icon keeps browsers from asking for one.
pub fn document(title: &str, body: &str) -> String {
    let title = escaped(title);
    format!(
        "{BEGINS}<meta name=\"viewport\" content=\"width=device-width, initial-scale=1\">\n\
         <meta name=\"color-scheme\" content=\"light dark\">\n\
         <link rel=\"icon\" href=\"data:,\">\n\
         <title>{title}</title>\n\
         <style>\n{STYLE}</style>\n\
         </head>\n<body>\n{body}</body>\n</html>\n"
    )
}

/// A name as it is read.
pub fn shown_name(name: &OsStr) -> String {
    name.to_string_lossy().into_owned()
}

/// A file of the same folder as a link has it: every byte that a link may give another meaning is told by
/// its number.
pub fn link(file: &OsStr) -> String {
    let mut safe = String::new();
    for &byte in file.as_bytes() {
        if byte.is_ascii_alphanumeric() || b"-._~".contains(&byte) {
            safe.push(byte.into());
        } else {
            // Writing to a string does not fail.
            let _ = write!(safe, "%{byte:02X}");
        }
    }
    safe
}

/// A link to a file of the same folder, by its name.
pub fn linked(file: &OsStr) -> String {
    let name = escaped(&shown_name(file));
    format!("<a class=\"name\" href=\"{}\">{name}</a>", link(file))
}

/// A picture that may be wider than the page.
pub fn figure(picture: &str, caption: &str) -> String {
    let caption = escaped(caption);
    format!(
        "<figure>\n{}<figcaption>{caption}</figcaption>\n</figure>\n",
        wide(&caption, picture)
    )
}

/// What can be moved sideways where it is wider than the page, by keyboard too; the label is safe text.
pub fn wide(label: &str, inner: &str) -> String {
    format!(
        "<div class=\"wide\" role=\"region\" tabindex=\"0\" aria-label=\"{label}\">\n{inner}</div>\n"
    )
}

/// The columns' headings of a table, each behind its class, which may be none.
pub fn headings(columns: &[(&str, &str)]) -> String {
    let heading = |(class, text): &(&str, &str)| match *class {
        "" => format!("<th scope=\"col\">{text}</th>"),
        class => format!("<th scope=\"col\" class=\"{class}\">{text}</th>"),
    };
    let cells: String = columns.iter().map(heading).collect();
    format!("<thead>\n<tr>{cells}</tr>\n</thead>\n")
}
