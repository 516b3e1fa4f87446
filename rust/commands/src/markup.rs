//! Text in SVG and HTML.

/// A text as both take it, in quotes too; what neither may hold is shown as a question mark.
pub fn escaped(text: &str) -> String {
    let mut safe = String::with_capacity(text.len());
    for sign in text.chars() {
        match sign {
            '&' => safe.push_str("&amp;"),
            '<' => safe.push_str("&lt;"),
            '>' => safe.push_str("&gt;"),
            '"' => safe.push_str("&quot;"),
            _ if can_stand(sign) => safe.push(sign),
            _ => safe.push('?'),
        }
    }
    safe
}

/// Whether a sign can stand in both: none that controls, and none that Unicode keeps for no sign.
pub fn can_stand(sign: char) -> bool {
    let kept = ('\u{fdd0}'..='\u{fdef}').contains(&sign) || u32::from(sign) & 0xfffe == 0xfffe;
    !(sign.is_control() || kept)
}
