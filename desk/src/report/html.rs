//! Text inside a page or a drawing.

/// A text with the signs that mean something in HTML and SVG written as references.
pub fn escaped(text: &str) -> String {
    let mut out = String::with_capacity(text.len());
    for letter in text.chars() {
        match letter {
            '&' => out += "&amp;",
            '<' => out += "&lt;",
            '>' => out += "&gt;",
            '"' => out += "&quot;",
            '\'' => out += "&#39;",
            _ => out.push(letter),
        }
    }
    out
}

#[cfg(test)]
mod tests {
    use super::*;

    #[test]
    fn no_sign_of_html_stays() {
        assert_eq!(
            escaped("<b a='\"'>&\u{436}"),
            "&lt;b a=&#39;&quot;&#39;&gt;&amp;\u{436}"
        );
    }
}
