//! Escaping: how any text stands in a page without being read as a part of the page itself.
//! Only `html` calls it, so that no text comes into a page around it.

/// A text as it stands in a page, between tags or in the quotes of an attribute. A control character,
/// which no page may have, becomes the mark for what cannot be shown.
pub fn escaped(text: &str) -> String {
    let mut written = String::with_capacity(text.len());
    for letter in text.chars() {
        match letter {
            '&' => written.push_str("&amp;"),
            '<' => written.push_str("&lt;"),
            '>' => written.push_str("&gt;"),
            '"' => written.push_str("&quot;"),
            '\'' => written.push_str("&#39;"),
            letter if letter.is_control() => written.push(char::REPLACEMENT_CHARACTER),
            letter => written.push(letter),
        }
    }
    written
}

#[cfg(test)]
mod tests {
    use super::escaped;

    #[test]
    fn marks_of_the_page_are_escaped() {
        assert_eq!(
            escaped("</title><script>alert('a' & \"b\")</script>"),
            "&lt;/title&gt;&lt;script&gt;alert(&#39;a&#39; &amp; &quot;b&quot;)&lt;/script&gt;"
        );
    }

    #[test]
    fn what_is_escaped_is_escaped_again() {
        assert_eq!(escaped("&lt;"), "&amp;lt;");
    }

    #[test]
    fn letters_of_all_scripts_stay() {
        assert_eq!(escaped("שלום 🏃 Zürich"), "שלום 🏃 Zürich");
    }

    #[test]
    fn control_characters_are_not_written() {
        assert_eq!(escaped("a\0b\u{1b}c\n"), "a\u{fffd}b\u{fffd}c\u{fffd}");
    }
}
