//! What is needed of JSON.

/// A text, in quotation marks.
pub fn text(text: &str) -> String {
    let mut quoted = String::from("\"");
    for character in text.chars() {
        match character {
            '"' | '\\' => quoted.extend(['\\', character]),
            '\0'..='\x1f' => quoted += &format!("\\u{:04x}", u32::from(character)),
            _ => quoted.push(character),
        }
    }
    quoted + "\""
}

/// What is there, or null.
pub fn or_null(value: Option<impl ToString>) -> String {
    value.map_or("null".into(), |value| value.to_string())
}

/// A list of what is made of each item.
pub fn list<T>(items: &[T], object: impl Fn(&T) -> String) -> String {
    let objects: Vec<String> = items.iter().map(object).collect();
    format!("[{}]", objects.join(","))
}

#[cfg(test)]
mod tests {
    use super::*;

    #[test]
    fn texts_are_quoted() {
        assert_eq!(text("a channel's"), "\"a channel's\"");
        assert_eq!(text("a\"b\\c\n\u{e9}"), "\"a\\\"b\\\\c\\u000a\u{e9}\"");
    }

    #[test]
    fn lists_and_what_is_absent() {
        assert_eq!(list(&[1, 2], i32::to_string), "[1,2]");
        assert_eq!(list(&[], i32::to_string), "[]");
        assert_eq!(or_null(None::<u8>), "null");
        assert_eq!(or_null(Some(3)), "3");
    }
}
