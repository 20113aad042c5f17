//! Nested text such as `1.2(#1, #1)`, on one line where it fits and on several where not.

/// A text with its arguments, if it has brackets at all.
#[derive(Clone, Debug, PartialEq, Eq)]
pub struct Nested {
    text: String,
    arguments: Option<Vec<Nested>>,
    /// The length on one line.
    width: usize,
}

/// A line has about so many characters.
const WIDTH: usize = 80;

impl Nested {
    /// A text without brackets.
    pub fn leaf(text: impl Into<String>) -> Nested {
        let text = text.into();
        let width = text.chars().count();
        Nested { text, arguments: None, width }
    }

    /// A text with arguments in brackets.
    pub fn with(text: impl Into<String>, arguments: Vec<Nested>) -> Nested {
        let text = text.into();
        let inside: usize = arguments.iter().map(|argument| argument.width + 2).sum();
        let width = text.chars().count() + inside.max(2);
        Nested { text, arguments: Some(arguments), width }
    }

    /// The text on one line.
    pub fn line(&self) -> String {
        let mut line = String::with_capacity(self.width);
        self.put_line(&mut line);
        line
    }

    /// Appends the text on one line.
    fn put_line(&self, output: &mut String) {
        output.push_str(&self.text);
        let Some(arguments) = &self.arguments else { return };
        output.push('(');
        for (place, argument) in arguments.iter().enumerate() {
            if place > 0 {
                output.push_str(", ");
            }
            argument.put_line(output);
        }
        output.push(')');
    }

    /// Appends the text behind so many characters of indentation, on several lines if it is long.
    pub fn put(&self, indent: usize, output: &mut String) {
        match &self.arguments {
            Some(arguments) if indent + self.width > WIDTH && !arguments.is_empty() => {
                output.push_str(&self.text);
                output.push_str("(\n");
                for (place, argument) in arguments.iter().enumerate() {
                    output.extend(std::iter::repeat_n(' ', indent + 2));
                    argument.put(indent + 2, output);
                    output.push_str(if place + 1 < arguments.len() { ",\n" } else { "\n" });
                }
                output.extend(std::iter::repeat_n(' ', indent));
                output.push(')');
            }
            _ => self.put_line(output),
        }
    }
}

#[cfg(test)]
mod tests {
    use super::*;

    #[test]
    fn long_texts_are_broken() {
        let leaf = |text: &str| Nested::leaf(text);
        let short = Nested::with("1.2", vec![leaf("#1"), leaf("#2")]);
        assert_eq!(short.line(), "1.2(#1, #2)");
        assert_eq!(Nested::with("stop", vec![]).line(), "stop()");
        let long = Nested::with("1.2", vec![leaf(&"a".repeat(70)), short]);
        let mut text = String::new();
        long.put(2, &mut text);
        assert_eq!(text, format!("1.2(\n    {},\n    1.2(#1, #2)\n  )", "a".repeat(70)));
    }
}
