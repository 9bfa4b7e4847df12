//! A small writer of SVG.

use std::fmt::Write;

#[derive(Clone, Copy)]
pub enum Anchor {
    Start,
    Middle,
    End,
}

/// How a text is set.
#[derive(Clone, Copy)]
pub struct Font {
    pub size: usize,
    pub fill: &'static str,
    pub bold: bool,
    pub anchor: Anchor,
}

impl Font {
    pub const fn anchored(self, anchor: Anchor) -> Font {
        Font { anchor, ..self }
    }
}

pub struct Svg {
    text: String,
}

impl Svg {
    pub fn new(width: usize, height: usize, title: &str) -> Svg {
        let mut svg = Svg { text: String::new() };
        svg.put(format_args!(
            "<svg xmlns=\"http://www.w3.org/2000/svg\" width=\"{width}\" height=\"{height}\" viewBox=\"0 0 {width} {height}\" \
             role=\"img\" font-family=\"Helvetica, Arial, 'DejaVu Sans', sans-serif\">\n<title>{}</title>\n",
            escaped(title)
        ));
        svg.rect(0, 0, width, height, "#ffffff");
        svg
    }

    fn put(&mut self, what: std::fmt::Arguments) {
        // a text has no way to refuse
        let _ = self.text.write_fmt(what);
    }

    pub fn rect(&mut self, x: usize, y: usize, width: usize, height: usize, fill: &str) {
        self.noted(x, y, width, height, fill, "");
    }

    /// A rectangle with a note that a reader's pointer brings up.
    pub fn noted(&mut self, x: usize, y: usize, width: usize, height: usize, fill: &str, note: &str) {
        self.put(format_args!(
            "<rect x=\"{x}\" y=\"{y}\" width=\"{width}\" height=\"{height}\" fill=\"{fill}\""
        ));
        if note.is_empty() {
            self.text.push_str("/>\n");
        } else {
            self.put(format_args!("><title>{}</title></rect>\n", escaped(note)));
        }
    }

    pub fn line(&mut self, x1: usize, y1: usize, x2: usize, y2: usize, stroke: &str) {
        self.put(format_args!(
            "<line x1=\"{x1}\" y1=\"{y1}\" x2=\"{x2}\" y2=\"{y2}\" stroke=\"{stroke}\"/>\n"
        ));
    }

    pub fn text(&mut self, x: usize, y: usize, font: Font, content: &str) {
        let anchor = match font.anchor {
            Anchor::Start => "start",
            Anchor::Middle => "middle",
            Anchor::End => "end",
        };
        let (size, fill) = (font.size, font.fill);
        let weight = if font.bold { " font-weight=\"bold\"" } else { "" };
        self.put(format_args!(
            "<text x=\"{x}\" y=\"{y}\" text-anchor=\"{anchor}\" font-size=\"{size}\" fill=\"{fill}\"{weight}>{}</text>\n",
            escaped(content)
        ));
    }

    pub fn finish(mut self) -> String {
        self.text.push_str("</svg>\n");
        self.text
    }
}

/// Text for XML; characters that XML has no place for are replaced.
fn escaped(text: &str) -> String {
    text.chars()
        .map(|c| match c {
            '&' => "&amp;".to_string(),
            '<' => "&lt;".to_string(),
            '>' => "&gt;".to_string(),
            '"' => "&quot;".to_string(),
            c if c.is_control() || matches!(c, '\u{fffe}' | '\u{ffff}') => '\u{fffd}'.to_string(),
            c => c.to_string(),
        })
        .collect()
}

#[cfg(test)]
mod tests {
    #[test]
    fn names_cannot_break_out() {
        assert_eq!(super::escaped("a<b>&\"\n\u{0}"), "a&lt;b&gt;&amp;&quot;\u{fffd}\u{fffd}");
    }
}
