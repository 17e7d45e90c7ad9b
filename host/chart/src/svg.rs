//! Elements of a picture in plain SVG 1.1.

use std::fmt::Write;

/// Where a text stands at its point.
#[derive(Clone, Copy)]
pub(crate) enum Anchor {
    Start,
    Middle,
    End,
}

/// A point, from the left and from the top.
pub(crate) type Point = (f64, f64);

/// The elements drawn so far.
#[derive(Default)]
pub(crate) struct Svg {
    elements: String,
}

impl Svg {
    /// A filled rectangle from its left upper corner, with a text that is shown on request.
    pub fn bar(&mut self, (x, y): Point, (width, height): Point, colour: &str, title: &str) {
        let title = escaped(title);
        self.add(&format!(
            "<rect x=\"{x:.1}\" y=\"{y:.1}\" width=\"{width:.1}\" height=\"{height:.1}\" \
             fill=\"{colour}\"><title>{title}</title></rect>"
        ));
    }

    /// A level line.
    pub fn line(&mut self, (x, y): Point, end: f64, colour: &str) {
        self.add(&format!(
            "<line x1=\"{x:.1}\" y1=\"{y:.1}\" x2=\"{end:.1}\" y2=\"{y:.1}\" stroke=\"{colour}\"/>"
        ));
    }

    /// A text of one line, its letters of this size.
    pub fn text(&mut self, at: Point, anchor: Anchor, size: u32, text: &str) {
        self.styled_text(at, anchor, size, "", text);
    }

    /// A text that lines behind it do not cross.
    pub fn text_over_lines(&mut self, at: Point, anchor: Anchor, size: u32, text: &str) {
        self.styled_text(at, anchor, size, " stroke=\"#ffffff\" stroke-width=\"4\"", text);
        self.text(at, anchor, size, text);
    }

    fn styled_text(&mut self, (x, y): Point, anchor: Anchor, size: u32, style: &str, text: &str) {
        let anchor = match anchor {
            Anchor::Start => "start",
            Anchor::Middle => "middle",
            Anchor::End => "end",
        };
        let text = escaped(text);
        self.add(&format!(
            "<text x=\"{x:.1}\" y=\"{y:.1}\" text-anchor=\"{anchor}\" font-size=\"{size}\"\
             {style}>{text}</text>"
        ));
    }

    fn add(&mut self, element: &str) {
        writeln!(self.elements, "{element}").expect("a string grows");
    }

    /// The whole picture, on white.
    pub fn picture(self, (width, height): Point) -> String {
        format!(
            "<?xml version=\"1.0\" encoding=\"UTF-8\"?>\n\
             <svg xmlns=\"http://www.w3.org/2000/svg\" version=\"1.1\" width=\"{width:.0}\" \
             height=\"{height:.0}\" viewBox=\"0 0 {width:.0} {height:.0}\" \
             font-family=\"sans-serif\" fill=\"#222222\">\n\
             <rect width=\"{width:.0}\" height=\"{height:.0}\" fill=\"#ffffff\"/>\n\
             {}</svg>\n",
            self.elements
        )
    }
}

/// A text as it may stand in an element or in quotation marks; a character that no XML may have is
/// replaced.
fn escaped(text: &str) -> String {
    let mut escaped = String::new();
    for character in text.chars() {
        match character {
            '&' => escaped += "&amp;",
            '<' => escaped += "&lt;",
            '>' => escaped += "&gt;",
            '"' => escaped += "&quot;",
            '\'' => escaped += "&apos;",
            '\u{0}'..='\u{8}'
            | '\u{b}'
            | '\u{c}'
            | '\u{e}'..='\u{1f}'
            | '\u{fffe}'
            | '\u{ffff}' => {
                escaped.push('\u{fffd}');
            }
            other => escaped.push(other),
        }
    }
    escaped
}

#[cfg(test)]
mod tests {
    use super::*;

    #[test]
    fn no_text_is_markup() {
        assert_eq!(escaped("a<b> & \"c\" 'd'"), "a&lt;b&gt; &amp; &quot;c&quot; &apos;d&apos;");
        assert_eq!(escaped("H\u{0}\u{1b}\u{ffff} ≤ 4\t"), "H\u{fffd}\u{fffd}\u{fffd} ≤ 4\t");
    }

    #[test]
    fn a_picture_has_its_elements_in_order() {
        let mut svg = Svg::default();
        svg.bar((1.0, 2.0), (3.0, 4.25), "#000000", "<3>");
        svg.line((0.0, 9.0), 5.0, "#cccccc");
        svg.text((7.0, 8.0), Anchor::End, 11, "&");
        let elements = "\
<rect x=\"1.0\" y=\"2.0\" width=\"3.0\" height=\"4.2\" fill=\"#000000\"><title>&lt;3&gt;</title></rect>
<line x1=\"0.0\" y1=\"9.0\" x2=\"5.0\" y2=\"9.0\" stroke=\"#cccccc\"/>
<text x=\"7.0\" y=\"8.0\" text-anchor=\"end\" font-size=\"11\">&amp;</text>
</svg>
";
        assert!(svg.picture((10.0, 20.0)).ends_with(elements));
    }
}
