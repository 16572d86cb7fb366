//! Paper: elements one after the other, then the frame around them.

use std::fmt::Display;

/// The style sheet of every picture: dark ink on light paper.
const STYLE: &str = "\
.paper{fill:#fcfcf9;stroke:#8a8a84}
text{font:13px sans-serif;fill:#1c1c1a}
.scale{font-size:11px;fill:#4a4a46}
.grid{stroke:#d9d9d2}
.row{stroke:#b9b9b1}
.accurate{fill:#0f5a9e}
.range{stroke:#0f5a9e;stroke-width:2;opacity:.45}
.approximate{fill:#a8480c}
.bar{fill:url(#hatch);stroke:#a8480c}
.hatch{stroke:#a8480c}
";

/// A picture's elements so far.
#[derive(Clone, Debug, Default)]
pub struct Paper {
    elements: String,
}

/// What belongs to a picture besides its elements.
#[derive(Clone, Copy, Debug)]
pub struct Frame<'a> {
    /// The width.
    pub width: u32,
    /// The height.
    pub height: u32,
    /// What it shows, in a few words.
    pub title: &'a str,
    /// What it shows, all of it in words.
    pub description: &'a str,
    /// Rules besides the common style sheet's; later ones win.
    pub style: &'a str,
}

impl Paper {
    /// Text whose baseline starts here.
    pub fn text(&mut self, x: u32, y: u32, class: &str, words: &str) {
        let class = match class {
            "" => String::new(),
            class => format!(" class=\"{class}\""),
        };
        self.line(format_args!(
            "<text{class} x=\"{x}\" y=\"{y}\">{words}</text>"
        ));
    }

    /// A path.
    pub fn path(&mut self, class: &str, data: impl Display) {
        self.line(format_args!("<path class=\"{class}\" d=\"{data}\"/>"));
    }

    /// A rectangle: its left upper corner, width and height.
    pub fn rect(&mut self, class: &str, [x, y, width, height]: [u32; 4]) {
        self.line(format_args!(
            "<rect class=\"{class}\" x=\"{x}\" y=\"{y}\" width=\"{width}\" height=\"{height}\"/>"
        ));
    }

    /// A circle: its centre and radius.
    pub fn circle(&mut self, class: &str, [x, y, radius]: [u32; 3]) {
        self.line(format_args!(
            "<circle class=\"{class}\" cx=\"{x}\" cy=\"{y}\" r=\"{radius}\"/>"
        ));
    }

    /// Elements that belong together, with words for them.
    pub fn group(&mut self, words: &str, elements: impl FnOnce(&mut Paper)) {
        self.line(format_args!("<g><title>{words}</title>"));
        elements(self);
        self.line("</g>");
    }

    /// The whole picture.
    pub fn framed(self, frame: &Frame) -> String {
        let Frame { width, height, .. } = frame;
        let mut out = Paper::default();
        out.line(format_args!(
            "<svg xmlns=\"http://www.w3.org/2000/svg\" viewBox=\"0 0 {width} {height}\" \
             width=\"{width}\" height=\"{height}\" role=\"img\" aria-labelledby=\"title desc\">"
        ));
        out.line(format_args!("<title id=\"title\">{}</title>", frame.title));
        out.line(format_args!(
            "<desc id=\"desc\">{}</desc>",
            frame.description
        ));
        out.line(format_args!("<style>\n{STYLE}{}</style>", frame.style));
        out.line(
            "<defs><pattern id=\"hatch\" width=\"6\" height=\"6\" patternUnits=\"userSpaceOnUse\">\
             <path class=\"hatch\" d=\"M0 6L6 0\"/></pattern></defs>",
        );
        out.line(format_args!(
            "<rect class=\"paper\" x=\".5\" y=\".5\" width=\"{}\" height=\"{}\" rx=\"6\"/>",
            width - 1,
            height - 1
        ));
        out.elements + &self.elements + "</svg>\n"
    }

    /// The elements so far.
    #[cfg(test)]
    pub(super) fn elements(&self) -> &str {
        &self.elements
    }

    fn line(&mut self, element: impl Display) {
        self.elements += &format!("{element}\n");
    }
}
