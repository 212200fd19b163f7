//! The few elements that the plot is drawn with.

pub struct Svg(String);

pub type Point = (f64, f64);

/// The end of a text that lies at its point.
#[derive(Clone, Copy)]
pub enum Anchor {
    Start,
    Middle,
    End,
}

impl Svg {
    /// A white page with the texts in one family and one dark colour.
    pub fn new((width, height): Point) -> Svg {
        Svg(format!(
            "<svg xmlns=\"http://www.w3.org/2000/svg\" width=\"{width}\" height=\"{height}\" \
             viewBox=\"0 0 {width} {height}\" font-family=\"sans-serif\" fill=\"#222222\">\n\
             <rect width=\"{width}\" height=\"{height}\" fill=\"#ffffff\"/>\n"
        ))
    }

    fn add(&mut self, element: &str) {
        self.0.push_str(element);
        self.0.push('\n');
    }

    pub fn line(&mut self, (x1, y1): Point, (x2, y2): Point, colour: &str) {
        self.add(&format!(
            "<path d=\"M{x1:.1} {y1:.1}L{x2:.1} {y2:.1}\" stroke=\"{colour}\"/>"
        ));
    }

    pub fn text(&mut self, (x, y): Point, anchor: Anchor, size: u32, words: &str) {
        let anchor = match anchor {
            Anchor::Start => "start",
            Anchor::Middle => "middle",
            Anchor::End => "end",
        };
        self.add(&format!(
            "<text x=\"{x:.1}\" y=\"{y:.1}\" font-size=\"{size}\" text-anchor=\"{anchor}\">{words}</text>"
        ));
    }

    /// A mark that is placed by its name.
    pub fn define(&mut self, name: &str, outline: &str, colour: &str) {
        self.add(&format!(
            "<defs><path id=\"{name}\" d=\"{outline}\" fill=\"{colour}\" stroke=\"#222222\"/></defs>"
        ));
    }

    pub fn place(&mut self, name: &str, (x, y): Point) {
        self.add(&format!(
            "<use href=\"#{name}\" x=\"{x:.1}\" y=\"{y:.1}\"/>"
        ));
    }

    pub fn finish(mut self) -> String {
        self.add("</svg>");
        self.0
    }
}
