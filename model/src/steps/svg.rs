//! The elements of an SVG file, and how they look: light, dark on a dark
//! screen, and light again in print.

/// An SVG file that is being written.
#[derive(Default)]
pub struct Svg {
    body: String,
}

impl Svg {
    pub fn line(&mut self, class: &str, (x1, y1): (f64, f64), (x2, y2): (f64, f64)) {
        self.put(&format!(
            r#"<line class="{class}" x1="{x1}" y1="{y1}" x2="{x2}" y2="{y2}"/>"#
        ));
    }

    pub fn rect(&mut self, class: &str, (x, y): (f64, f64), width: f64, height: f64) {
        self.put(&format!(
            r#"<rect class="{class}" x="{x}" y="{y}" width="{width}" height="{height}"/>"#
        ));
    }

    pub fn circle(&mut self, class: &str, (x, y): (f64, f64), radius: f64) {
        self.put(&format!(
            r#"<circle class="{class}" cx="{x}" cy="{y}" r="{radius}"/>"#
        ));
    }

    /// A path by its own letters.
    pub fn path(&mut self, class: &str, letters: &str) {
        self.put(&format!(r#"<path class="{class}" d="{letters}"/>"#));
    }

    pub fn text(&mut self, class: &str, (x, y): (f64, f64), text: &str) {
        self.put(&format!(
            r#"<text class="{class}" x="{x}" y="{y}">{}</text>"#,
            escaped(text)
        ));
    }

    /// What another has, behind what this one has.
    pub fn append(&mut self, other: Svg) {
        self.body.push_str(&other.body);
    }

    fn put(&mut self, element: &str) {
        self.body.push_str(element);
        self.body.push('\n');
    }

    /// The whole file, of this size.
    pub fn file(&self, title: &str, width: f64, height: f64) -> String {
        let head = format!(
            r#"<svg xmlns="http://www.w3.org/2000/svg" width="{width}" height="{height}" viewBox="0 0 {width} {height}" role="img">"#
        );
        let title = escaped(title);
        let Svg { body } = self;
        format!("{head}\n<title>{title}</title>\n<style>\n{LIGHT}@media screen and (prefers-color-scheme: dark) {{\n{DARK}}}\n{PRINT}</style>\n{DEFINITIONS}{body}</svg>\n")
    }
}

fn escaped(text: &str) -> String {
    let text = text
        .replace('&', "&amp;")
        .replace('<', "&lt;")
        .replace('>', "&gt;");
    text.chars().filter(|letter| !letter.is_control()).collect()
}

const LIGHT: &str = "svg { background: #ffffff; }
text { font-family: Verdana, 'DejaVu Sans', Arial, sans-serif; font-size: 12px; fill: #1d2126; }
.label { paint-order: stroke; stroke: #ffffff; stroke-width: 3px; stroke-linejoin: round; }
.title { font-size: 15px; font-weight: bold; }
.card { font-weight: bold; }
.number { text-anchor: end; fill: #6a727b; }
.grey { fill: #6a727b; }
.bad { fill: #b3261e; font-weight: bold; }
.lock { font-size: 9px; text-anchor: middle; fill: #ffffff; }
.lock-waits { font-size: 9px; text-anchor: middle; fill: #1d2126; paint-order: stroke; stroke: #ffffff; stroke-width: 3px; }
.paper { fill: #ffffff; }
.stripe { fill: #f3f5f7; }
.lane { stroke: #9aa2ab; stroke-width: 1.5; }
.rest { stroke: #6a727b; stroke-width: 2; stroke-dasharray: 2 4; }
.holds { fill: #3667b5; }
.waits { fill: url(#hatch); stroke: #3667b5; stroke-width: 1; }
.hatch { stroke: #3667b5; stroke-width: 1.6; }
.arrow { fill: none; stroke: #3667b5; stroke-width: 1.4; }
.head { fill: #3667b5; }
.round { stroke: #1d2126; stroke-width: 3; }
.step { stroke: #1d2126; stroke-width: 2; fill: none; }
.job { stroke: #1d2126; stroke-width: 2; fill: #ffffff; }
.solid { fill: #1d2126; }
.ordered { fill: #1a7f4b; stroke: #1a7f4b; stroke-width: 1.5; }
.none-written { fill: #ffffff; stroke: #1a7f4b; stroke-width: 2; }
.not-ordered { fill: #b3261e; stroke: #b3261e; }
.refused { stroke: #6a727b; stroke-width: 2; fill: none; }
";

const DARK: &str = "svg { background: #17191c; }
text { fill: #e8eaed; }
.label { stroke: #17191c; }
.number, .grey { fill: #a5adb6; }
.bad { fill: #ff8a80; }
.lock { fill: #10131a; }
.lock-waits { fill: #e8eaed; stroke: #17191c; }
.paper { fill: #17191c; }
.stripe { fill: #1f2327; }
.lane { stroke: #69727c; }
.rest { stroke: #a5adb6; }
.holds, .head { fill: #8ab4f8; }
.waits, .hatch, .arrow { stroke: #8ab4f8; }
.round, .step { stroke: #e8eaed; }
.job { stroke: #e8eaed; fill: #17191c; }
.solid { fill: #e8eaed; }
.ordered { fill: #6fd39b; stroke: #6fd39b; }
.none-written { fill: #17191c; stroke: #6fd39b; }
.not-ordered { fill: #ff8a80; stroke: #ff8a80; }
.refused { stroke: #a5adb6; }
";

const PRINT: &str = "@media print { svg { width: 100%; height: auto; } }
";

const DEFINITIONS: &str = r#"<defs>
<pattern id="hatch" width="6" height="6" patternUnits="userSpaceOnUse" patternTransform="rotate(45)"><line class="hatch" x1="0" y1="0" x2="0" y2="6"/></pattern>
</defs>
"#;
