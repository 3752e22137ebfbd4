//! The few shapes of a picture, as SVG. Lengths are in quarters of a millimetre, so that a picture has its size on every printer.

/// A page, upright: A4, less the margins below.
pub const PAGE: [u32; 2] = [4 * 184, 4 * 270];
/// The margins above and beside an upright page, in the words of CSS. A browser that prints follows them.
const MARGINS: [&str; 2] = ["13.5mm", "13mm"];

/// A picture that grows.
pub struct Svg {
    pub width: u32,
    pub height: u32,
    shapes: String,
}

/// A blank at which a text is not broken into lines.
pub const UNBROKEN: char = '\u{a0}';

/// How a text looks.
#[derive(Clone, Copy)]
pub struct Style {
    pub size: u32,
    pub colour: &'static str,
    pub bold: bool,
}

impl Style {
    /// About how wide a text is. A letter of a monospaced font is 0.6 of its size wide, or a little less or more.
    pub fn width(self, text: &str) -> u32 {
        (letters(text) as u32 * self.size * 5).div_ceil(8)
    }

    /// How many letters fit into this width.
    pub fn most_letters(self, width: u32) -> usize {
        (width * 8 / (self.size * 5)) as usize
    }

    /// A text in lines that fit into this width.
    pub fn lines(self, text: &str, width: u32) -> Vec<String> {
        wrapped(text, self.most_letters(width))
    }

    /// From one line of a text to the next.
    pub fn leading(self) -> u32 {
        self.size * 5 / 4
    }
}

impl Svg {
    pub fn new(width: u32, height: u32) -> Svg {
        Svg { width, height, shapes: String::new() }
    }

    /// A rectangle; `more` has its other attributes.
    pub fn rectangle(&mut self, [x, y, width, height]: [u32; 4], fill: &str, more: &str) {
        let gap = if more.is_empty() { "" } else { " " };
        self.shapes.push_str(&format!(
            "<rect x=\"{x}\" y=\"{y}\" width=\"{width}\" height=\"{height}\" fill=\"{fill}\"{gap}{more}/>\n"
        ));
    }

    pub fn text(&mut self, x: u32, y: u32, style: Style, text: &str) {
        self.text_element(x, y, style, "", &escaped(text));
    }

    /// A text that ends at x; nothing where there is none.
    pub fn text_to(&mut self, x: u32, y: u32, style: Style, text: &str) {
        if !text.is_empty() {
            self.text_element(x, y, style, " text-anchor=\"end\"", &escaped(text));
        }
    }

    /// A text in lines, as one element. Gives the height of the lines.
    pub fn text_lines(&mut self, x: u32, y: u32, style: Style, lines: &[String]) -> u32 {
        let more = lines.iter().zip(0..).skip(1).map(|(line, row)| {
            let y = y + row * style.leading();
            format!("<tspan x=\"{x}\" y=\"{y}\">{}</tspan>", escaped(line))
        });
        if let Some(first) = lines.first() {
            self.text_element(x, y, style, "", &(escaped(first) + &more.collect::<String>()));
        }
        lines.len() as u32 * style.leading()
    }

    fn text_element(&mut self, x: u32, y: u32, style: Style, more: &str, inner: &str) {
        let Style { size, colour, bold } = style;
        let weight = if bold { " font-weight=\"bold\"" } else { "" };
        self.shapes.push_str(&format!(
            "<text x=\"{x}\" y=\"{y}\" font-size=\"{size}\" fill=\"{colour}\"{weight}{more}>{inner}</text>\n"
        ));
    }

    pub fn line(&mut self, from: (u32, u32), to: (u32, u32), more: &str) {
        let ((x1, y1), (x2, y2)) = (from, to);
        self.shapes.push_str(&format!("<line x1=\"{x1}\" y1=\"{y1}\" x2=\"{x2}\" y2=\"{y2}\" {more}/>\n"));
    }

    /// How large the picture can be so that it fits on a page, upright or on its side, in thousandths of its size; 1000 at most.
    pub fn scale_on_a_page(&self) -> u32 {
        let [short, long] = PAGE;
        let (least, most) = (self.width.min(self.height), self.width.max(self.height));
        (short * 1000 / least).min(long * 1000 / most).min(1000)
    }

    /// The whole file, on white ground, in thousandths of its size.
    pub fn file(&self, title: &str, scale: u32) -> String {
        let Svg { width, height, shapes } = self;
        let [above, beside] = MARGINS;
        let is_wide = width > height && *width > PAGE[0];
        let sheet = match is_wide {
            true => format!("size: A4 landscape; margin: {beside} {above}"),
            false => format!("size: A4; margin: {above} {beside}"),
        };
        format!(
            "<?xml version=\"1.0\" encoding=\"UTF-8\"?>\n\
             <svg xmlns=\"http://www.w3.org/2000/svg\" width=\"{}\" height=\"{}\" viewBox=\"0 0 {width} {height}\" \
             font-family=\"DejaVu Sans Mono, Menlo, Consolas, monospace\">\n<title>{}</title>\n\
             <style>@page {{ {sheet} }}</style>\n<rect width=\"{width}\" height=\"{height}\" fill=\"white\"/>\n{shapes}</svg>\n",
            millimetres(*width, scale),
            millimetres(*height, scale),
            escaped(title),
        )
    }

    /// Pages one below the other, as one picture.
    pub fn stacked(pages: &[Svg]) -> Svg {
        let mut all = Svg::new(pages.iter().map(|page| page.width).max().unwrap_or(0), 0);
        for page in pages {
            all.shapes.push_str(&format!("<g transform=\"translate(0 {})\">\n{}</g>\n", all.height, page.shapes));
            all.height += page.height;
        }
        all
    }
}

/// A length in thousandths of its size, in the words of SVG.
fn millimetres(units: u32, scale: u32) -> String {
    let hundredths = units * scale / 40;
    format!("{}.{:02}mm", hundredths / 100, hundredths % 100)
}

/// How many places of a monospaced font a text takes. Other signs than those of ASCII may be twice as wide.
fn letters(text: &str) -> usize {
    text.chars().map(|sign| if sign.is_ascii() || sign == UNBROKEN { 1 } else { 2 }).sum()
}

/// A text in lines of so many letters; together they are the text. It is broken after blanks, a word that is too long for a line
/// after underscores, and a part of it that is too long anywhere.
fn wrapped(text: &str, most: usize) -> Vec<String> {
    let mut lines = vec![String::new()];
    text.split_inclusive(' ').for_each(|word| put(&mut lines, word, most));
    lines.into_iter().map(|line| line.replace(UNBROKEN, " ")).collect()
}

fn put(lines: &mut Vec<String>, word: &str, most: usize) {
    let needed = letters(word.trim_end_matches(' '));
    match (lines.last_mut(), word.trim_end_matches('_').contains('_')) {
        (Some(line), _) if letters(line) + needed <= most => line.push_str(word),
        (_, true) if needed > most => word.split_inclusive('_').for_each(|part| put(lines, part, most)),
        (_, false) if needed > most && word.chars().nth(1).is_some() => {
            word.split_inclusive(|_: char| true).for_each(|sign| put(lines, sign, most));
        }
        _ => lines.push(word.to_string()),
    }
}

/// Text without the signs that XML keeps for itself, and without those that it does not allow.
fn escaped(text: &str) -> String {
    let mut escaped = String::new();
    for sign in text.chars() {
        match sign {
            '&' => escaped.push_str("&amp;"),
            '<' => escaped.push_str("&lt;"),
            '>' => escaped.push_str("&gt;"),
            '"' => escaped.push_str("&quot;"),
            sign if sign.is_control() || matches!(sign, '\u{fffe}' | '\u{ffff}') => escaped.push('?'),
            sign => escaped.push(sign),
        }
    }
    escaped
}
