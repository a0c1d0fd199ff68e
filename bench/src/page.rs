//! The page docs/BENCHMARKS.md: each table stands between two marks, and the plot is drawn from one of them.
use crate::plot;
use std::ops::Range;

const DOCS: &str = concat!(env!("CARGO_MANIFEST_DIR"), "/../docs/");

pub struct Page(String);

impl Page {
    pub fn read() -> Page {
        Page(std::fs::read_to_string(format!("{DOCS}BENCHMARKS.md")).expect("docs/BENCHMARKS.md"))
    }

    /// Where the table of a section stands.
    fn place(&self, name: &str) -> Range<usize> {
        let (begin, end) = (format!("<!-- {name} -->\n"), format!("<!-- end of {name} -->\n"));
        let from = self.0.find(&begin).unwrap_or_else(|| panic!("no place for {name}")) + begin.len();
        let to = self.0.find(&end).unwrap_or_else(|| panic!("no end of {name}"));
        from..to
    }

    /// The heading that a section stands under.
    pub fn title(&self, name: &str) -> &str {
        let above = &self.0[..self.place(name).start];
        above.lines().rev().find(|l| l.starts_with('#')).unwrap_or_else(|| panic!("no heading of {name}"))
    }

    pub fn put(&mut self, name: &str, text: &str) {
        self.0.replace_range(self.place(name), text);
    }

    pub fn write(&self) {
        std::fs::write(format!("{DOCS}BENCHMARKS.md"), &self.0).expect("docs/BENCHMARKS.md");
    }

    /// The plot of the figures by size, as the page has them.
    fn plot(&self) -> String {
        plot::svg(&plot::panels(&self.0[self.place("sizes")]))
    }

    pub fn draw(&self) {
        std::fs::write(format!("{DOCS}benchmarks.svg"), self.plot()).expect("docs/benchmarks.svg");
    }
}

#[cfg(test)]
mod tests {
    use super::*;

    #[test]
    fn the_plot_is_of_the_pages_figures() {
        let drawn = std::fs::read_to_string(format!("{DOCS}benchmarks.svg")).expect("docs/benchmarks.svg");
        assert!(drawn == Page::read().plot(), "another plot than the page's figures give: cargo run --release --offline -- plot");
    }

    #[test]
    fn a_section_is_put_between_its_marks() {
        let mut page = Page("# One\n<!-- a -->\nold\n<!-- end of a -->\n## Two\ntext\n<!-- b -->\n<!-- end of b -->\nrest\n".into());
        assert_eq!((page.title("a"), page.title("b")), ("# One", "## Two"));
        page.put("b", "new\n");
        assert_eq!(page.0, "# One\n<!-- a -->\nold\n<!-- end of a -->\n## Two\ntext\n<!-- b -->\nnew\n<!-- end of b -->\nrest\n");
    }
}
