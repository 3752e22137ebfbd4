//! A run as a picture. Where it has few lines and fits on a page of A4, threads are lanes and time runs to the right; otherwise
//! threads are columns and time runs down, over as many pages as it needs.

use crate::case::Case;
use crate::run::{verdict, Run};
use crate::svg::Svg;
use crate::{columns, lanes};
use std::ffi::{OsStr, OsString};
use std::path::Path;

#[cfg(test)]
mod tests;

/// The most lines of a run that is drawn in lanes.
const MOST_IN_LANES: usize = 40;
/// How far lanes are scaled down to fit on a page, in thousandths: their smallest text then has 7 points.
const SMALLEST_SCALE: u32 = 900;

pub struct Picture {
    title: String,
    pages: Vec<Svg>,
}

impl Picture {
    pub fn of(case: &Case, name: &str, run: &Run) -> Picture {
        let lanes = (run.steps.len() <= MOST_IN_LANES).then(|| lanes::draw(case, name, run));
        let lanes = lanes.filter(|lanes| lanes.scale_on_a_page() >= SMALLEST_SCALE);
        let pages = lanes.map_or_else(|| columns::draw(case, name, run), |lanes| vec![lanes]);
        Picture { title: format!("{name}: {}", verdict(case, run.ending)), pages }
    }

    /// The pages with the names of their files: one page has this name, several are numbered.
    pub fn files(&self, name: &OsStr) -> Vec<(OsString, String)> {
        let name_of = |page: usize| if self.pages.len() == 1 { name.to_os_string() } else { numbered(name, page) };
        let title_of = |page: usize| match self.pages.len() {
            1 => self.title.clone(),
            pages => format!("{}, page {page} of {pages}", self.title),
        };
        self.pages
            .iter()
            .zip(1..)
            .map(|(svg, page)| (name_of(page), svg.file(&title_of(page), svg.scale_on_a_page())))
            .collect()
    }

    /// All pages in one file, one below the other.
    pub fn one_file(&self) -> String {
        match self.pages.as_slice() {
            [page] => page.file(&self.title, page.scale_on_a_page()),
            pages => Svg::stacked(pages).file(&self.title, 1000),
        }
    }
}

/// `run.svg` as `run-2.svg`.
pub fn numbered(name: &OsStr, page: usize) -> OsString {
    let path = Path::new(name);
    let mut file = path.file_stem().unwrap_or_default().to_os_string();
    file.push(format!("-{page}"));
    if let Some(extension) = path.extension() {
        file.push(".");
        file.push(extension);
    }
    path.with_file_name(file).into_os_string()
}
