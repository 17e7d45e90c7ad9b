//! The picture: for each script a group of bars, one for each report. A bar has the accesses by
//! kind, one upon the other; the narrow one beside it has the updates that failed; the number over
//! it is that of accesses for each operation. Many scripts are drawn in several rows.

use std::error::Error;
use std::fmt;

use crate::axis::{with_commas, Axis};
use crate::report::{Figures, Report, KINDS};
use crate::svg::{Anchor, Point, Svg};

const TITLE: &str = "Accesses by kind, script by script";
const FAILED: &str = "failed updates";

/// The colours of the kinds, from Okabe and Ito's palette, which colour-blind people can tell
/// apart.
const COLOURS: [&str; 6] = ["#56b4e9", "#0072b2", "#e69f00", "#009e73", "#f0e442", "#cc79a7"];
const FAILED_COLOUR: &str = "#000000";
const GRID_COLOUR: &str = "#dddddd";
const BASE_COLOUR: &str = "#222222";

/// Sizes, in pixels. Those around the rows:
const LEFT: f64 = 84.0;
const TOP: f64 = 74.0;
const LEGEND_GAP: f64 = 24.0;
const LEGEND_WIDTH: f64 = 152.0;
const BOTTOM: f64 = 50.0;
/// Those of a row: its bars, alone or among others, and the way from its base to the next row's top.
const NARROWEST_ROW: f64 = 150.0;
const WIDEST_ROW: f64 = 960.0;
const LONE_HEIGHT: f64 = 260.0;
const HEIGHT: f64 = 170.0;
const NEXT_ROW: f64 = 86.0;
const LABEL_BELOW: f64 = 17.0;
const SCRIPT_BELOW: f64 = 36.0;
/// Those of bars, and of the gap between groups of them.
const BAR: f64 = 18.0;
const BAR_GAP: f64 = 2.0;
const NARROW_BAR: f64 = 6.0;
const LEAST_SLOT: f64 = 36.0;
const GROUP_GAP: f64 = 26.0;
/// Those of letters; a small one has about this width.
const SMALL: u32 = 11;
const SMALL_WIDTH: f64 = 7.0;

/// Why reports cannot be drawn side by side.
#[derive(Clone, Copy, Debug, PartialEq, Eq)]
pub enum NotDrawable {
    /// There is no report, or they have no script.
    NoScript,
    /// Two reports have these different numbers of scripts.
    DifferentScripts(usize, usize),
}

impl fmt::Display for NotDrawable {
    fn fmt(&self, f: &mut fmt::Formatter<'_>) -> fmt::Result {
        match self {
            NotDrawable::NoScript => f.pad("there is no script to draw"),
            NotDrawable::DifferentScripts(one, other) => {
                write!(f, "one report has {one} scripts and another one {other}")
            }
        }
    }
}

impl Error for NotDrawable {}

/// Draws reports of the same scripts, each under its label: the text of an SVG file.
///
/// # Errors
///
/// [`NotDrawable`] where there is no script, or where the reports have different numbers of them.
pub fn draw(reports: &[(String, Report)]) -> Result<String, NotDrawable> {
    let scripts = reports.first().map_or(0, |(_, report)| report.scripts.len());
    let mut others = reports.iter().map(|(_, report)| report.scripts.len());
    if let Some(other) = others.find(|&other| other != scripts) {
        return Err(NotDrawable::DifferentScripts(scripts, other));
    }
    if scripts == 0 {
        return Err(NotDrawable::NoScript);
    }
    let settings: Vec<Setting> = reports
        .iter()
        .map(|(label, report)| Setting { label, scripts: report.sums().collect() })
        .collect();
    let grid = Grid::of(&settings, scripts);
    Ok(Drawing { settings: &settings, scripts, grid, svg: Svg::default() }.picture())
}

/// What one report gives to the picture.
struct Setting<'a> {
    label: &'a str,
    scripts: Vec<Figures>,
}

/// Where the bars stand.
#[derive(Clone, Copy)]
struct Grid {
    axis: Axis,
    /// The width of a bar with what stands beside, over and below it.
    slot: f64,
    /// The width of a script's bars with the gap around them.
    group: f64,
    groups_in_a_row: usize,
    rows: usize,
}

impl Grid {
    fn of(settings: &[Setting], scripts: usize) -> Grid {
        let all = || settings.iter().flat_map(|setting| &setting.scripts);
        let greatest = all().map(Figures::all_accesses).max().unwrap_or(0);
        let labels = settings.iter().map(|setting| setting.label.chars().count());
        let costs = all().filter_map(cost).map(|cost| cost.len());
        let letters = as_f64(labels.chain(costs).max().unwrap_or(0));
        let slot = LEAST_SLOT.max(SMALL_WIDTH * (letters + 1.0));
        let group = slot * as_f64(settings.len()) + GROUP_GAP;
        let fits = |&groups: &usize| as_f64(groups) * group <= WIDEST_ROW;
        let most_in_a_row = (1..=scripts).take_while(fits).last().unwrap_or(1);
        let rows = scripts.div_ceil(most_in_a_row);
        let groups_in_a_row = scripts.div_ceil(rows);
        Grid { axis: Axis::reaching(greatest), slot, group, groups_in_a_row, rows }
    }

    fn width(self) -> f64 {
        NARROWEST_ROW.max(self.group * as_f64(self.groups_in_a_row))
    }

    fn height(self) -> f64 {
        if self.rows == 1 {
            LONE_HEIGHT
        } else {
            HEIGHT
        }
    }

    /// The height of a number of accesses.
    fn height_of(self, accesses: u32) -> f64 {
        self.height() * f64::from(accesses) / f64::from(self.axis.end)
    }

    /// Where the base of a row is, counted from 0.
    fn base(self, row: usize) -> f64 {
        TOP + self.height() + as_f64(row) * (self.height() + NEXT_ROW)
    }

    /// Where the bars of a script start, counted from 0: the left end of the base.
    fn start(self, script: usize) -> Point {
        let groups = self.group * as_f64(self.groups_in_a_row);
        let margin = LEFT + GROUP_GAP / 2.0 + (self.width() - groups) / 2.0;
        let before = self.group * as_f64(script % self.groups_in_a_row);
        (margin + before, self.base(script / self.groups_in_a_row))
    }
}

struct Drawing<'a> {
    settings: &'a [Setting<'a>],
    scripts: usize,
    grid: Grid,
    svg: Svg,
}

impl Drawing<'_> {
    fn picture(mut self) -> String {
        let Grid { rows, .. } = self.grid;
        let end = LEFT + self.grid.width();
        self.svg.text((16.0, 28.0), Anchor::Start, 16, TITLE);
        self.draw_legend(end + LEGEND_GAP);
        (0..rows).for_each(|row| self.draw_axis(self.grid.base(row), end));
        (0..self.scripts).for_each(|script| self.draw_script(script));
        let size = (end + LEGEND_GAP + LEGEND_WIDTH, self.grid.base(rows - 1) + BOTTOM);
        self.svg.picture(size)
    }

    /// The kinds in the order of a bar, from its top.
    fn draw_legend(&mut self, left: f64) {
        let kinds = KINDS.into_iter().zip(COLOURS).rev();
        let mut y = TOP;
        for (name, colour) in kinds.chain([(FAILED, FAILED_COLOUR)]) {
            let (indent, width) = if name == FAILED { (4.0, NARROW_BAR) } else { (0.0, 14.0) };
            self.svg.bar((left + indent, y), (width, 14.0), colour, name);
            self.svg.text((left + 22.0, y + 11.5), Anchor::Start, 12, name);
            y += 22.0;
        }
        for line in ["over a bar: accesses", "for each operation"] {
            self.svg.text((left, y + 14.0), Anchor::Start, SMALL, line);
            y += 15.0;
        }
    }

    /// The axis of a row, and what the numbers along it and below it are.
    fn draw_axis(&mut self, base: f64, end: f64) {
        for number in self.grid.axis.numbers() {
            let y = base - self.grid.height_of(number);
            let colour = if number == 0 { BASE_COLOUR } else { GRID_COLOUR };
            self.svg.line((LEFT, y), end, colour);
            self.svg.text((LEFT - 8.0, y + 4.0), Anchor::End, SMALL, &with_commas(number));
        }
        let over = -self.grid.height() - 16.0;
        for (name, y) in [("accesses", over), ("threshold", LABEL_BELOW), ("script", SCRIPT_BELOW)]
        {
            self.svg.text((LEFT - 8.0, base + y), Anchor::End, SMALL, name);
        }
    }

    /// The bars of a script, counted from 0.
    fn draw_script(&mut self, script: usize) {
        let (start, base) = self.grid.start(script);
        let number = (script + 1).to_string();
        let mut middle = start + self.grid.slot / 2.0;
        for Setting { label, scripts } in self.settings {
            let name = format!("script {number}, threshold {label}");
            self.draw_bar(&name, &scripts[script], (middle, base));
            self.svg.text((middle, base + LABEL_BELOW), Anchor::Middle, SMALL, label);
            middle += self.grid.slot;
        }
        let middle = start + (self.grid.group - GROUP_GAP) / 2.0;
        self.svg.text((middle, base + SCRIPT_BELOW), Anchor::Middle, 13, &number);
    }

    /// A bar, what failed of it and what it cost, around the middle of its foot.
    fn draw_bar(&mut self, name: &str, figures: &Figures, (middle, base): Point) {
        let left = middle - (BAR + BAR_GAP + NARROW_BAR) / 2.0;
        let mut top = base;
        for ((kind, colour), accesses) in KINDS.into_iter().zip(COLOURS).zip(figures.accesses) {
            let height = self.grid.height_of(accesses);
            top -= height;
            if accesses > 0 {
                let title = format!("{name}: {accesses} {kind}");
                self.svg.bar((left, top), (BAR, height), colour, &title);
            }
        }
        if figures.failed > 0 {
            let height = self.grid.height_of(figures.failed);
            let corner = (left + BAR + BAR_GAP, base - height);
            let title = format!("{name}: {} {FAILED}", figures.failed);
            self.svg.bar(corner, (NARROW_BAR, height), FAILED_COLOUR, &title);
        }
        if let Some(cost) = cost(figures) {
            self.svg.text_over_lines((middle, top - 5.0), Anchor::Middle, SMALL, &cost);
        }
    }
}

/// Accesses for each operation, to the nearest tenth.
fn cost(figures: &Figures) -> Option<String> {
    let operations = figures.all_operations();
    let tenths = (20 * figures.all_accesses() + operations).checked_div(2 * operations)?;
    Some(format!("{}.{}", tenths / 10, tenths % 10))
}

fn as_f64(count: usize) -> f64 {
    f64::from(u32::try_from(count).expect("a small number"))
}
