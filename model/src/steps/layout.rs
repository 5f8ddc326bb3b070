//! Where things stand in a picture: lanes from left to right, records
//! downwards. In a lane, from the left: a gutter for arrows, the bars of locks,
//! the card's own line with its marks, the labels.

use super::scene::{Arrow, Bar, Mark, Row, Scene, Time};

pub const ROW: f64 = 24.0;
/// After so many records the names of the cards stand again.
const BAND: usize = 50;
pub const MARGIN: f64 = 16.0;
pub const BAR: f64 = 12.0;
const BAR_STEP: f64 = 20.0;
const GUTTER_STEP: f64 = 8.0;
const LABEL_GAP: f64 = 12.0;
const LANE_GAP: f64 = 14.0;
const NARROWEST: f64 = 620.0;

/// About the width of a text: of the usual fonts none is much wider.
pub fn text_width(text: &str) -> f64 {
    (7.4 * text.chars().count() as f64).ceil()
}

/// The labels of reads that are not ordered are bold, and wider.
fn label_width(row: &Row) -> f64 {
    let width = text_width(&row.label);
    match row.mark {
        Some(Mark::ReadNotOrdered) => (1.15 * width).ceil(),
        _ => width,
    }
}

pub struct Lane {
    pub left: f64,
    bars: f64,
    pub axis: f64,
    pub label: f64,
    pub right: f64,
}

pub struct Layout {
    pub lanes: Vec<Lane>,
    /// The right edge of the record numbers.
    pub numbers: f64,
    /// The first row's upper edge, below the names of the cards.
    pub top: f64,
    pub bottom: f64,
    pub width: f64,
    first: usize,
    rows: usize,
    /// For each bar and each arrow the slot that it takes in its lane.
    bar_slots: Vec<usize>,
    arrow_slots: Vec<usize>,
}

impl Layout {
    /// Rows begin below the head, so many units from the top of the picture.
    pub fn of(scene: &Scene, head: f64) -> Layout {
        let mut layout = Layout {
            lanes: Vec::new(),
            numbers: MARGIN + text_width(&scene.range.to.to_string()),
            top: head + ROW,
            bottom: 0.0,
            width: NARROWEST,
            first: scene.range.from,
            rows: scene.rows.len(),
            bar_slots: vec![0; scene.bars.len()],
            arrow_slots: vec![0; scene.arrows.len()],
        };
        layout.bottom = layout.top + ROW * layout.line_of(layout.rows) as f64;
        let mut left = layout.numbers + LANE_GAP;
        for card in 1..=scene.cards {
            let lane = layout.lane(scene, card, left);
            left = lane.right + LANE_GAP;
            layout.lanes.push(lane);
        }
        layout.width = layout.width.max(left);
        layout
    }

    /// The line of the nth record: a band stands before every 50 but the first.
    fn line_of(&self, nth: usize) -> usize {
        nth + nth.saturating_sub(1) / BAND
    }

    /// Where the names of the cards stand: above the rows, and in each band.
    pub fn bands(&self) -> Vec<f64> {
        let nths = (0..self.rows.max(1)).step_by(BAND);
        nths.map(|nth| self.top + ROW * (self.line_of(nth + 1) as f64 - 1.5))
            .collect()
    }

    /// The middle of a record's row.
    pub fn row(&self, number: usize) -> f64 {
        let nth = number - self.first;
        self.top + ROW * (self.line_of(nth + 1) as f64 - 0.5)
    }

    /// The height of a time: a record's row, or the gap behind it.
    pub fn time(&self, time: Time) -> f64 {
        match time {
            Time::At(number) => self.row(number),
            Time::Behind(number) => self.gap(number),
        }
    }

    pub fn gap(&self, number: usize) -> f64 {
        self.row(number) + ROW / 2.0
    }

    pub fn lane_of(&self, card: u8) -> &Lane {
        &self.lanes[usize::from(card) - 1]
    }

    fn lane(&mut self, scene: &Scene, card: u8, left: f64) -> Lane {
        let bars = self.take_bar_slots(scene, card) as f64;
        let arrows = self.take_arrow_slots(scene, card) as f64;
        // Records of no card stand in the first lane.
        let labels = scene
            .rows
            .iter()
            .filter(|row| row.card.unwrap_or(1) == card);
        let label = labels.map(label_width).fold(text_width("card 8"), f64::max);
        let first_bar = left + GUTTER_STEP * (arrows + 1.0);
        let axis = first_bar + BAR_STEP * bars + BAR / 2.0;
        Lane {
            left,
            bars: first_bar,
            axis,
            label: axis + LABEL_GAP,
            right: axis + LABEL_GAP + label,
        }
    }

    fn take_bar_slots(&mut self, scene: &Scene, card: u8) -> usize {
        let nths: Vec<usize> = (0..scene.bars.len())
            .filter(|nth| scene.bars[*nth].card == card)
            .collect();
        let spans: Vec<(f64, f64)> = nths
            .iter()
            .map(|nth| self.bar_span(&scene.bars[*nth]))
            .collect();
        let (slots, count) = slots(&spans);
        for (nth, slot) in nths.iter().zip(slots) {
            self.bar_slots[*nth] = slot;
        }
        count
    }

    fn take_arrow_slots(&mut self, scene: &Scene, card: u8) -> usize {
        let down = |arrow: &Arrow| arrow.to == card && matches!(arrow.at, Time::At(_));
        let nths: Vec<usize> = (0..scene.arrows.len())
            .filter(|nth| down(&scene.arrows[*nth]))
            .collect();
        let spans: Vec<(f64, f64)> = nths
            .iter()
            .map(|nth| self.arrow_span(&scene.arrows[*nth]))
            .collect();
        let (slots, count) = slots(&spans);
        for (nth, slot) in nths.iter().zip(slots) {
            self.arrow_slots[*nth] = slot;
        }
        count
    }

    /// From where to where a bar reaches downwards.
    pub fn bar_span(&self, bar: &Bar) -> (f64, f64) {
        let from = bar.from.map_or(self.top, |time| self.time(time));
        let to = bar.to.map_or(self.bottom, |time| self.time(time));
        (from, to)
    }

    fn arrow_span(&self, arrow: &Arrow) -> (f64, f64) {
        let from = arrow.from.map_or(self.top, |(_, number)| self.gap(number));
        (from, self.time(arrow.at))
    }

    /// The left edge of the nth bar.
    pub fn bar_left(&self, scene: &Scene, nth: usize) -> f64 {
        self.lane_of(scene.bars[nth].card).bars + BAR_STEP * self.bar_slots[nth] as f64
    }

    /// Where the nth arrow goes down in the gutter of the lane that it reaches.
    pub fn arrow_down(&self, scene: &Scene, nth: usize) -> f64 {
        self.lane_of(scene.arrows[nth].to).left + GUTTER_STEP * (self.arrow_slots[nth] as f64 + 0.5)
    }
}

/// A slot for each span, so that no two of one slot meet, and how many there
/// are.
fn slots(spans: &[(f64, f64)]) -> (Vec<usize>, usize) {
    let mut by_start: Vec<usize> = (0..spans.len()).collect();
    by_start.sort_by(|a, b| spans[*a].0.total_cmp(&spans[*b].0));
    let mut slots = vec![0; spans.len()];
    let mut ends: Vec<f64> = Vec::new();
    for nth in by_start {
        let (start, end) = spans[nth];
        let free = ends.iter().position(|taken| *taken <= start);
        let slot = free.unwrap_or(ends.len());
        if slot == ends.len() {
            ends.push(end);
        }
        ends[slot] = end;
        slots[nth] = slot;
    }
    (slots, ends.len())
}
