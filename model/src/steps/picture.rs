//! `./steps picture`: a run as an SVG file, a lane for each card, time
//! downwards.

use super::input::Range;
use super::layout::{text_width, Layout, BAR, MARGIN, ROW};
use super::scene::{Arrow, Goal, Mark, Rest, Row, Scene, Time};
use super::svg::Svg;

/// The side of the mark of a job.
const JOB: f64 = 10.0;

/// A picture shows at most so many records.
pub const MOST_SHOWN: usize = 400;

/// The window that is shown of a range, and a note if it is not all of it.
pub fn window(range: Range, last: usize) -> (Range, Option<String>) {
    let to = range.to.min(range.from + MOST_SHOWN - 1);
    let shown = Range { to, ..range };
    let whole = shown.from == 0 && to == last;
    let Range { from, .. } = shown;
    let note = format!("a window: records {from} to {to} of 0 to {last}; FROM TO chooses another, of at most {MOST_SHOWN}");
    (shown, (!whole).then_some(note))
}

/// The file.
pub fn picture(scene: &Scene, title: &str, note: Option<&str>) -> String {
    let title_width = (1.4 * text_width(title)).ceil();
    let widest_text = note.map_or(title_width, |note| title_width.max(text_width(note)));
    let lanes = Layout::of(scene, 0.0).width;
    let width = lanes.max(widest_text + 2.0 * MARGIN);
    let mut head = Svg::default();
    let layout = Layout::of(scene, draw_head(&mut head, title, note, width));
    let height = layout.bottom + MARGIN;
    let mut svg = Svg::default();
    svg.rect("paper", (0.0, 0.0), width, height);
    svg.append(head);
    let drawing = Drawing {
        scene,
        layout,
        width,
    };
    drawing.draw(&mut svg);
    svg.file(title, width, height)
}

/// Title, note and legend. Answers where they end.
fn draw_head(svg: &mut Svg, title: &str, note: Option<&str>, width: f64) -> f64 {
    svg.text("title", (MARGIN, 28.0), title);
    let Some(note) = note else {
        return legend(svg, 52.0, width);
    };
    svg.text("bad", (MARGIN, 48.0), note);
    legend(svg, 72.0, width)
}

struct Drawing<'a> {
    scene: &'a Scene,
    layout: Layout,
    width: f64,
}

impl Drawing<'_> {
    fn draw(&self, svg: &mut Svg) {
        self.stripes(svg);
        self.lanes(svg);
        self.bars(svg);
        self.rounds(svg);
        for nth in 0..self.scene.arrows.len() {
            self.arrow(svg, nth);
        }
        self.names(svg);
        for row in &self.scene.rows {
            self.row(svg, row);
        }
    }

    /// Every second record has a ground of its own.
    fn stripes(&self, svg: &mut Svg) {
        for row in self.scene.rows.iter().step_by(2) {
            let top = self.layout.row(row.number) - ROW / 2.0;
            svg.rect("stripe", (0.0, top), self.width, ROW);
        }
    }

    /// The line of each card, broken while it rests at the barrier.
    fn lanes(&self, svg: &mut Svg) {
        for card in 1..=self.scene.cards {
            let axis = self.layout.lane_of(card).axis;
            let mut done = self.layout.top;
            for rest in self.scene.rests.iter().filter(|rest| rest.card == card) {
                let (from, to) = self.rest_span(rest);
                svg.line("lane", (axis, done), (axis, from));
                svg.line("rest", (axis, from), (axis, to));
                done = to;
            }
            svg.line("lane", (axis, done), (axis, self.layout.bottom));
        }
    }

    fn rest_span(&self, rest: &Rest) -> (f64, f64) {
        let from = rest
            .from
            .map_or(self.layout.top, |number| self.layout.row(number));
        let to = rest
            .to
            .map_or(self.layout.bottom, |number| self.layout.gap(number));
        (from, to)
    }

    /// A bar has the number of its lock at its upper end and in each band.
    fn bars(&self, svg: &mut Svg) {
        for (nth, bar) in self.scene.bars.iter().enumerate() {
            let left = self.layout.bar_left(self.scene, nth);
            let (from, to) = self.layout.bar_span(bar);
            let (ground, text) = if bar.waiting {
                ("waits", "lock-waits")
            } else {
                ("holds", "lock")
            };
            svg.rect(ground, (left, from), BAR, to - from);
            let bands = self.layout.bands().into_iter();
            let bands = bands
                .filter(|y| from + ROW < *y && *y < to)
                .map(|y| y + 3.0);
            for y in [from + 10.0].into_iter().chain(bands) {
                svg.text(text, (left + BAR / 2.0, y), &bar.lock.to_string());
            }
        }
    }

    fn rounds(&self, svg: &mut Svg) {
        for number in &self.scene.rounds {
            let y = self.layout.gap(*number);
            let left = self.layout.lanes[0].left;
            let right = self.layout.lanes.last().map_or(left, |lane| lane.right);
            svg.line("round", (left, y), (right, y));
        }
    }

    /// From the release or the enqueue down into the gap behind its row, across,
    /// and to the bar that begins there or to the dequeue.
    fn arrow(&self, svg: &mut Svg, nth: usize) {
        let arrow = &self.scene.arrows[nth];
        let Some(goal) = self.goal(arrow) else {
            return;
        };
        let end = self.layout.time(arrow.at);
        let start = arrow.from.map(|(card, number)| {
            let axis = self.layout.lane_of(card).axis;
            (axis, self.layout.row(number), self.layout.gap(number))
        });
        let from_right = start.is_some_and(|(axis, ..)| axis > goal);
        let mut path = String::new();
        if let Some((axis, row, gap)) = start {
            path.push_str(&format!("M {axis} {row} V {gap} "));
        }
        let tip = match arrow.at {
            Time::Behind(_) if from_right => goal + BAR,
            _ => goal,
        };
        if let Time::At(_) = arrow.at {
            let down = self.layout.arrow_down(self.scene, nth);
            match start {
                Some(_) => path.push_str(&format!("H {down} V {end} ")),
                None => path.push_str(&format!("M {down} {} V {end} ", self.layout.top)),
            }
        }
        path.push_str(&format!("H {tip}"));
        svg.path("arrow", &path);
        let back = if tip > goal { 7.0 } else { -7.0 };
        svg.path("head", &format!("M {tip} {end} l {back} -4 v 8 z"));
    }

    /// The left edge of what an arrow leads to.
    fn goal(&self, arrow: &Arrow) -> Option<f64> {
        match arrow.goal {
            Goal::Bar => self.bar_begun(arrow),
            Goal::Mark => Some(self.layout.lane_of(arrow.to).axis - JOB / 2.0),
        }
    }

    /// The left edge of the bar that an arrow leads to.
    fn bar_begun(&self, arrow: &Arrow) -> Option<f64> {
        let mut bars = self.scene.bars.iter();
        let nth = bars
            .position(|bar| bar.card == arrow.to && bar.from == Some(arrow.at) && !bar.waiting)?;
        Some(self.layout.bar_left(self.scene, nth))
    }

    fn names(&self, svg: &mut Svg) {
        for y in self.layout.bands() {
            for card in 1..=self.scene.cards {
                let lane = self.layout.lane_of(card);
                svg.text("card label", (lane.label, y + 4.0), &format!("card {card}"));
            }
        }
    }

    fn row(&self, svg: &mut Svg, row: &Row) {
        let y = self.layout.row(row.number);
        svg.text(
            "number",
            (self.layout.numbers, y + 4.0),
            &row.number.to_string(),
        );
        let lane = self.layout.lane_of(row.card.unwrap_or(1));
        if let (Some(_), Some(shape)) = (row.card, row.mark) {
            mark(svg, shape, (lane.axis, y));
        }
        let class = match row.mark {
            Some(Mark::ReadNotOrdered) => "label bad",
            Some(Mark::Refused) => "label grey",
            _ => "label",
        };
        svg.text(class, (lane.label, y + 4.0), &row.label);
    }
}

fn mark(svg: &mut Svg, mark: Mark, (x, y): (f64, f64)) {
    match mark {
        Mark::ReadOrdered => svg.circle("ordered", (x, y), 5.0),
        Mark::ReadNoneWritten => svg.circle("none-written", (x, y), 5.0),
        Mark::ReadNotOrdered => svg.path(
            "not-ordered",
            &format!("M {x} {} l 7 7 l -7 7 l -7 -7 z", y - 7.0),
        ),
        Mark::Write => svg.rect("solid", (x - 4.5, y - 4.5), 9.0, 9.0),
        Mark::Lock => svg.line("step", (x - 6.0, y), (x + 6.0, y)),
        Mark::Arrival => svg.path("solid", &format!("M {} {} h 12 l -6 9 z", x - 6.0, y - 4.0)),
        Mark::Job => svg.rect("job", (x - JOB / 2.0, y - JOB / 2.0), JOB, JOB),
        Mark::Other => svg.circle("solid", (x, y), 3.0),
        Mark::Refused => {
            let cross = format!("M {} {} l 8 8 m 0 -8 l -8 8", x - 4.0, y - 4.0);
            svg.path("refused", &cross);
        }
    }
}

/// One thing that the legend explains.
enum Sign {
    Mark(Mark),
    Holds,
    Waits,
    Arrow,
    Rest,
    Round,
}

const LEGEND: [(Sign, &str); 14] = [
    (Sign::Mark(Mark::ReadOrdered), "read, ordered"),
    (
        Sign::Mark(Mark::ReadNoneWritten),
        "read, ordered, none written",
    ),
    (Sign::Mark(Mark::ReadNotOrdered), "read, not ordered"),
    (Sign::Mark(Mark::Write), "write"),
    (Sign::Mark(Mark::Lock), "acquire, release"),
    (Sign::Mark(Mark::Arrival), "arrival"),
    (Sign::Mark(Mark::Job), "enqueue, dequeue"),
    (Sign::Mark(Mark::Other), "other step"),
    (Sign::Mark(Mark::Refused), "refused"),
    (Sign::Holds, "holds the lock of this number"),
    (Sign::Waits, "waits for it"),
    (
        Sign::Arrow,
        "release that reaches an acquire or a waiter, enqueue that reaches its dequeue",
    ),
    (Sign::Rest, "has arrived"),
    (Sign::Round, "round complete"),
];

/// The signs in lines of the given width. Answers where the legend ends.
fn legend(svg: &mut Svg, first_line: f64, width: f64) -> f64 {
    let (mut x, mut y) = (MARGIN, first_line);
    for (sign, says) in &LEGEND {
        let sign_width = 22.0;
        let all = sign_width + text_width(says) + 14.0;
        if x > MARGIN && x + all > width - MARGIN {
            x = MARGIN;
            y += 22.0;
        }
        draw_sign(svg, sign, (x + 8.0, y));
        svg.text("says", (x + sign_width, y + 4.0), says);
        x += all;
    }
    y + 16.0
}

fn draw_sign(svg: &mut Svg, sign: &Sign, (x, y): (f64, f64)) {
    match sign {
        Sign::Mark(shape) => mark(svg, *shape, (x, y)),
        Sign::Holds => {
            svg.rect("holds", (x - 6.0, y - 9.0), BAR, 18.0);
            svg.text("lock", (x, y + 3.0), "0");
        }
        Sign::Waits => {
            svg.rect("waits", (x - 6.0, y - 9.0), BAR, 18.0);
            svg.text("lock-waits", (x, y + 3.0), "0");
        }
        Sign::Arrow => {
            svg.path("arrow", &format!("M {} {y} h 14", x - 8.0));
            svg.path("head", &format!("M {} {y} l -7 -4 v 8 z", x + 9.0));
        }
        Sign::Rest => svg.line("rest", (x, y - 9.0), (x, y + 9.0)),
        Sign::Round => svg.line("round", (x - 8.0, y), (x + 8.0, y)),
    }
}
