//! The words draw and page: what they write is well formed, has nothing that runs or is fetched, shows no more and no less than a run
//! by the reference, and escapes what is anybody's. Sanitized, the command writes the same.

use crate::arrivals::mixed;
use crate::bench::Bench;
use crate::command::{asked, sanitized, status_of, COMMAND, SANITIZED};
use crate::inputs::*;
use crate::judge::fed;
use crate::markup::{self, Element};
use crate::names::{names_of, shown};
use crate::pages::{is_paged, is_paged_with};
use crate::plain;
use crate::pressing::{distance_status, of_often, often, some_presses, watched, when_due, Presses, Seen};
use crate::program;
use crate::reference::{self, Late, State, Task, Verdict, NONE};
use std::collections::BTreeSet;
use std::ffi::OsStr;
use std::ops::Range;
use std::os::unix::ffi::OsStrExt;
use std::path::Path;
use std::process::{Command, Output};

pub const XML: &str = "<?xml version=\"1.0\" encoding=\"UTF-8\"?>";
pub const HTML: &str = "<!DOCTYPE html>";
const AT_RANDOM: u64 = 80;
const PRESSED: u64 = 40;
const USUAL: u64 = 200;
const LEAST: u64 = 35;
const AROUND: u64 = 10;
const MOST_SLOTS: u64 = 1_000_000;

// What a drawing must show, from the reference.

/// Slots of a task, and instants of one.
type Places = BTreeSet<(usize, u64)>;

/// A window of a run: who has each slot, waits and misses it, and which of these are jobs of the late interval; what is released, pressed,
/// pressed too early, due and closed late at each instant; of each late job, by its task and deadline, how many slots are missing; which slots are empty, and which
/// instants are idle without one beside them.
#[derive(Default, PartialEq, Debug)]
struct Shown {
    has: Places,
    meant: Places,
    waits: Places,
    waits_meant: Places,
    missed: Places,
    missed_meant: Places,
    lacks: BTreeSet<(usize, u64, u64)>,
    released: Places,
    pressed: Places,
    early: Places,
    due: Places,
    closed: Places,
    empty: BTreeSet<u64>,
    instants: BTreeSet<u64>,
}

pub struct Window {
    from: u64,
    to: u64,
    early: bool,
}

/// The last release of a task by an instant.
fn release_of(task: &Task, now: u64) -> u64 {
    let (offset, period) = (u64::from(task.offset), u64::from(task.period));
    offset + (now - offset) / period * period
}

fn falls_on(task: &Task, first: u32, now: u64) -> bool {
    now >= u64::from(first) && (now - u64::from(first)) % u64::from(task.period) == 0
}

/// Whether the job released then is one of the late interval.
fn is_meant(task: &Task, late: &Option<Late>, release: u64) -> bool {
    late.map_or(false, |late| release >= late.start && release + u64::from(task.deadline) <= late.end)
}

impl Shown {
    fn note_slot(&mut self, tasks: &[Task], late: &Option<Late>, now: u64, after: &State) {
        for (number, task) in tasks.iter().enumerate() {
            let has = after.last as usize == number;
            if !has && after.left[number] == 0 {
                continue;
            }
            let (all, meant) = if has { (&mut self.has, &mut self.meant) } else { (&mut self.waits, &mut self.waits_meant) };
            all.insert((number, now));
            if is_meant(task, late, release_of(task, now)) {
                meant.insert((number, now));
            }
        }
    }

    fn note_instant(&mut self, number: usize, task: &Task, now: u64, closed: bool) {
        if falls_on(task, task.offset, now) {
            self.released.insert((number, now));
        }
        if falls_on(task, task.offset + task.deadline, now) {
            self.due.insert((number, now));
        }
        if closed {
            self.closed.insert((number, now));
        }
    }

    fn note_missed(&mut self, number: usize, now: u64, missing: u64, meant: bool, window: &Window) {
        let slots = now.max(window.from)..(now + missing).min(window.to);
        if now >= window.from || !slots.is_empty() {
            self.lacks.insert((number, now, missing));
        }
        if meant {
            self.missed_meant.extend(slots.clone().map(|slot| (number, slot)));
        }
        self.missed.extend(slots.map(|slot| (number, slot)));
    }

    fn note(&mut self, tasks: &[Task], late: &Option<Late>, window: &Window, now: u64, before: &State, after: &State) {
        for (number, task) in tasks.iter().enumerate() {
            let closed = after.late >> number & 1 == 1;
            if closed {
                let meant = is_meant(task, late, now - u64::from(task.deadline));
                self.note_missed(number, now, u64::from(before.left[number]), meant, window);
            }
            if now >= window.from {
                self.note_instant(number, task, now, closed);
            }
        }
        if now >= window.from && now < window.to {
            self.note_slot(tasks, late, now, after);
        }
    }

    /// An instant is idle if by then no earlier job is open: each is finished, or was closed late before.
    fn by_reference(tasks: &[Task], late: &Option<Late>, window: &Window) -> Shown {
        let (mut shown, mut idle) = (Shown::default(), BTreeSet::new());
        let (mut state, mut done) = (reference::start(tasks), false);
        for now in 0..=window.to {
            let open = |&number: &usize| state.left[number] > 0 && !(done && state.last as usize == number);
            if now > 0 && now >= window.from && !(0..tasks.len()).any(|number| open(&number)) {
                idle.insert(now);
            }
            let next = reference::step(tasks, &state, done).expect("a state of the table");
            shown.note(tasks, late, window, now, &state, &next);
            let last = next.last as usize;
            done = window.early && next.last != NONE && 2 * (tasks[last].cost - next.left[last]) >= tasks[last].cost;
            state = next;
        }
        shown.note_idle(tasks.len(), &idle, window);
        shown
    }

    /// With presses, by the clock. No interval is shown.
    fn by_clock(tasks: &[Task], presses: &Presses, window: &Window) -> Shown {
        let (mut shown, mut idle) = (Shown::default(), BTreeSet::new());
        for seen in watched(tasks, presses, window.to, window.early) {
            for job in &seen.late {
                shown.note_missed(job[0] as usize, seen.now, job[4], false, window);
            }
            if seen.now >= window.from {
                shown.note_seen(tasks, &seen, window);
                idle.extend(seen.idle.then_some(seen.now));
            }
        }
        shown.note_idle(tasks.len(), &idle, window);
        shown
    }

    fn note_seen(&mut self, tasks: &[Task], seen: &Seen, window: &Window) {
        for number in 0..tasks.len() {
            let (place, bit, slot) = ((number, seen.now), 1 << number, seen.now < window.to);
            let has = seen.owner as usize == number;
            let came = if tasks[number].button { &mut self.pressed } else { &mut self.released };
            came.extend((seen.came & bit != 0).then_some(place));
            self.due.extend((seen.due & bit != 0).then_some(place));
            self.has.extend((slot && has).then_some(place));
            self.waits.extend((slot && !has && seen.left[number] > 0).then_some(place));
        }
        self.closed.extend(seen.late.iter().map(|job| (job[0] as usize, seen.now)));
        self.early.extend(seen.early.iter().map(|press| (press[0] as usize, seen.now)));
    }

    /// A slot is empty if no task has it and none waits. An empty slot tells of the instants at its ends that they are idle.
    fn note_idle(&mut self, tasks: usize, idle: &BTreeSet<u64>, window: &Window) {
        let open = |slot: u64| (0..tasks).any(|task| self.has.contains(&(task, slot)) || self.waits.contains(&(task, slot)));
        let empty: BTreeSet<u64> = (window.from..window.to).filter(|&slot| !open(slot)).collect();
        let beside = |now: u64| empty.contains(&now) || (now > 0 && empty.contains(&(now - 1)));
        self.instants = idle.iter().copied().filter(|&now| !beside(now)).collect();
        self.empty = empty;
    }
}

// What a drawing shows, from its places and widths.

/// The axis of one block: x of its beginning, and how wide a slot is.
struct Axis {
    begin: u64,
    end: u64,
    left: u64,
    slot: u64,
}

impl Axis {
    /// None if x is no instant of the block.
    fn instant(&self, x: u64) -> Option<u64> {
        let from = x.checked_sub(self.left)?;
        Some(self.begin + from / self.slot).filter(|&now| from % self.slot == 0 && now <= self.end)
    }
}

/// From the numbers of the first block's ruler; every block is as long as the first, but for the last.
fn axes(drawing: &Element, window: &Window) -> Option<Vec<Axis>> {
    let rulers = drawing.of_class("ruler");
    let marks = rulers.first()?.named("text");
    let number = |mark: &Element| Some((mark.text().parse::<u64>().ok()?, mark.number("x")?));
    let ((one, x), (other, y)) = (number(marks.first()?)?, number(marks.get(1)?)?);
    let slot = (y - x) / (other - one);
    let left = x - (one - window.from) * slot;
    let floor =
        drawing.of_class("floors").first()?.attribute("d").split_once('H')?.1.split('M').next()?.parse::<u64>().ok()?;
    let long = (floor - left) / slot;
    let begins = (0..rulers.len() as u64).map(|block| window.from + block * long);
    let axes: Vec<Axis> = begins.map(|begin| Axis { begin, end: (begin + long).min(window.to), left, slot }).collect();
    Some(axes).filter(|axes| axes.last().map_or(false, |last| last.begin < last.end && last.end == window.to))
}

/// Every number of a ruler stands where its instant is.
fn rulers_fit(drawing: &Element, axes: &[Axis]) -> bool {
    let fits = |(ruler, axis): (&&Element, &Axis)| {
        let mut marks = ruler.named("text").into_iter();
        marks.all(|mark| mark.number("x").and_then(|x| axis.instant(x)).map(|now| now.to_string()) == Some(mark.text()))
    };
    drawing.of_class("ruler").iter().zip(axes).all(fits)
}

fn title_of(element: &Element) -> Option<String> {
    Some(element.elements().find(|child| child.name == "title")?.text())
}

/// The number behind the word task or button in an element's title.
fn task_of(element: &Element) -> Option<usize> {
    let title = title_of(element)?;
    let rest = title.strip_prefix("task ").or_else(|| title.strip_prefix("button "))?;
    rest.split([' ', ':', ',']).next()?.parse().ok()
}

/// What an element says of a late job: task, deadline, slots missing. The task's name may have these words too.
fn lack_of(element: &Element) -> Option<(usize, u64, u64)> {
    let title = title_of(element)?;
    let (_, rest) = title.rsplit_once(", due at ")?;
    let (due, rest) = rest.split_once(": late, and ")?;
    Some((task_of(element)?, due.parse().ok()?, rest.strip_suffix(" missing")?.parse().ok()?))
}

/// The slots that a box stands under, or a line goes through.
fn span_of(axis: &Axis, shape: &Element) -> Option<Range<u64>> {
    let (x, end) = if shape.name == "rect" {
        (shape.number("x")?, shape.number("x")? + shape.number("width")?)
    } else {
        let (from, to) = shape.attribute("d").strip_prefix('M')?.split_once('H')?;
        (from.split(' ').next()?.parse().ok()?, to.parse().ok()?)
    };
    Some(axis.instant(x)?..axis.instant(end)?).filter(|span| !span.is_empty())
}

/// None may be drawn twice.
fn add_span(places: &mut Places, axis: &Axis, shape: &Element) -> Option<()> {
    let (task, mut span) = (task_of(shape)?, span_of(axis, shape)?);
    Some(()).filter(|()| span.all(|slot| places.insert((task, slot))))
}

/// The groups of a class, of jobs of the late interval or of others; each block has one.
fn groups<'a>(drawing: &'a Element, class: &str, meant: bool) -> Vec<&'a Element> {
    drawing.of_class(class).into_iter().filter(|group| group.has_class("meant") == meant).collect()
}

fn shapes<'a>(groups: &[&'a Element], axes: &'a [Axis]) -> Vec<(&'a Element, &'a Axis)> {
    groups.iter().zip(axes).flat_map(|(group, axis)| group.elements().map(move |shape| (shape, axis))).collect()
}

fn spans(drawing: &Element, class: &str, meant: bool, axes: &[Axis]) -> Option<Places> {
    let mut places = Places::new();
    let shapes = shapes(&groups(drawing, class, meant), axes);
    shapes.into_iter().map(|(shape, axis)| add_span(&mut places, axis, shape)).collect::<Option<Vec<()>>>()?;
    Some(places)
}

/// All slots, and those of the jobs of the late interval.
fn with_meant(drawing: &Element, class: &str, axes: &[Axis]) -> Option<(Places, Places)> {
    let (plain, meant) = (spans(drawing, class, false, axes)?, spans(drawing, class, true, axes)?);
    Some((&plain | &meant, meant)).filter(|(_, meant)| plain.is_disjoint(meant))
}

/// Every red box and red arrow tells of a late job, and stands where that one misses its slots or is due.
fn lacks(drawing: &Element, axes: &[Axis]) -> Option<BTreeSet<(usize, u64, u64)>> {
    let red = [groups(drawing, "missed", false), groups(drawing, "missed", true)];
    let of_box = |(shape, axis): (&Element, &Axis)| {
        let (lack, span) = (lack_of(shape)?, span_of(axis, shape)?);
        Some(lack).filter(|&(_, due, missing)| span.start >= due && span.end <= due + missing)
    };
    let of_arrow = |(shape, axis): (&Element, &Axis)| {
        lack_of(shape).filter(|&(task, due, _)| marks_of(axis, shape) == Some(vec![(task, due)]))
    };
    let boxes = red.iter().flat_map(|groups| shapes(groups, axes)).map(of_box);
    boxes.chain(shapes(&drawing.of_class("closed"), axes).into_iter().map(of_arrow)).collect()
}

/// The instants of a lane's marks, each of which begins with a line up or down.
fn marks_of(axis: &Axis, shape: &Element) -> Option<Vec<(usize, u64)>> {
    let task = task_of(shape)?;
    let place = |part: &str| Some((task, axis.instant(part.split(' ').next()?.parse().ok()?)?));
    shape.attribute("d").split('M').skip(1).map(place).collect()
}

fn marks(drawing: &Element, class: &str, axes: &[Axis]) -> Option<Places> {
    let groups = drawing.of_class(class);
    let shapes = groups.iter().zip(axes).flat_map(|(group, axis)| group.elements().map(move |shape| marks_of(axis, shape)));
    Some(shapes.collect::<Option<Vec<_>>>()?.into_iter().flatten().collect())
}

/// The band below the axis: its slots, of which none may be drawn twice.
fn band(drawing: &Element, axes: &[Axis]) -> Option<BTreeSet<u64>> {
    let mut slots = BTreeSet::new();
    for (shape, axis) in shapes(&drawing.of_class("empty"), axes) {
        Some(()).filter(|()| span_of(axis, shape).is_some_and(|mut span| span.all(|slot| slots.insert(slot))))?;
    }
    Some(slots)
}

/// Two wide, an instant's place in the middle.
fn instants(drawing: &Element, axes: &[Axis]) -> Option<BTreeSet<u64>> {
    let marks = shapes(&drawing.of_class("instants"), axes);
    let marks = marks.into_iter().filter(|(shape, _)| shape.name == "rect");
    marks.map(|(shape, axis)| axis.instant(shape.number("x")? + 1).filter(|_| shape.number("width") == Some(2))).collect()
}

impl Shown {
    fn in_drawing(drawing: &Element, axes: &[Axis]) -> Option<Shown> {
        let (has, meant) = with_meant(drawing, "boxes", axes)?;
        let (waits, waits_meant) = with_meant(drawing, "waits", axes)?;
        let (missed, missed_meant) = with_meant(drawing, "missed", axes)?;
        let (due, closed) = (marks(drawing, "due", axes)?, marks(drawing, "closed", axes)?);
        let apart = due.is_disjoint(&closed);
        let shown = Shown {
            has,
            meant,
            waits,
            waits_meant,
            missed,
            missed_meant,
            lacks: lacks(drawing, axes)?,
            released: marks(drawing, "released", axes)?,
            pressed: marks(drawing, "pressed", axes)?,
            early: marks(drawing, "early", axes)?,
            due: &due | &closed,
            closed,
            empty: band(drawing, axes)?,
            instants: instants(drawing, axes)?,
        };
        Some(shown).filter(|_| apart)
    }
}

/// No box and no line goes on over a release: it is of one job.
fn jobs_apart(drawing: &Element, axes: &[Axis], released: &Places) -> bool {
    let apart = |group: &Element, axis: &Axis| {
        group.elements().all(|shape| {
            let mut one = Places::new();
            add_span(&mut one, axis, shape).is_some() && one.iter().skip(1).all(|place| !released.contains(place))
        })
    };
    let all = ["boxes", "waits"].into_iter().flat_map(|class| [(class, true), (class, false)]);
    all.map(|(class, meant)| groups(drawing, class, meant))
        .all(|groups| groups.into_iter().zip(axes).all(|(group, axis)| apart(group, axis)))
}

// What holds of every drawing.

const ALLOWED: &[&str] = &["svg", "title", "desc", "defs", "pattern", "rect", "path", "g", "text"];

/// One element, or on a page the labels and the lanes of each block.
fn sheets(drawing: &Element) -> Vec<&Element> {
    drawing.named("svg").into_iter().filter(|svg| !svg.attribute("version").is_empty()).collect()
}

/// Plain shapes and texts, hatchings of its own, and nothing that runs or is fetched.
fn is_plain(drawing: &Element) -> bool {
    let all: Vec<&Element> = drawing.named("svg").into_iter().flat_map(Element::all).collect();
    let own = |value: &str| {
        let name = value.strip_prefix("url(#").and_then(|rest| rest.strip_suffix(')'));
        !value.contains("url") || all.iter().any(|element| Some(element.attribute("id")) == name)
    };
    let quiet = |name: &str| !name.starts_with("on") && !name.contains("href") && !["style", "src"].contains(&name);
    let good = |sheet: &Element| {
        sheet.attribute("xmlns") == "http://www.w3.org/2000/svg"
            && sheet.attribute("version") == "1.1"
            && sheet.attribute("font-family") == "sans-serif"
    };
    sheets(drawing).into_iter().all(good)
        && all.iter().all(|element| ALLOWED.contains(&element.name.as_str()))
        && all.iter().flat_map(|element| &element.attributes).all(|(name, value)| quiet(name) && own(value))
}

/// How a text is set, by what stands around it.
#[derive(Clone)]
struct Style {
    anchor: String,
    size: f64,
    bold: bool,
    shift: f64,
}

/// How wide a bold letter is, in parts of its size: at least as in the wider of the usual fonts.
fn letter_width(letter: char) -> f64 {
    match letter {
        'M' | 'W' | '@' | '%' | 'm' | 'w' => 1.11,
        'f' | 'i' | 'j' | 'l' | 'r' | 't' | ' ' | '.' | ',' | ':' | ';' | '/' | '-' => 0.5,
        '0'..='9' => 0.7,
        'a'..='z' => 0.72,
        ' '..='~' => 0.87,
        _ => 1.3,
    }
}

impl Style {
    fn within(&self, element: &Element) -> Style {
        let told = |name: &str| Some(element.attribute(name)).filter(|value| !value.is_empty());
        let shift =
            told("transform").and_then(|told| told.strip_prefix("translate(")?.split(' ').next()?.parse::<f64>().ok());
        Style {
            anchor: told("text-anchor").unwrap_or(&self.anchor).to_string(),
            size: told("font-size").and_then(|size| size.parse().ok()).unwrap_or(self.size),
            bold: told("font-weight").map_or(self.bold, |weight| weight == "bold"),
            shift: self.shift + shift.unwrap_or(0.0),
        }
    }

    fn edges(&self, element: &Element) -> (f64, f64) {
        let letters: f64 = element.text().chars().map(letter_width).sum();
        let wide = letters * self.size * if self.bold { 1.0 } else { 0.9 };
        let x = self.shift + element.attribute("x").parse::<f64>().unwrap_or(0.0);
        let left =
            x - wide * ["start", "middle", "end"].iter().position(|anchor| *anchor == self.anchor).unwrap_or(0) as f64 / 2.0;
        (left, left + wide)
    }
}

/// No text runs off the sheet.
fn texts_fit(element: &Element, style: &Style, sheet: &Range<f64>) -> bool {
    let style = style.within(element);
    let (left, right) = style.edges(element);
    if element.name == "text" {
        return left >= sheet.start && right <= sheet.end;
    }
    element.elements().all(|child| texts_fit(child, &style, sheet))
}

pub fn all_texts_fit(drawing: &Element) -> bool {
    let style = Style { anchor: "start".to_string(), size: 0.0, bold: false, shift: 0.0 };
    let fits = |sheet: &Element| {
        view_of(sheet).is_some_and(|[x, _, wide, _]| texts_fit(sheet, &style, &(x as f64..(x + wide) as f64)))
    };
    sheets(drawing).into_iter().all(fits)
}

/// What a sheet shows: from where, and how wide and high.
fn view_of(sheet: &Element) -> Option<[u64; 4]> {
    let view: Vec<u64> = sheet.attribute("viewBox").split(' ').map(str::parse).collect::<Result<_, _>>().ok()?;
    let view: [u64; 4] = view.try_into().ok()?;
    Some(view).filter(|view| sheet.number("width") == Some(view[2]) && sheet.number("height") == Some(view[3]))
}

/// The legend tells of what is drawn, and of nothing else.
fn legend_fits(drawing: &Element, shown: &Shown, late: &Option<Late>, horizon: bool, window: &Window) -> bool {
    let shaded = late.map_or(false, |late| late.start < window.to && late.end > window.from);
    let keys = [
        (shown.has != shown.meant, "has these slots"),
        (shown.waits != shown.waits_meant, "waits"),
        (!shown.released.is_empty(), "is released"),
        (!shown.pressed.is_empty(), "is pressed"),
        (!shown.early.is_empty(), "is pressed too early: not taken"),
        (shown.due != shown.closed, "is due"),
        (!shown.closed.is_empty(), "is due, and closed late"),
        (shown.missed != shown.missed_meant, "late: that many slots are missing"),
        (!shown.meant.is_empty(), "of the late interval: has these slots"),
        (!shown.waits_meant.is_empty(), "of the late interval: waits"),
        (!shown.missed_meant.is_empty(), "of the late interval: that many slots are missing"),
        (shaded, "the late interval"),
        (horizon, "the horizon"),
        (!shown.empty.is_empty(), "idle: no job is open"),
        (!shown.instants.is_empty(), "idle for an instant: every earlier job is finished, or was closed late before"),
    ];
    let told: Vec<String> =
        drawing.of_class("legend").iter().flat_map(|legend| legend.of_class("key")).map(Element::text).collect();
    told.iter().eq(keys.iter().filter(|(seen, _)| *seen).map(|(_, words)| words))
}

/// No box and no number beyond the edges. What has no place of its own is a hatching or the paper.
fn is_whole(sheet: &Element) -> bool {
    let Some([x, y, wide, high]) = view_of(sheet) else {
        return false;
    };
    let edge = |element: &Element, at: &str, long: &str| element.number(at).unwrap_or(0) + element.number(long).unwrap_or(0);
    let inside = |element: &Element| {
        element.number("x").is_none_or(|left| left >= x)
            && element.number("y").is_none_or(|top| top >= y)
            && edge(element, "x", "width") <= x + wide
            && edge(element, "y", "height") <= y + high
    };
    sheet.all().into_iter().skip(1).all(inside)
}

/// In every block a row for each task: number, cost, deadline, period.
fn labels_fit(drawing: &Element, tasks: &[Task]) -> bool {
    let row = |(number, task): (usize, &Task)| {
        [number as u32, task.cost, task.deadline, task.period].map(|number| number.to_string())
    };
    let rows: Vec<String> = tasks.iter().enumerate().flat_map(row).collect();
    let labels = |group: &Element| {
        group.elements().filter(|child| child.name == "text").map(|child| child.text()).collect::<Vec<_>>()
    };
    drawing.of_class("labels").into_iter().all(|group| labels(group) == rows)
}

/// The part of the interval that a block has is shaded, under the sum.
fn shades_fit(drawing: &Element, axes: &[Axis], late: &Option<Late>) -> bool {
    let mut shades = drawing.of_class("late").into_iter();
    let part =
        |axis: &Axis| late.map(|late| (late.start.max(axis.begin), late.end.min(axis.end))).filter(|(from, to)| from < to);
    let sum = late.map_or(String::new(), |late| format!("asks for {}, has {}", late.demand, late.end - late.start));
    let fits = |(axis, (from, to)): (&Axis, (u64, u64))| {
        shades.next().map_or(false, |shade| {
            let shape = shade.named("rect")[0];
            let x = shape.number("x").unwrap_or(0);
            shade.text().trim() == sum
                && axis.instant(x) == Some(from)
                && axis.instant(x + shape.number("width").unwrap_or(0)) == Some(to)
        })
    };
    axes.iter().filter_map(|axis| part(axis).map(|part| (axis, part))).all(fits) && shades.next().is_none()
}

fn horizon_within(tasks: &[Task], window: &Window) -> bool {
    let horizon = reference::horizon(tasks, reference::round(tasks).unwrap());
    !reference::has_button(tasks) && horizon >= window.from && horizon <= window.to
}

/// A table with buttons has no horizon.
fn horizon_fits(drawing: &Element, tasks: &[Task], window: &Window) -> bool {
    let horizon = reference::horizon(tasks, reference::round(tasks).unwrap());
    let told: Vec<String> = drawing.of_class("horizon").iter().map(|group| group.text()).collect();
    told == if horizon_within(tasks, window) { vec![format!("horizon {horizon}")] } else { Vec::new() }
}

/// The slots that a job closed late misses, as they are drawn from its deadline on.
fn missed_from(shown: &Shown, task: usize, due: u64) -> u64 {
    let drawn =
        |slot: &u64| shown.missed.contains(&(task, *slot)) && (*slot == due || !shown.closed.contains(&(task, *slot)));
    (due..).take_while(drawn).count() as u64
}

/// If all of the interval is drawn, its boxes and what its jobs miss add up to what it asks for.
fn sum_fits(shown: &Shown, tasks: &[Task], late: &Option<Late>, window: &Window) -> bool {
    let longest = tasks.iter().map(|task| u64::from(task.cost)).max().unwrap_or(0);
    let Some(late) = late.filter(|late| late.start >= window.from && late.end + longest <= window.to && !window.early)
    else {
        return true;
    };
    let meant = |&&(task, due): &&(usize, u64)| due <= late.end && due >= late.start + u64::from(tasks[task].deadline);
    let missed = shown.closed.iter().filter(meant).map(|&(task, due)| missed_from(shown, task, due)).sum::<u64>();
    shown.meant.len() as u64 + missed == late.demand
}

fn late_of(tasks: &[Task], budget: u64) -> Option<Late> {
    match reference::decide(tasks, budget).verdict {
        Verdict::Late(late) => Some(late),
        _ => None,
    }
}

/// Everything of a drawing against the reference.
pub fn drawing_fits(drawing: &Element, tasks: &[Task], budget: u64, window: &Window) -> bool {
    let late = late_of(tasks, budget);
    shows(drawing, tasks, late, window, Shown::by_reference(tasks, &late, window))
}

/// Everything of a drawing with presses, against the clock.
pub fn pressed_drawing_fits(drawing: &Element, tasks: &[Task], presses: &Presses, window: &Window) -> bool {
    shows(drawing, tasks, None, window, Shown::by_clock(tasks, presses, window))
}

fn shows(drawing: &Element, tasks: &[Task], late: Option<Late>, window: &Window, expected: Shown) -> bool {
    let Some(axes) = axes(drawing, window) else {
        return false;
    };
    is_plain(drawing)
        && sheets(drawing).into_iter().all(is_whole)
        && rulers_fit(drawing, &axes)
        && labels_fit(drawing, tasks)
        && shades_fit(drawing, &axes, &late)
        && horizon_fits(drawing, tasks, window)
        && jobs_apart(drawing, &axes, &(&expected.released | &expected.pressed))
        && sum_fits(&expected, tasks, &late, window)
        && legend_fits(drawing, &expected, &late, horizon_within(tasks, window), window)
        && all_texts_fit(drawing)
        && expected.closed.iter().all(|(_, now)| !expected.instants.contains(now))
        && Shown::in_drawing(drawing, &axes).map_or(false, |shown| shown == expected)
}

/// The window that the command chooses, of at most that many slots.
pub fn usual_window(tasks: &[Task], budget: u64, most: u64) -> Window {
    let horizon = reference::horizon(tasks, reference::round(tasks).unwrap());
    let release = tasks.iter().map(|task| u64::from(task.offset)).min().unwrap_or(0).saturating_sub(AROUND);
    let first = (release, horizon.clamp(release + LEAST, release + most));
    let late = late_of(tasks, budget).filter(|late| late.end <= MOST_SLOTS);
    let (from, to) = late.map_or(first, |late| {
        let to = (late.end + AROUND).min(MOST_SLOTS);
        let from = late.start.saturating_sub(AROUND).max(to.saturating_sub(most)).min(MOST_SLOTS - LEAST);
        (from, to.max(from + LEAST))
    });
    Window { from, to, early: false }
}

/// The window that the command chooses for presses.
pub fn pressed_window(tasks: &[Task], presses: &Presses, most: u64) -> Window {
    let (usual, due) = (of_often(tasks).clamp(LEAST, most), when_due(tasks, presses));
    let first = presses.keys().next().copied().unwrap_or(0).saturating_sub(AROUND);
    let (from, to) = if due > most { (first, (first + most).min(MOST_SLOTS)) } else { (0, usual.max(due)) };
    Window { from, to, early: false }
}

// The tables of tables/.

fn output_on(words: &[&OsStr]) -> Output {
    program(COMMAND).args(words).output().expect("the command starts")
}

/// The sanitized command writes the same and ends the same.
fn same_sanitized(words: &[&OsStr], output: &Output) -> bool {
    if !Path::new(SANITIZED).exists() {
        return true;
    }
    let mut command = Command::new(SANITIZED);
    let other = sanitized(&mut command).args(words).output().expect("the command starts");
    (&other.stdout, &other.stderr, other.status.code()) == (&output.stdout, &output.stderr, output.status.code())
}

fn table_at(path: &Path) -> Result<(u64, Vec<Task>), reference::Refusal> {
    let bytes = std::fs::read(path).expect("a table");
    let read = if bytes.first().map_or(true, |&first| first >= 9) {
        plain::read_text(&bytes)
    } else {
        reference::read_file(&bytes)
    };
    read.and_then(|(budget, tasks)| reference::judge(&tasks).map(|()| (budget, tasks)))
}

/// The names that a text has; a table file has none.
fn names_at(path: &Path) -> Vec<String> {
    let bytes = std::fs::read(path).expect("a table");
    let is_text = bytes.first().map_or(true, |&first| first >= 9);
    let names = if is_text { names_of(&bytes) } else { Vec::new() };
    names.iter().map(|name| shown(name)).collect()
}

fn is_refused(output: &Output) -> bool {
    output.status.code() == Some(2) && output.stdout.is_empty() && output.stderr.starts_with(b"refused ")
}

/// What an undecided verdict will be, if an answer says so: a drawing goes by the quick one, a page by that of the distances too.
pub fn foretold(tasks: &[Task], verdict: &Verdict, page: bool) -> Option<&'static str> {
    match verdict {
        Verdict::Undecided if reference::quick(tasks) => Some("and will give passes, as quick pass says"),
        Verdict::Undecided if page && reference::by_distance(tasks) == 1 => {
            Some("and will give passes, as distance pass says")
        }
        _ => None,
    }
}

pub fn tells(text: &str, foretold: Option<&str>) -> bool {
    foretold.map_or(!text.contains("will give passes"), |words| text.ends_with(&format!(" {words}")))
}

/// The verdict is told to those who see the drawing and to those who do not.
fn heading_fits(drawing: &Element, foretold: Option<&str>) -> bool {
    let lines = drawing.named("text").iter().filter(|line| Some(line.text().as_str()) == foretold).count();
    tells(&drawing.named("desc")[0].text(), foretold) && lines == usize::from(foretold.is_some())
}

fn is_drawn(output: &Output, tasks: &[Task], budget: u64) -> bool {
    let verdict = reference::decide(tasks, budget).verdict;
    let (status, foretold) = (status_of(&verdict), foretold(tasks, &verdict, false));
    let drawing = markup::read(&output.stdout, XML);
    let fits = |drawing: Element| {
        drawing_fits(&drawing, tasks, budget, &usual_window(tasks, budget, USUAL)) && heading_fits(&drawing, foretold)
    };
    output.status.code() == Some(status) && output.stderr.is_empty() && drawing.map_or(false, fits)
}

/// Of a table with buttons, and its verdict by the distance test and by what is certain.
fn is_drawn_pressed(output: &Output, tasks: &[Task], budget: u64, presses: &Presses, window: &Window) -> bool {
    let status = distance_status(tasks, budget);
    let word = if reference::by_distance(tasks) == 2 { "overload: " } else { ["pass: ", "", "", "late: ", "no answer: "][status as usize] };
    let fits = |drawing: Element| {
        pressed_drawing_fits(&drawing, tasks, presses, window) && drawing.named("desc")[0].text().starts_with(word)
    };
    output.status.code() == Some(status) && output.stderr.is_empty() && markup::read(&output.stdout, XML).map_or(false, fits)
}

fn one_table(bench: &mut Bench, path: &Path) {
    let table = table_at(path);
    for word in ["draw", "page"] {
        let words = [OsStr::new(word), path.as_os_str()];
        let output = output_on(&words);
        let good = match &table {
            Err(_) => is_refused(&output),
            Ok((budget, tasks)) if word == "draw" && reference::has_button(tasks) => {
                let none = Presses::new();
                is_drawn_pressed(&output, tasks, *budget, &none, &pressed_window(tasks, &none, USUAL))
            }
            Ok((budget, tasks)) if word == "draw" => is_drawn(&output, tasks, *budget),
            Ok((budget, tasks)) => is_paged(&output, tasks, *budget, &names_at(path)),
        };
        bench.count(good, || format!("{word} {path:?} ends with {}", output.status));
        bench.count(same_sanitized(&words, &output), || format!("{word} {path:?} under sanitizers"));
    }
}

pub fn of_tables(bench: &mut Bench) {
    for malformed in markup::MALFORMED {
        bench.count(markup::read(format!("{XML}\n{malformed}\n").as_bytes(), XML).is_err(), || {
            format!("read as XML: {malformed}")
        });
    }
    let entries = std::fs::read_dir("tables").expect("tables/").map(|entry| entry.expect("an entry").path());
    let mut paths: Vec<_> = entries.filter(|path| path.extension() != Some(OsStr::new("md"))).collect();
    paths.sort();
    paths.iter().for_each(|path| one_table(bench, path));
    bench.end_group("pictures and pages of tables/");
}

/// The pictures of README.md are what draw makes of their tables.
pub fn in_docs(bench: &mut Bench) {
    for (name, options) in [("b", &[][..]), ("c", &[]), ("shutter", &["--press", "shutter@3,20,60"])] {
        let kept = std::fs::read(format!("docs/{name}.svg")).unwrap_or_default();
        let output = asked(&[&["draw", &format!("tables/{name}.txt")], options].concat(), b"");
        bench.count(kept == output.stdout, || format!("docs/{name}.svg is not what draw makes of tables/{name}.txt"));
    }
    bench.end_group("pictures in docs/");
}

// Windows of random tables.

fn any_window(rng: &mut Rng) -> (Window, Vec<String>) {
    let from = rng.pick(&[0_u64, 1, 9, 57, 300, 1_234]);
    let long = rng.pick(&[1_u64, 2, 7, 34, 77, 110, 111, 200, 205, 333, 1_500, 2_000]);
    window_words(from, long, rng.chance(30))
}

fn window_words(from: u64, long: u64, early: bool) -> (Window, Vec<String>) {
    let mut words = vec!["draw".to_string(), "-".to_string(), "--to".to_string(), (from + long).to_string()];
    if from > 0 {
        words.extend(["--from".to_string(), from.to_string()]);
    }
    if early {
        words.push("--early".to_string());
    }
    (Window { from, to: from + long, early }, words)
}

fn windowed(bench: &mut Bench, (window, words): (Window, Vec<String>), tasks: &[Task], budget: u64) {
    let mut command = program(COMMAND);
    command.args(&words);
    let output = fed(command, &file_of(budget, tasks));
    let drawing = markup::read(&output.stdout, XML);
    let good = drawing.map_or(false, |drawing| drawing_fits(&drawing, tasks, budget, &window));
    let status = status_of(&reference::decide(tasks, budget).verdict);
    bench.count(good && output.status.code() == Some(status), || format!("{words:?} on {tasks:?} and budget {budget}"));
}

/// A table with buttons, drawn and on a page with presses.
fn pressed(bench: &mut Bench, rng: &mut Rng) {
    let tasks = mixed(rng);
    let (budget, within) = (budget_about(rng, &often(&tasks)), rng.pick(&[30, 150, 700]));
    let (presses, told) = some_presses(rng, &tasks, within);
    let text = plain::text_of(budget, &tasks);
    let (window, words) = any_window(rng);
    for (window, words) in [(window, words), (pressed_window(&tasks, &presses, USUAL), vec!["draw".to_string(), "-".to_string()])] {
        let words: Vec<&str> = words.iter().chain(&told).map(String::as_str).collect();
        let output = asked(&words, &text);
        bench.count(is_drawn_pressed(&output, &tasks, budget, &presses, &window), || format!("{words:?} on {tasks:?} and budget {budget}"));
    }
    let words: Vec<&str> = ["page", "-"].into_iter().chain(told.iter().map(String::as_str)).collect();
    let good = is_paged_with(&asked(&words, &text), &tasks, budget, &[], &presses);
    bench.count(good, || format!("{words:?} on {tasks:?} and budget {budget}"));
}

pub fn at_random(bench: &mut Bench, rng: &mut Rng) {
    (0..PRESSED).for_each(|_| pressed(bench, rng));
    for _ in 0..AT_RANDOM {
        let tasks = near_border(rng);
        let budget = budget_about(rng, &tasks);
        windowed(bench, any_window(rng), &tasks, budget);
        let text = plain::text_of(budget, &tasks);
        bench.count(is_drawn(&asked(&["draw", "-"], &text), &tasks, budget), || {
            format!("draw of {tasks:?} and budget {budget}")
        });
        bench.count(is_paged(&asked(&["page", "-"], &text), &tasks, budget, &[]), || {
            format!("page of {tasks:?} and budget {budget}")
        });
    }
    bench.end_group("pictures and pages at random");
}

// Windows of the command's own choice far out, windows that cut what is missed, and jobs that get no slot at all.

/// Two tasks whose jobs of one slot come together first at this instant, and then only one of them is in time.
fn meeting_at(instant: u32) -> Vec<Task> {
    [997, 1_009].map(|period| reference::periodic(instant % period, 1, 1, period)).to_vec()
}

/// A job of 30 slots, with none to spare, and one of a slot that comes at the end of it first just before 999,995.
const LONG: [Task; 2] = [reference::periodic(39_965, 30, 30, 60_000), reference::periodic(40_010, 1, 1, 59_999)];

/// In every 60 slots one of two jobs misses 20 from 40 on.
const MISSING: [Task; 2] = [reference::periodic(0, 30, 40, 60), reference::periodic(0, 30, 40, 60)];

fn one_choice(bench: &mut Bench, tasks: &[Task], budget: u64) {
    let text = plain::text_of(budget, tasks);
    bench.count(is_drawn(&asked(&["draw", "-"], &text), tasks, budget), || format!("draw of {tasks:?} and budget {budget}"));
    bench.count(is_paged(&asked(&["page", "-"], &text), tasks, budget, &[]), || {
        format!("page of {tasks:?} and budget {budget}")
    });
}

pub fn at_the_edges(bench: &mut Bench) {
    for instant in [503_485, 999_960, 999_989, 999_990, 999_999, 1_000_000] {
        one_choice(bench, &meeting_at(instant), 3_000_000);
    }
    let crowd: Vec<Task> = (0..32).map(|number| reference::periodic(number % 3, 2, 40 + number % 5, 64)).collect();
    one_choice(bench, &crowd, 1_000);
    one_choice(bench, &LONG, 3_000_000);
    for (from, long) in [(0, 40), (0, 41), (45, 5), (45, 15), (45, 30), (50, 200), (0, 330), (0, 1_999)] {
        windowed(bench, window_words(from, long, false), &MISSING, 1_000);
    }
    for offset in [9, 10, 11, 250, 59_999] {
        one_choice(bench, &[reference::periodic(offset, 2, 3, 4), reference::periodic(offset + 1, 1, 4, 4)], 200_000);
    }
    bench.end_group("pictures and pages: windows far out, and cut");
}

// Texts of anybody's.

/// Names of files, and how they are shown.
const NAMES: &[(&[u8], &str)] = &[
    (b"<script>alert(1)&'\".txt", "<script>alert(1)&'\".txt"),
    (b"&lt;]]>.txt", "&lt;]]>.txt"),
    ("é 字 😀.txt".as_bytes(), "é 字 😀.txt"),
    (b"\x01\x7f\xff\xc0\x80.txt", "?????.txt"),
    (b"\xed\xa0\x80\xef\xbf\xbe\xc2\x85\xf4\x90\x80\x80.txt", "????????????.txt"),
    (b"\xe2\x82", "??"),
    (b"two\nlines.txt", "two?lines.txt"),
    (b"e\x1b[31m\xe2\x80\xaetxt.\xf3\xa0\x80\x81", "e?[31m???txt.????"),
];

/// A comment that must not come through either.
const TEXT: &[u8] = b"# <script>alert(2)</script> & \" \xff\nbudget 1000\ntask 8 5 7 15 # ]]>\ntask 0 2 2 5\n";

/// Above a drawing stands the name, or its end.
fn name_fits(drawing: &Element, shown: &str) -> bool {
    let told = drawing.of_class("name")[0].text();
    let name = format!("target/host/{shown}");
    told == name || told.strip_prefix("...").map_or(false, |end| name.ends_with(end) && told.chars().count() > 20)
}

fn shown_as(bench: &mut Bench, name: &[u8], shown: &str) {
    let folder = Path::new("target/host");
    let path = folder.join(OsStr::from_bytes(name));
    std::fs::write(&path, TEXT).expect("target/host can be written");
    for (word, prologue) in [("draw", XML), ("page", HTML)] {
        let words = [OsStr::new(word), path.as_os_str()];
        let output = output_on(&words);
        let title = if word == "page" { shown.to_string() } else { format!("target/host/{shown}") };
        let titled = |root: &Element| root.named("title")[0].text() == title && !root.text().contains("alert(2)");
        let fits = |root: &Element| word == "page" || (name_fits(root, shown) && all_texts_fit(root));
        let good = markup::read(&output.stdout, prologue)
            .map_or(false, |root| titled(&root) && fits(&root) && root.named("script").is_empty());
        bench.count(good && output.status.code() == Some(0), || {
            format!("{word} of a file named {shown} ends with {}", output.status)
        });
        bench.count(same_sanitized(&words, &output), || format!("{word} of a file named {shown} under sanitizers"));
    }
    std::fs::remove_file(&path).expect("it was there");
}

pub fn of_anybody(bench: &mut Bench) {
    NAMES.iter().for_each(|(name, shown)| shown_as(bench, name, shown));
    for long in ["é".repeat(100), "W".repeat(100), "@".repeat(240), "字".repeat(80), "n".repeat(240)] {
        shown_as(bench, long.as_bytes(), &long);
    }
    bench.end_group("pictures and pages: texts escaped");
}
