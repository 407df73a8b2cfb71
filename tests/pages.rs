//! The word page: the verdict at a glance, a sentence for each task, who asks for too much and what mends it, the checksum and the bytes, all
//! against the reference; names in pages and drawings; and --output, which leaves a whole file or none.

use crate::bench::Bench;
use crate::command::{asked, status_of};
use crate::inputs::*;
use crate::markup::{self, Element};
use crate::names::{cut, named, names_of, shown, words_of, LETTERS};
use crate::pictures::{all_texts_fit, drawing_fits, foretold, pressed_drawing_fits, pressed_window, tells, usual_window, HTML, XML};
use crate::plain;
use crate::pressing::{distance_status, says_certainly, Presses};
use crate::reference::{self, Late, Task, Verdict};
use crate::remedies::{looked_for, percent, remedies};
use std::fs;
use std::os::unix::fs::{symlink, FileTypeExt, PermissionsExt};
use std::path::Path;
use std::process::Output;

const TABLES: u64 = 40;
const MOST_SHOWN: u64 = 110;

// The checksum, by division of the message as one polynomial.

/// CRC-32: the first 32 bits are turned over, 32 zeros follow, and what the division leaves is turned over and read backwards.
fn checksum(bytes: &[u8]) -> u32 {
    const DIVISOR: u64 = 0x1_04C1_1DB7;
    let bits = bytes.iter().flat_map(|byte| (0..8).map(move |bit| u64::from(byte >> bit & 1)));
    let padded = bits.chain([0; 32]).enumerate().map(|(place, bit)| bit ^ u64::from(place < 32));
    let rest = padded.fold(0_u64, |rest, bit| {
        let longer = rest << 1 | bit;
        if longer >> 32 == 1 {
            longer ^ DIVISOR
        } else {
            longer
        }
    });
    !(rest as u32).reverse_bits()
}

// What a page says.

fn hex_of(page: &Element) -> Vec<u8> {
    let rows = page.of_class("hex").into_iter().flat_map(|sheet| sheet.named("span"));
    let bytes = rows.flat_map(|row| row.text().split_whitespace().skip(1).map(str::to_string).collect::<Vec<_>>());
    bytes.map(|word| u8::from_str_radix(&word, 16)).collect::<Result<Vec<u8>, _>>().unwrap_or_default()
}

/// What is asked about, and under which names.
struct Asked<'a> {
    tasks: &'a [Task],
    budget: u64,
    names: &'a [String],
}

fn slots(count: u32) -> &'static str {
    ["slots", "slot"][usize::from(count == 1)]
}

impl Asked<'_> {
    fn verdict(&self) -> Verdict {
        reference::decide(self.tasks, self.budget).verdict
    }

    /// The name, whole, or what stands for one.
    fn name(&self, number: usize) -> String {
        let kind = if self.tasks[number].button { "button" } else { "task" };
        self.names.get(number).filter(|name| !name.is_empty()).cloned().unwrap_or(format!("{kind} {number}"))
    }

    fn short_name(&self, number: usize) -> String {
        cut(&self.name(number), LETTERS)
    }

    /// Whether the reference can try every smaller cost in no time.
    fn is_small(&self) -> bool {
        let horizon = reference::horizon(self.tasks, reference::round(self.tasks).unwrap());
        let costs: u64 = self.tasks.iter().map(|task| u64::from(task.cost)).sum();
        looked_for(self.tasks) && horizon.saturating_mul(costs) <= 200_000
    }
}

/// How many jobs of the task are released within the late interval and due in it.
fn jobs_in(task: &Task, late: &Late) -> u64 {
    let (offset, period, deadline) = (u64::from(task.offset), u64::from(task.period), u64::from(task.deadline));
    let before = |end: u64| if end > offset { (end - offset).div_ceil(period) } else { 0 };
    before((late.end + 1).saturating_sub(deadline)).saturating_sub(before(late.start))
}

fn who(asked: &Asked) -> Option<String> {
    let all = asked.tasks.iter().enumerate();
    let (head, parts): (String, Vec<String>) = match asked.verdict() {
        Verdict::Late(late) => {
            let jobs = all.map(|(number, task)| (number, task, jobs_in(task, &late))).filter(|(_, _, jobs)| *jobs > 0);
            let say = |(number, task, jobs): (usize, &Task, u64)| {
                format!("{}, {jobs} {} of {}", asked.short_name(number), if jobs == 1 { "job" } else { "jobs" }, task.cost)
            };
            ("In this interval: ".to_string(), jobs.map(say).collect())
        }
        Verdict::Overload => {
            let round = reference::round(asked.tasks).unwrap();
            let say = |(number, task): (usize, &Task)| {
                let slots = reference::asked_in_round(&[*task], round);
                format!("{} asks for {slots}, {}", asked.short_name(number), percent(slots, round))
            };
            (format!("Of every {round} slots: "), all.map(say).collect())
        }
        _ => return None,
    };
    Some(head + &parts.join("; ") + ".")
}

fn mends(asked: &Asked) -> String {
    if !looked_for(asked.tasks) {
        return "What mends it was not looked for, since that may take long: judge --mend looks for it.".to_string();
    }
    let remedies = remedies(asked.tasks);
    let some =
        remedies.iter().enumerate().filter_map(|(number, remedy)| remedy.mends.map(|cost| (number, remedy.cost, cost)));
    let say = |(number, was, cost): (usize, u64, u64)| {
        format!("{} with a cost of {cost} instead of {was}", asked.short_name(number))
    };
    let parts: Vec<String> = some.map(say).collect();
    if parts.is_empty() {
        return "No cost of one task alone mends it.".to_string();
    }
    let horizon = reference::horizon(asked.tasks, reference::round(asked.tasks).unwrap());
    let short = format!(" It takes a budget that reaches the horizon, {horizon}, to see that it passes then.");
    let tail = if asked.budget < horizon { short.as_str() } else { "" };
    format!("One of these mends it, all others as they are: {}.{tail}", parts.join("; "))
}

/// The box has a sign, of its own kind for each verdict, and tells who and what mends it only of a table that does not pass.
fn box_fits(page: &Element, asked: &Asked) -> bool {
    let boxes = page.of_class("box");
    let status = status_of(&asked.verdict()) as usize;
    let told = |class: &str| page.of_class(class).first().map(|told| told.text());
    let mended = if asked.is_small() || !looked_for(asked.tasks) { told("mends") == Some(mends(asked)) } else { true };
    boxes.len() == 1
        && boxes[0].has_class(["passes", "", "", "late", "undecided"][status])
        && boxes[0].named("svg").len() == 1
        && told("who") == who(asked)
        && if status == 3 { mended } else { told("mends").is_none() }
}

/// The sentence of a task, as far as the reference can tell it in no time.
fn sentence(asked: &Asked, number: usize) -> String {
    let (name, task) = (asked.name(number), &asked.tasks[number]);
    let Task { cost, deadline, period, .. } = *task;
    let asks = format!("{name} asks for {cost} {}", slots(cost));
    if task.button {
        return format!("{asks} within {deadline} of a press, and is pressed at most once in {period}.");
    }
    let need = format!("{asks} in every {period}");
    let plain = format!("{need}, within {deadline} of its release.");
    if reference::has_button(asked.tasks) {
        return plain;
    }
    match asked.verdict() {
        Verdict::Passes(worst, _) => {
            let ready = format!("{name} is ready within {} of {deadline} {} and may take ", worst[number], slots(deadline));
            if !triable(asked.budget, asked.tasks, number) {
                return ready;
            }
            let more = reference::largest(asked.tasks, number, asked.budget) - u64::from(cost);
            ready + &if more > 0 { format!("{more} more.") } else { "no more.".to_string() }
        }
        Verdict::Undecided => plain,
        _ if !looked_for(asked.tasks) => plain,
        _ if !asked.is_small() => need,
        _ => match remedies(asked.tasks)[number].mends {
            Some(least) => format!("{need}; with {least} the table passes."),
            None => format!("{need}; no cost of it alone mends the table."),
        },
    }
}

/// A row: number, sentence, of a table that passes the bar, and the numbers.
fn row_fits(row: &Element, asked: &Asked, number: usize, worst: Option<&u64>) -> bool {
    let task = &asked.tasks[number];
    let told: Vec<String> = row.elements().map(|cell| cell.text()).collect();
    let mut cells = vec![number.to_string()];
    cells.extend(worst.map(|worst| format!("{worst} of {}", task.deadline)));
    cells.push(if task.button { String::new() } else { task.offset.to_string() });
    cells.extend([task.cost, task.deadline, task.period].map(|number| number.to_string()));
    let others: Vec<String> =
        told.iter().enumerate().filter(|(place, _)| *place != 1).map(|(_, cell)| cell.clone()).collect();
    others == cells && told[1].starts_with(&sentence(asked, number)) && told[1].ends_with('.')
}

fn rows_fit(page: &Element, asked: &Asked, worst: &[u64]) -> bool {
    let rows = page.named("tr");
    rows.len() == asked.tasks.len() + 1
        && (0..asked.tasks.len()).all(|number| row_fits(rows[number + 1], asked, number, worst.get(number)))
}

/// The bar is as long as the worst response, the frame as the deadline.
fn bars_fit(page: &Element, tasks: &[Task], worst: &[u64]) -> bool {
    let bars: Vec<&Element> = page.named("td").into_iter().flat_map(|cell| cell.named("svg")).collect();
    let fits = |((bar, task), worst): ((&&Element, &Task), &u64)| {
        let wide = bar.named("rect")[1].number("width").unwrap_or(0);
        wide == 118 * worst / u64::from(task.deadline)
    };
    bars.len() == worst.len() && bars.iter().zip(tasks).zip(worst).all(fits)
}

fn budget_words(budget: u64) -> String {
    if budget == u64::MAX {
        "The budget has no bound.".to_string()
    } else {
        format!("The budget is {budget}.")
    }
}

/// What every page has: texts alone, the bytes of the table file, their number and checksum, and room for a name and a date.
fn is_a_page(page: &Element, asked: &Asked) -> bool {
    let silent = page.all().iter().all(|element| !["script", "link", "img", "iframe"].contains(&element.name.as_str()));
    let file = file_of(asked.budget, asked.tasks);
    let sum =
        format!("The table file has {} bytes; CRC-32 (as zip and Ethernet use it): {:08x}", file.len(), checksum(&file));
    let told = |class: &str| page.of_class(class).iter().map(|told| told.text()).collect::<Vec<_>>();
    silent
        && page.name == "html"
        && hex_of(page) == file
        && told("checksum") == [sum]
        && told("hand") == ["Name  Date "]
        && page.text().contains(&budget_words(asked.budget))
}

fn page_fits(page: &Element, asked: &Asked) -> bool {
    let Asked { tasks, budget, .. } = *asked;
    let verdict = asked.verdict();
    let worst = if let Verdict::Passes(worst, _) = &verdict { worst.clone() } else { Vec::new() };
    let text = page.text();
    let quick = if reference::quick(tasks) { "quick pass" } else { "quick none" };
    let runs = page.of_class("run");
    is_a_page(page, asked)
        && page.named("pre")[0].text() == reference::report(tasks, budget)
        && box_fits(page, asked)
        && rows_fit(page, asked, &worst)
        && bars_fit(page, tasks, &worst)
        && tells(&page.of_class("verdict")[0].text(), foretold(tasks, &verdict, true))
        && text.contains(quick)
        && text.contains(&format!("distance {}", ["none", "pass", "overload"][reference::by_distance(tasks) as usize]))
        && runs.len() == 1
        && drawing_fits(runs[0], tasks, budget, &usual_window(tasks, budget, MOST_SHOWN))
        && names_fit(runs[0], asked.names)
}

/// Of a table with buttons: the distance answer, what is certain, the run with these presses, and which calls a camera uses.
fn button_page_fits(page: &Element, asked: &Asked, presses: &Presses) -> bool {
    let Asked { tasks, budget, .. } = *asked;
    let (answer, status) = (reference::by_distance(tasks) as usize, distance_status(tasks, budget));
    let (text, runs) = (page.text(), page.of_class("run"));
    let told = text.contains(["distance none", "distance pass", "distance overload"][answer]);
    let calls = text.contains("yolizadwa_press_start") && text.contains("yolizadwa_press_step");
    let kind = page.of_class("box")[0].has_class(["passes", "", "", "late", "undecided"][status as usize]);
    let verdict = format!("\n{}", page.of_class("verdict")[0].text());
    let jobs = page.named("pre").last().map_or(String::new(), |list| list.text());
    told && calls
        && kind
        && says_certainly(&format!("{verdict}\n{jobs}"), tasks, budget)
        && is_a_page(page, asked)
        && rows_fit(page, asked, &[])
        && runs.len() == 1
        && pressed_drawing_fits(runs[0], tasks, presses, &pressed_window(tasks, presses, MOST_SHOWN))
        && names_fit(runs[0], asked.names)
}

pub fn is_paged(output: &Output, tasks: &[Task], budget: u64, names: &[String]) -> bool {
    is_paged_with(output, tasks, budget, names, &Presses::new())
}

pub fn is_paged_with(output: &Output, tasks: &[Task], budget: u64, names: &[String], presses: &Presses) -> bool {
    let Ok(page) = markup::read(&output.stdout, HTML) else {
        return false;
    };
    let asked = Asked { tasks, budget, names };
    let (fits, status) = if reference::has_button(tasks) {
        (button_page_fits(&page, &asked, presses), distance_status(tasks, budget))
    } else {
        (page_fits(&page, &asked), status_of(&asked.verdict()))
    };
    fits && output.stderr.is_empty() && output.status.code() == Some(status)
}

// Names.

/// In every block each task's name, as long as there is room, and whole where the pointer rests.
fn names_fit(drawing: &Element, names: &[String]) -> bool {
    let labels = drawing.of_class("names");
    let given: Vec<&String> = names.iter().filter(|name| !name.is_empty()).collect();
    let fits = |(label, name): (&Element, &&String)| {
        let (whole, short) = (label.named("title")[0].text(), label.named("text")[0].text());
        let begins =
            short.strip_suffix('\u{2026}').is_some_and(|begin| name.starts_with(begin) && short.chars().count() > 8);
        whole == **name && (short == **name || begins)
    };
    let block_fits = |group: &&Element| {
        let labels: Vec<&Element> = group.elements().collect();
        labels.len() == given.len() && labels.into_iter().zip(&given).all(fits)
    };
    !labels.is_empty() && labels.iter().all(block_fits)
}

/// What a browser says of a box names its task.
fn titles_fit(drawing: &Element, names: &[String]) -> bool {
    let boxes = drawing.of_class("boxes").into_iter().flat_map(|group| group.named("title"));
    let is_named = |title: &Element| {
        let told = title.text();
        names.iter().enumerate().any(|(task, name)| told.starts_with(&format!("{}: slot", words_of(task, name))))
    };
    boxes.into_iter().all(is_named)
}

fn named_table(bench: &mut Bench, rng: &mut Rng) {
    let tasks = near_border(rng);
    let budget = budget_about(rng, &tasks);
    let text = named(rng, budget, &tasks);
    let names: Vec<String> = names_of(&text).iter().map(|name| shown(name)).collect();
    let drawing = markup::read(&asked(&["draw", "-"], &text).stdout, XML);
    let good =
        drawing.is_ok_and(|drawing| names_fit(&drawing, &names) && titles_fit(&drawing, &names) && all_texts_fit(&drawing));
    bench.count(good, || format!("draw with names of {}", String::from_utf8_lossy(&text)));
    bench.count(is_paged(&asked(&["page", "-"], &text), &tasks, budget, &names), || {
        format!("page with names of {}", String::from_utf8_lossy(&text))
    });
}

pub fn with_names(bench: &mut Bench, rng: &mut Rng) {
    bench.count(checksum(b"123456789") == 0xCBF4_3926, || "the tests' own checksum".to_string());
    (0..TABLES).for_each(|_| named_table(bench, rng));
    bench.end_group("pictures and pages with names");
}

// --output.

const FOLDER: &str = "target/host/output";
const TABLE: &str = "tables/c.txt";

/// Nothing but this file is left in the folder.
fn alone(name: &str) -> bool {
    let left: Vec<_> = fs::read_dir(FOLDER).expect("the folder").map(|entry| entry.expect("an entry").file_name()).collect();
    left.iter().all(|other| other == name)
}

/// What is printed with the option is nothing, and the file has what is printed without.
fn goes_into(bench: &mut Bench, word: &str, path: &str, file: &str) {
    let (printed, written) = (asked(&[word, TABLE], b""), asked(&[word, TABLE, "--output", path], b""));
    let kept = fs::read(file).unwrap_or_default();
    let good = kept == printed.stdout && written.stdout.is_empty() && written.status == printed.status;
    bench.count(good && written.stderr.is_empty(), || format!("{word} {TABLE} --output {path}: {written:?}"));
}

/// Refused or in trouble: the file stays as it was.
fn stays_out(bench: &mut Bench, words: &[&str], path: &str, status: i32) {
    let before = fs::read(path).ok();
    let output = asked(&[words, &["--output", path]].concat(), b"");
    let same = fs::read(path).ok() == before && output.stdout.is_empty();
    bench.count(same && output.status.code() == Some(status), || format!("{words:?} --output {path}: {output:?}"));
}

fn of_word(bench: &mut Bench, word: &str) {
    let path = format!("{FOLDER}/new.xml");
    stays_out(bench, &[word, "tables/refused_01.txt"], &path, 2);
    stays_out(bench, &[word, "tables/none.txt"], &path, 1);
    // No file can have a name so long, which is known only when the whole file is to take its place.
    stays_out(bench, &[word, TABLE], &format!("{FOLDER}/{}", "n".repeat(300)), 1);
    bench.count(alone("none"), || format!("{word} leaves a file"));
    goes_into(bench, word, &path, &path);
    let mode = fs::metadata(&path).expect("it is there").permissions().mode() & 0o777;
    fs::set_permissions(&path, fs::Permissions::from_mode(0o640)).expect("it is ours");
    fs::write(&path, "<half a page").expect("it can be written");
    goes_into(bench, word, &path, &path);
    let kept = fs::metadata(&path).expect("it is there").permissions().mode() & 0o777;
    bench.count(mode & 0o600 == 0o600 && kept == 0o640, || format!("{word}: modes {mode:o} and {kept:o}"));
    stays_out(bench, &[word, "tables/refused_01.txt"], &path, 2);
    bench.count(alone("new.xml"), || format!("{word} leaves another file"));
    fs::remove_file(&path).expect("it was there");
}

/// Whoever may write to the folder could put a new file in place of one that may not be written. Root may write any file.
fn may_not_be_written(bench: &mut Bench) {
    let path = format!("{FOLDER}/kept");
    for (mode, text) in [(0o000, "precious"), (0o444, "<precious"), (0o222, "precious")] {
        fs::write(&path, text).expect("it can be written");
        fs::set_permissions(&path, fs::Permissions::from_mode(mode)).expect("it is ours");
        if fs::OpenOptions::new().read(true).write(true).open(&path).is_ok() {
            println!("this user may write any file: no file is tried that may not be written");
            break;
        }
        let output = asked(&["page", TABLE, "--output", &path], b"");
        fs::set_permissions(&path, fs::Permissions::from_mode(0o600)).expect("it is ours");
        let same = fs::read(&path).is_ok_and(|kept| kept == text.as_bytes());
        bench.count(same && output.status.code() == Some(1), || format!("page over mode {mode:o}: {output:?}"));
        fs::remove_file(&path).expect("it was there");
    }
    let _ = fs::remove_file(&path);
}

fn what_is_there(bench: &mut Bench) {
    let (text, link, file) = (format!("{FOLDER}/text"), format!("{FOLDER}/link"), format!("{FOLDER}/file"));
    fs::write(&text, "budget 1\n").expect("it can be written");
    stays_out(bench, &["page", TABLE], &text, 1);
    fs::write(&file, "").expect("it can be written");
    symlink("file", &link).expect("a link");
    goes_into(bench, "page", &link, &file);
    bench.count(fs::symlink_metadata(&link).is_ok_and(|link| link.is_symlink()), || "the link is gone".to_string());
    // Since rt refuses links.
    fs::remove_file(&link).expect("it is there");
    stays_out(bench, &["page", TABLE], FOLDER, 1);
    stays_out(bench, &["page", TABLE], &format!("{FOLDER}/none/new.xml"), 1);
    may_not_be_written(bench);
    let full = asked(&["page", TABLE, "--output", "/dev/full"], b"");
    let stays = fs::metadata("/dev/full").is_ok_and(|device| device.file_type().is_char_device());
    bench.count(full.status.code() == Some(1) && stays, || format!("page --output /dev/full: {full:?}"));
    let standard = asked(&["page", TABLE, "--output", "-"], b"");
    bench.count(standard.stdout == asked(&["page", TABLE], b"").stdout, || "page --output -".to_string());
}

pub fn into_files(bench: &mut Bench) {
    let _ = fs::remove_dir_all(FOLDER);
    fs::create_dir_all(FOLDER).expect("target/host can be written");
    ["draw", "page"].into_iter().for_each(|word| of_word(bench, word));
    what_is_there(bench);
    bench.count(Path::new(TABLE).exists(), || "the table is gone".to_string());
    fs::remove_dir_all(FOLDER).expect("it was there");
    bench.end_group("pictures and pages into files");
}

// What if.

pub fn what_if(bench: &mut Bench) {
    let text = b"budget 1000\ntask 8 5 7 15 # lens <scale>\ntask 0 2 2 5\n";
    let output = asked(&["page", "-", "--set", "0.cost=6", "--budget=900"], text);
    let mut tasks = plain::read_text(text).expect("a table").1;
    tasks[0].cost = 6;
    let names = ["lens <scale>".to_string(), String::new()];
    let said =
        "What if: the table of the file, with lens <scale>.cost = 6 (5 in the file), with budget = 900 (1000 in the file).";
    let told = markup::read(&output.stdout, HTML)
        .is_ok_and(|page| page.of_class("what-if").iter().map(|told| told.text()).collect::<Vec<_>>() == [said]);
    bench.count(told && is_paged(&output, &tasks, 900, &names), || format!("page of a what-if: {output:?}"));
    bench.end_group("pages of what-if");
}
