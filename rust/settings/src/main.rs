//! Makes pictures of columns, reads them, and prints the tables of docs/SETTINGS.md: how much of the liquid is found,
//! and how much else is taken for liquid. `settings short` reads small pictures at the corners of the page's range, and
//! fails if one is read badly.

mod measure;
mod rng;
mod scene;

use imgproc::reading::ReadingConfig;
use measure::{measure, Score};
use scene::Scene;
use std::process::exit;

const LIQUIDS: [f64; 5] = [0.4, 0.55, 0.7, 0.8, 0.85];
const LEVELS: [f64; 3] = [0.2, 0.5, 0.8];
/// The widths of the range's pictures in columns, each with the largest loss of light to the corners.
const PICTURES: [(usize, f64); 4] = [(3, 0.1), (6, 0.12), (8, 0.15), (12, 0.2)];
/// The largest noise of the range, divided by the light in the middle.
const NOISE: f64 = 0.01;
/// The widest picture that is made. A wider one takes long to make and to read.
const WIDEST: usize = 2000;

/// Returns the pictures of the range for one column and one liquid.
fn range(column: usize, liquid: f64) -> Vec<Scene> {
    let mut scenes = Vec::new();
    for (times, falloff) in PICTURES {
        for level in LEVELS {
            for noise in [0.0, NOISE] {
                let seed = (1000 * column + scenes.len()) as u64;
                let scene = Scene { liquid, level, falloff, seed, ..Scene::new(column, times) };
                scenes.push(Scene { noise: noise * scene.light, ..scene });
            }
        }
    }
    scenes.retain(|scene| scene.width <= WIDEST);
    scenes
}

/// Returns the pictures at the corners of the range, where each number is at one of its limits, and for each the width
/// that the column is taken for.
fn corners(columns: [usize; 4], widest: usize, seed: u64) -> Vec<(Scene, usize)> {
    let mut scenes = Vec::new();
    for column in columns {
        for (times, falloff) in PICTURES {
            for (liquid, dimmest, clearest) in [(0.4, 80.0, 1.0), (0.8, 80.0, 1.0), (0.85, 160.0, 0.95)] {
                for bits in 0..32 {
                    let pick = |bit: u32, low: f64, high: f64| if bits >> bit & 1 == 0 { low } else { high };
                    let light = pick(0, dimmest, 240.0);
                    let scene = Scene {
                        light,
                        empty: pick(1, 0.93, clearest),
                        liquid,
                        level: pick(2, LEVELS[0], LEVELS[2]),
                        noise: pick(3, 0.0, NOISE * light),
                        falloff,
                        seed: seed + scenes.len() as u64,
                        ..Scene::new(column, times)
                    };
                    scenes.push((scene, (column as f64 * pick(4, 1.0, 1.25)).round() as usize));
                }
            }
        }
    }
    scenes.retain(|(scene, _)| scene.width <= widest);
    scenes
}

/// Reads the corners of the range, first with the seeds with which its limits were chosen, then with other seeds and
/// columns.
fn at_corners() {
    println!("\nAt the corners of the range:\n");
    let (few, others) = ([8, 20, 56, 112], [11, 33, 160, 320]);
    let sets = [("chosen with", few, 900_000), ("held out", few, 31_000_000), ("held out", others, 55_000_000)];
    for (what, columns, seed) in sets {
        let scenes = corners(columns, 1344, seed);
        let scores = scenes.iter().map(|(scene, taken)| measure(scene, &ReadingConfig::for_column(*taken)));
        let scores: Vec<Score> = scores.collect();
        let good = scores.iter().filter(|score| score.good()).count();
        let worst = scores.iter().fold(Score::BEST, |worst, &score| worst.worse(score));
        let (found, wrong) = (100.0 * worst.found, 100.0 * worst.wrong);
        println!("{what}: {good} of {} are read well; at worst {found:.1} found and {wrong:.1} wrong", scenes.len());
    }
}

fn worst(scenes: &[Scene], config: &ReadingConfig) -> Score {
    scenes.iter().map(|scene| measure(scene, config)).fold(Score::BEST, Score::worse)
}

/// A column of a table: the heading, and what its pictures change.
type Change<'a> = (String, Box<dyn Fn(Scene) -> Scene + 'a>);

/// Prints a table with a row for each value and a column for each change: the share of pictures that are read well.
fn shares(
    title: &str, rows: &[Change<'_>], columns: &[Change<'_>], scenes: &[Scene], rule: fn(&Scene) -> ReadingConfig,
) {
    println!("\n{title}\n");
    let heads: Vec<&str> = columns.iter().map(|(head, _)| head.as_str()).collect();
    println!("| | {} |\n|---|{}", heads.join(" | "), "---|".repeat(columns.len()));
    for (head, row) in rows {
        print!("| {head} |");
        for (_, column) in columns {
            let made: Vec<Scene> = scenes.iter().map(|&scene| column(row(scene))).collect();
            let good = made.iter().filter(|scene| measure(scene, &rule(scene)).good()).count();
            print!(" {} |", 100 * good / made.len());
        }
        println!();
    }
}

/// Prints a table with a row for each width of the column and a column for each liquid: the least found and the most
/// wrong, in per cent.
fn by_width(title: &str, columns: &[usize], rule: fn(&Scene) -> ReadingConfig) {
    println!("\n{title}\n");
    let heads: Vec<String> = LIQUIDS.iter().map(|liquid| format!("liquid {liquid}")).collect();
    println!("| column | {} |\n|---|{}", heads.join(" | "), "---|".repeat(LIQUIDS.len()));
    for &column in columns {
        print!("| {column} |");
        for liquid in LIQUIDS {
            let scenes = range(column, liquid);
            let score = worst(&scenes, &rule(&scenes[0]));
            print!(" {:.1} / {:.1} |", 100.0 * score.found, 100.0 * score.wrong);
        }
        println!();
    }
}

/// Reads pictures of the range whose column is empty, and prints the most that is judged dark, in per cent of the
/// column.
fn empty_columns() {
    let mut most = 0.0f64;
    for column in [8, 20, 56, 112] {
        for scene in range(column, 1.0) {
            let scene = Scene { level: 0.0, ..scene };
            let dark = measure::dark(&scene, &rule(&scene)) as f64;
            most = most.max(dark / (scene.column * scene.height) as f64);
        }
    }
    println!("\nAn empty column: at most {:.1} % of it are judged dark.", 100.0 * most);
}

fn defaults(_: &Scene) -> ReadingConfig {
    ReadingConfig::default()
}

fn rule(scene: &Scene) -> ReadingConfig {
    ReadingConfig::for_column(scene.column)
}

/// Returns pictures of some columns with every liquid and every fill level.
fn some(columns: [usize; 3], times: usize) -> Vec<Scene> {
    let mut scenes = Vec::new();
    for column in columns {
        for liquid in LIQUIDS {
            for level in LEVELS {
                let seed = 100 + scenes.len() as u64;
                scenes.push(Scene { liquid, level, seed, ..Scene::new(column, times) });
            }
        }
    }
    scenes
}

fn changes<'a, const N: usize>(name: &str, values: [f64; N], set: fn(&mut Scene, f64)) -> Vec<Change<'a>> {
    let change = |value: f64| -> Change<'a> {
        let changed = move |mut scene: Scene| {
            set(&mut scene, value);
            scene
        };
        (format!("{name} {value}"), Box::new(changed))
    };
    values.into_iter().map(change).collect()
}

fn tables() {
    let widths = [8, 12, 16, 24, 32, 40, 56, 80, 112, 160, 224, 320];
    by_width("Defaults, found / wrong:", &widths[..7], defaults);
    by_width("for_column, found / wrong:", &widths, rule);
    empty_columns();
    at_corners();
    let liquids = changes("liquid", LIQUIDS, |scene, liquid| scene.liquid = liquid);
    let widths = changes("column", [8.0, 20.0, 56.0], |scene, column| {
        let times = scene.width / scene.column;
        let made = Scene::new(column as usize, times);
        (scene.column, scene.width, scene.height) = (made.column, made.width, made.height);
    });
    let light = changes("lost", [0.05, 0.1, 0.15, 0.2, 0.3, 0.4], |scene, falloff| scene.falloff = falloff);
    let times = changes("times", [3.0, 4.0, 6.0, 8.0, 12.0], |scene, times| {
        let made = Scene::new(scene.column, times as usize);
        (scene.width, scene.height) = (made.width, made.height);
    });
    shares(
        "Light lost to the corners, by the picture's width in columns:",
        &times,
        &light,
        &some([24, 64, 96], 3),
        rule,
    );
    let noise = changes("noise", [0.0, 1.0, 2.0, 3.0, 4.0, 6.0, 8.0], |scene, noise| scene.noise = noise);
    shares("Noise, by the liquid:", &liquids, &noise, &some([8, 20, 56], 4), rule);
    let middle = changes("light", [80.0, 120.0, 160.0, 200.0, 240.0], |scene, light| scene.light = light);
    shares("Light in the middle, by the liquid:", &liquids, &middle, &some([8, 20, 56], 4), rule);
    let empty = changes("empty", [0.85, 0.9, 0.93, 0.95, 0.97, 1.0], |scene, empty| scene.empty = empty);
    shares("The empty column, by the liquid:", &liquids, &empty, &some([8, 20, 56], 4), rule);
    println!("\nA column taken for narrower or wider than it is:\n");
    println!("| taken for | 0.7 | 0.8 | 0.9 | 0.95 | 1.1 | 1.25 | 1.5 | 2 |\n|---|---|---|---|---|---|---|---|---|");
    for (head, change) in &widths {
        print!("| {head} |");
        for part in [0.7, 0.8, 0.9, 0.95, 1.1, 1.25, 1.5, 2.0] {
            let made: Vec<Scene> = some([8, 8, 8], 3).into_iter().map(change).collect();
            let taken = |scene: &Scene| ReadingConfig::for_column((scene.column as f64 * part).round() as usize);
            let good = made.iter().filter(|scene| measure(scene, &taken(scene)).good()).count();
            print!(" {} |", 100 * good / made.len());
        }
        println!();
    }
}

fn short() {
    let scenes = corners([8, 14, 33, 64], 400, 1);
    for (scene, taken) in &scenes {
        let score = measure(scene, &ReadingConfig::for_column(*taken));
        if !score.good() {
            println!("settings: {scene:?} is read badly: {score:?}");
            exit(1);
        }
    }
    println!("settings: {} pictures of columns are read as docs/SETTINGS.md says", scenes.len());
}

fn main() {
    match std::env::args().nth(1).as_deref() {
        None => tables(),
        Some("short") => short(),
        Some(_) => {
            eprintln!("usage: settings [short]");
            exit(2);
        }
    }
}
