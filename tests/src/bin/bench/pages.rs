//! Times pages of goals beside as many single questions over the clauses of one formula, both as scripts of the program
//! `session`.

use crate::clock::Time;
use crate::scripts::{answers_to, time_of};
use crate::{at, column, TURNS};
use outside::naming::problem_of;
use outside::reader::read;
use std::process::exit;

const GOALS: usize = 64;

/// Prints one table in milliseconds, two lines for each set of formulas. The start of the program with the text stands by
/// itself, and is taken off the other times; the ratios are the median of the formulas and that of all together.
pub fn print_times(sets: &[(&str, Vec<Vec<u8>>)]) {
    let title = format!("milliseconds for {GOALS} goals");
    println!("{title:<42} {:>8} {:>8} {:^26} {:^26} {:^13}", "", "start", "single questions", "a page", "ratio");
    let figures = format!("{:>8} {:>8} {:>8}", "median", "95 %", "worst");
    println!("{:<42} {:>8} {:>8} {figures} {figures} {:>6} {:>6}", "", "formulas", "and text", "median", "all");
    for (name, formulas) in sets {
        let times = timed(formulas);
        print_line(&format!("{name}, elapsed"), &times, |time| time.elapsed);
        print_line(&format!("{name}, processor time"), &times, |time| time.processor);
    }
}

fn print_line(name: &str, times: &[[Time; 3]], figure: fn(Time) -> f64) {
    let side = |side: usize| times.iter().map(move |times| figure(times[side]));
    let start = Vec::from_iter(side(0));
    let [questions, page] =
        [1, 2].map(|place| Vec::from_iter(side(place).zip(&start).map(|(time, start)| time - start)));
    let ratios = Vec::from_iter(page.iter().zip(&questions).map(|(page, questions)| page / questions));
    let all = page.iter().sum::<f64>() / questions.iter().sum::<f64>();
    let (count, start, ratio) = (times.len(), at(50, &start), at(50, &ratios));
    let columns = [questions, page].map(|figures| column(&figures)).join(" ");
    println!("{name:<42} {count:>8} {start:>8.3} {columns} {ratio:>6.2} {all:>6.2}");
}

/// For each formula the best of some turns of its three scripts, in alternation.
fn timed(formulas: &[Vec<u8>]) -> Vec<[Time; 3]> {
    let scripts: Vec<[String; 3]> = formulas.iter().map(|formula| scripts_of(formula)).collect();
    scripts.iter().for_each(agree);
    let mut best = vec![[Time::LONGEST; 3]; scripts.len()];
    for _ in 0..TURNS {
        for (best, script) in best.iter_mut().flatten().zip(scripts.iter().flatten()) {
            *best = best.best(time_of(script));
        }
    }
    best
}

/// The text alone, with single questions for its atoms in turn, and with a page of the same goals.
fn scripts_of(formula: &[u8]) -> [String; 3] {
    let text = format!("text {}\n", formula.escape_ascii());
    let atoms = problem_of(&read(formula).expect("a formula")).atoms;
    let goals = (0..atoms).cycle().take(GOALS);
    let questions: String = goals.clone().map(|goal| format!("ask {goal}\n")).collect();
    let page: String = goals.map(|goal| format!(" {goal}")).collect();
    [text.clone(), format!("{text}{questions}"), format!("{text}page{page}\n")]
}

/// Each goal has one verdict on both sides, unless one refused it: a page may spare it the search.
fn agree([text, questions, page]: &[String; 3]) {
    let (asked, on_page) = (answers_to(questions), answers_to(page));
    let (asked, on_page) = (verdicts(&asked), verdicts(&on_page));
    let differ = |(one, other): (&&str, &&str)| one != other && ![*one, *other].contains(&"refused");
    if [asked.len(), on_page.len()] != [GOALS; 2] || asked.iter().zip(&on_page).any(differ) {
        eprintln!("verdicts differ: {text}");
        exit(1);
    }
}

fn verdicts(answers: &str) -> Vec<&str> {
    let verdict = |line| match Vec::from_iter(str::split(line, ' '))[..] {
        [word @ ("valid" | "refuted")] | [word @ "refused", _] | ["goal", _, word, ..] => Some(word),
        _ => None,
    };
    answers.lines().filter_map(verdict).collect()
}
