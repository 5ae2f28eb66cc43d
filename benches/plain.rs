//! A plain program to compare times with: it does what `justrun` does with one file of plain recipes, by the collections
//! of the standard library, and proves nothing. It knows no imports, modules, functions or settings.
//!
//!     mkdir -p out && rustc -O -o out/plain benches/plain.rs
//!     python3 benches/justrun.py out/plain "chain of" "two dependencies"
use std::collections::{HashMap, HashSet};
use std::io::{self, Read, Write};
use std::process::ExitCode;

/// A recipe: its name, its parameters, and what runs before and after it.
struct Recipe<'src> {
    name: &'src str,
    parameters: Vec<&'src str>,
    dependencies: Vec<&'src str>,
    priors: usize,
}

/// The text of the root file in a bundle.
fn file_of<'src>(bundle: &'src str, root: &str) -> Option<&'src str> {
    let mut found = None;
    for file in bundle.strip_prefix("--- ")?.split("\n--- ") {
        let (path, text) = file.split_once('\n').unwrap_or((file, ""));
        if path == root {
            found = Some(text);
        }
    }
    found
}

fn read_recipe(line: &str) -> Option<Recipe<'_>> {
    let (heading, rest) = line.split_once(':')?;
    let mut parts = heading.split_whitespace();
    let name = parts.next()?;
    let parameters: Vec<&str> = parts.collect();
    let (before, after) = rest.split_once("&&").unwrap_or((rest, ""));
    let mut dependencies: Vec<&str> = before.split_whitespace().collect();
    let priors = dependencies.len();
    dependencies.extend(after.split_whitespace());
    Some(Recipe { name, parameters, dependencies, priors })
}

fn read(text: &str) -> Result<Vec<Recipe<'_>>, String> {
    let mut recipes = Vec::new();
    for (number, line) in text.lines().enumerate() {
        if line.is_empty() || line.starts_with('#') {
            continue;
        }
        recipes.push(read_recipe(line).ok_or(format!("line {}: syntax", number + 1))?);
    }
    Ok(recipes)
}

/// The places of the dependencies of each recipe.
fn resolve<'src>(recipes: &[Recipe<'src>]) -> Result<(HashMap<&'src str, usize>, Vec<Vec<usize>>), String> {
    let mut places = HashMap::with_capacity(recipes.len());
    for (place, recipe) in recipes.iter().enumerate() {
        let names: HashSet<&str> = recipe.parameters.iter().copied().collect();
        if names.len() < recipe.parameters.len() {
            return Err(format!("{}: a parameter twice", recipe.name));
        }
        if places.insert(recipe.name, place).is_some() {
            return Err(format!("{}: defined twice", recipe.name));
        }
    }
    let mut rows = Vec::with_capacity(recipes.len());
    for recipe in recipes {
        let mut row = Vec::with_capacity(recipe.dependencies.len());
        for name in &recipe.dependencies {
            let place = *places.get(name).ok_or(format!("{}: unknown {name}", recipe.name))?;
            if !recipes[place].parameters.is_empty() {
                return Err(format!("{}: {name} lacks arguments", recipe.name));
            }
            row.push(place);
        }
        rows.push(row);
    }
    Ok((places, rows))
}

/// Refuses a circle.
fn check_circles(rows: &[Vec<usize>]) -> Result<(), String> {
    let mut state = vec![0u8; rows.len()];
    for start in 0..rows.len() {
        let mut stack = vec![(start, 0)];
        while let Some((place, next)) = stack.pop() {
            if next == 0 {
                if state[place] != 0 {
                    continue;
                }
                state[place] = 1;
            }
            match rows[place].get(next) {
                None => state[place] = 2,
                Some(&below) => {
                    stack.push((place, next + 1));
                    match state[below] {
                        0 => stack.push((below, 0)),
                        1 => return Err("circle".to_string()),
                        _ => {}
                    }
                }
            }
        }
    }
    Ok(())
}

/// A recipe that is to run under a table: the next of its dependencies, and whether it began.
struct Frame<'words> {
    place: usize,
    arguments: Vec<&'words str>,
    next: usize,
    table: usize,
    inner: Option<usize>,
}

fn run<'words>(
    recipes: &[Recipe],
    rows: &[Vec<usize>],
    tops: Vec<(usize, Vec<&'words str>)>,
    out: &mut impl Write,
) -> io::Result<()> {
    let mut tables: Vec<HashSet<(usize, Vec<&str>)>> = vec![HashSet::new()];
    for (place, arguments) in tops {
        let mut stack = vec![Frame { place, arguments, next: 0, table: 0, inner: None }];
        while let Some(mut frame) = stack.pop() {
            let recipe = &recipes[frame.place];
            if frame.next == 0 && tables[frame.table].contains(&(frame.place, frame.arguments.clone())) {
                continue;
            }
            if frame.next == recipe.priors && frame.inner.is_none() {
                write!(out, "{}", recipe.name)?;
                for argument in &frame.arguments {
                    write!(out, " [{argument}]")?;
                }
                writeln!(out)?;
                tables[frame.table].insert((frame.place, frame.arguments.clone()));
                if recipe.priors < recipe.dependencies.len() {
                    tables.push(HashSet::new());
                    frame.inner = Some(tables.len() - 1);
                }
            }
            if let Some(&below) = rows[frame.place].get(frame.next) {
                let table = frame.inner.unwrap_or(frame.table);
                frame.next += 1;
                stack.push(frame);
                stack.push(Frame { place: below, arguments: Vec::new(), next: 0, table, inner: None });
            }
        }
    }
    out.flush()
}

/// The recipes that words name, each with its arguments.
fn split<'words>(
    recipes: &[Recipe],
    places: &HashMap<&str, usize>,
    words: &'words [String],
) -> Result<Vec<(usize, Vec<&'words str>)>, String> {
    let mut tops = Vec::new();
    let mut at = 0;
    while let Some(word) = words.get(at) {
        let place = *places.get(word.as_str()).ok_or(format!("unknown {word}"))?;
        let end = at + 1 + recipes[place].parameters.len();
        let arguments = words.get(at + 1..end).ok_or(format!("{word}: too few words"))?;
        tops.push((place, arguments.iter().map(String::as_str).collect()));
        at = end;
    }
    Ok(tops)
}

fn program() -> Result<(), String> {
    let words: Vec<String> = std::env::args().skip(1).collect();
    let (root, words) = words.split_first().ok_or("usage: plain ROOT WORD..")?;
    let mut bundle = String::new();
    io::stdin().read_to_string(&mut bundle).map_err(|error| error.to_string())?;
    let text = file_of(&bundle, root).ok_or("no such root")?;
    let recipes = read(text)?;
    let (places, rows) = resolve(&recipes)?;
    check_circles(&rows)?;
    let tops = split(&recipes, &places, words)?;
    let mut out = io::BufWriter::new(io::stdout().lock());
    run(&recipes, &rows, tops, &mut out).map_err(|error| error.to_string())
}

fn main() -> ExitCode {
    match program() {
        Ok(()) => ExitCode::SUCCESS,
        Err(error) => {
            eprintln!("plain: {error}");
            ExitCode::FAILURE
        }
    }
}
