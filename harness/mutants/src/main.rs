//! The list of single-place changes of the published files. A change is
//!
//! ```text
//! FILE:LINE
//! - what stands there
//! + what shall stand there
//! unseen: the reason, where no answer can show the change
//! ```
//!
//! mutants LIST: prints the number of changes.
//! mutants LIST NUMBER: prints the place of a change, what it does, and the reason if it has one, in a line each.
//! mutants LIST NUMBER FOLDER: makes the change in the published files below FOLDER.

struct Change {
    file: String,
    line: usize,
    old: String,
    new: String,
    unseen: String,
}

fn read(list: &str) -> Vec<Change> {
    let mut changes: Vec<Change> = vec![];
    for line in list
        .lines()
        .filter(|l| !l.is_empty() && !l.starts_with('#'))
    {
        let (word, rest) = line.split_once(' ').unwrap_or((line, ""));
        match (word, changes.last_mut()) {
            ("-", Some(c)) => c.old = rest.to_string(),
            ("+", Some(c)) => c.new = rest.to_string(),
            ("unseen:", Some(c)) => c.unseen = rest.to_string(),
            _ => {
                let (file, number) = line.split_once(':').expect("FILE:LINE");
                changes.push(Change {
                    file: file.to_string(),
                    line: number.parse().expect("a line"),
                    old: String::new(),
                    new: String::new(),
                    unseen: String::new(),
                });
            }
        }
    }
    changes
}

/// The text with the change made. What it replaces must stand once in its line.
fn changed(text: &str, change: &Change) -> String {
    let mut lines: Vec<String> = text.split('\n').map(|l| l.to_string()).collect();
    let line = &mut lines[change.line - 1];
    let found = line.matches(&change.old).count();
    assert_eq!(found, 1, "{}:{} {}", change.file, change.line, change.old);
    *line = line.replace(&change.old, &change.new);
    lines.join("\n")
}

fn main() {
    let args: Vec<String> = std::env::args().skip(1).collect();
    let list = std::fs::read_to_string(&args[0]).expect("the list");
    let changes = read(&list);
    let Some(number) = args.get(1) else {
        println!("{}", changes.len());
        return;
    };
    let change = &changes[number.parse::<usize>().expect("a number") - 1];
    match args.get(2) {
        None => {
            println!("{}:{}", change.file, change.line);
            println!("`{}` to `{}`", change.old, change.new);
            println!("{}", change.unseen);
        }
        Some(folder) => {
            let path = format!("{folder}/{}", change.file);
            let text = std::fs::read_to_string(&path).expect("a published file");
            std::fs::write(path, changed(&text, change)).expect("a place to write");
        }
    }
}
