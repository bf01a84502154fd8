//! edit EDITS .. FROM TO: copies the folder FROM to TO with the edits made, file by file. An edit is `file:`, `old:` and
//! `new:`, a line each; the last two may be repeated for text of several lines. Each old text must stand in its file exactly
//! once, or nothing is made and the exit status is 1.
use std::{collections::BTreeMap, fs, path::Path, process::exit};

struct Edit {
    file: String,
    old: String,
    new: String,
}

fn main() {
    let args: Vec<String> = std::env::args().collect();
    let [_, edits @ .., from, to] = &args[..] else { fail("edit EDITS .. FROM TO") };
    let mut texts = BTreeMap::new();
    read_tree(Path::new(from), "", &mut texts);
    for path in edits {
        for edit in read_edits(path) {
            make(path, &edit, &mut texts);
        }
    }
    for (name, text) in texts {
        let path = Path::new(to).join(name);
        fs::create_dir_all(path.parent().unwrap()).unwrap();
        fs::write(path, text).unwrap();
    }
}

fn make(path: &str, edit: &Edit, texts: &mut BTreeMap<String, String>) {
    let Some(text) = texts.get_mut(&edit.file) else { fail(&format!("{path}: no file {}", edit.file)) };
    let found = text.matches(&edit.old).count();
    if found != 1 {
        fail(&format!("{path}: found {found} times in {}, not once:\n{}", edit.file, edit.old));
    }
    *text = text.replacen(&edit.old, &edit.new, 1);
}

fn fail(why: &str) -> ! {
    eprintln!("edit: {why}");
    exit(1)
}

fn read_edits(path: &str) -> Vec<Edit> {
    let mut edits: Vec<Edit> = Vec::new();
    let mut last = "";
    for line in fs::read_to_string(path).unwrap_or_else(|e| fail(&format!("{path}: {e}"))).lines() {
        if line.is_empty() || line.starts_with('#') {
            last = "";
            continue;
        }
        let (key, rest) = line.split_once(": ").unwrap_or_else(|| fail(&format!("{path}: {line}")));
        match (key, last) {
            ("file", _) => edits.push(Edit { file: rest.into(), old: String::new(), new: String::new() }),
            ("old", "file") => edits.last_mut().unwrap().old = rest.into(),
            ("old", "old") => add_line(&mut edits.last_mut().unwrap().old, rest),
            ("new", "old") => edits.last_mut().unwrap().new = rest.into(),
            ("new", "new") => add_line(&mut edits.last_mut().unwrap().new, rest),
            _ => fail(&format!("{path}: {line}")),
        }
        last = match key {
            "file" => "file",
            "old" => "old",
            _ => "new",
        };
    }
    edits
}

fn add_line(text: &mut String, line: &str) {
    text.push('\n');
    text.push_str(line);
}

fn read_tree(dir: &Path, prefix: &str, texts: &mut BTreeMap<String, String>) {
    for entry in fs::read_dir(dir).unwrap_or_else(|e| fail(&format!("{}: {e}", dir.display()))) {
        let entry = entry.unwrap();
        let name = format!("{prefix}{}", entry.file_name().to_str().unwrap());
        if entry.file_type().unwrap().is_dir() {
            read_tree(&entry.path(), &format!("{name}/"), texts);
        } else {
            texts.insert(name, fs::read_to_string(entry.path()).unwrap());
        }
    }
}
