//! The programs that docs/LINKING.md prints are the files, and those in C compile without a warning and say what is expected.

#[path = "../examples/own_register.rs"]
#[allow(dead_code)]
mod own_register;

use feedcheck::Outcome;
use std::path::{Path, PathBuf};
use std::process::Command;
use std::sync::OnceLock;

/// A file of the repository.
fn path(name: &str) -> PathBuf {
    Path::new(env!("CARGO_MANIFEST_DIR")).join("../..").join(name)
}

fn text(name: &str) -> String {
    std::fs::read_to_string(path(name)).unwrap()
}

#[test]
fn page() {
    let page = text("docs/LINKING.md");
    for (language, files) in [
        ("c", ["include/own_register.c", "include/search.c"]),
        ("rust", ["rust/feedcheck/examples/own_register.rs", "rust/feedcheck/examples/search.rs"]),
    ] {
        for file in files {
            assert!(page.contains(&format!("```{language}\n{}```\n", text(file))), "{file}");
        }
    }
    // A function alone of each of these.
    for (language, file, head) in [
        ("c", "include/products.c", "/* How many products"),
        ("rust", "rust/feedcheck/tests/costliest.rs", "fn costliest_products("),
    ] {
        let text = text(file);
        let from_head = &text[text.find(head).unwrap()..];
        let function = &from_head[..from_head.find("\n}\n").unwrap()];
        assert!(page.contains(&format!("```{language}\n{function}\n}}\n```\n")), "{file}");
    }
}

/// The files of `examples` with this ending.
fn examples(ending: &str) -> Vec<PathBuf> {
    let entries = std::fs::read_dir(path("examples")).unwrap().map(|entry| entry.unwrap().path());
    let mut paths: Vec<PathBuf> = entries.filter(|path| path.extension().is_some_and(|found| found == ending)).collect();
    paths.sort();
    paths
}

/// Compiles a program of `include` with all libraries.
fn compile(name: &str) -> PathBuf {
    let program = Path::new(env!("CARGO_TARGET_TMPDIR")).join(name);
    let folder = std::env::var_os("FEEDCHECK_STATICLIB").map_or_else(|| path("target/staticlib"), PathBuf::from);
    let libraries = std::fs::read_dir(folder).unwrap().map(|entry| entry.unwrap().path());
    let libraries = libraries.filter(|path| path.extension().is_some_and(|found| found == "a"));
    let mut cc = Command::new("cc");
    cc.args(["-std=c99", "-Wall", "-Wextra", "-Werror", "-pedantic", "-O2", "-I"]).arg(path("include")).arg("-o").arg(&program);
    cc.arg(path("include").join(format!("{name}.c"))).args(libraries);
    assert!(cc.status().unwrap().success());
    program
}

fn own_register_in_c() -> &'static Path {
    static PROGRAM: OnceLock<PathBuf> = OnceLock::new();
    PROGRAM.get_or_init(|| compile("own_register"))
}

/// What a program prints to standard output, whether it prints anything to standard error, and its exit status. It runs in the
/// folder of the examples.
fn run(program: &Path, words: &[&str]) -> (String, bool, Option<i32>) {
    let output = Command::new(program).args(words).current_dir(path("examples")).output().unwrap();
    (String::from_utf8(output.stdout).unwrap(), !output.stderr.is_empty(), output.status.code())
}

fn prints(lines: &str, status: i32) -> (String, bool, Option<i32>) {
    (lines.into(), false, Some(status))
}

fn no_answer() -> (String, bool, Option<i32>) {
    (String::new(), true, Some(2))
}

/// Each job of the examples with each register, in C and in Rust.
#[test]
fn own_register() {
    let mut statuses = [0; 2];
    for own_path in examples("register") {
        let own = std::fs::read(&own_path).unwrap();
        if feedcheck::register(&own).is_err() {
            continue;
        }
        for job_path in examples("job") {
            let job = std::fs::read(&job_path).unwrap();
            let mut lines = String::new();
            if !job.starts_with(&own) {
                lines += &format!("{}: part 1 is not byte for byte {}\n", job_path.display(), own_path.display());
            }
            let outcome = own_register::check(&own, &job);
            match outcome {
                Ok(Outcome { bound, cost, gap }) => lines += &format!("bound {bound}, cost {cost}, gap {gap}\n"),
                Err(refusal) => lines += &format!("{}: {refusal}\n", job_path.display()),
            }
            let status = usize::from(outcome.is_err());
            let words = [own_path.to_str().unwrap(), job_path.to_str().unwrap()];
            assert_eq!(run(own_register_in_c(), &words), prints(&lines, status as i32));
            statuses[status] += 1;
        }
    }
    assert!(statuses.iter().all(|&count| count > 0));
}

/// The words are wrong, a file can't be read, or the farm's register is refused.
#[test]
fn own_register_no_answer() {
    for words in [
        &["example.register"][..],
        &["example.register", "example.job", "example.job"],
        &["example.register", "missing"],
        &["missing", "example.job"],
        &["example.register", "."],
        &["example.bad-more.register", "example.job"],
        &["example.job", "example.job"],
    ] {
        assert_eq!(run(own_register_in_c(), words), no_answer(), "{words:?}");
    }
}

#[test]
fn example() {
    let program = compile("example");
    let lines = "bound 0, cost 0, gap 0\n\
                 for the farm:\nT 0 4 480\nT 1 4 720\nT 2 7 480\nF 4 480\nF 4 720\nB 0 0 0\n\
                 for the supplier:\nC 0 1\nC 1 1\nC 2 0\nB 0 0 0\n";
    assert_eq!(run(&program, &["example.job"]), prints(lines, 0));
    let lines = "labs05.csdp.bad-t-up.job: refusal 9 in part 3 at byte 6605: the certificate does not carry its target\n";
    assert_eq!(run(&program, &["labs05.csdp.bad-t-up.job"]), prints(lines, 1));
    for words in [&[][..], &["missing"], &["."], &["example.job", "example.job"]] {
        assert_eq!(run(&program, words), no_answer(), "{words:?}");
    }
}

#[test]
fn search() {
    let program = compile("search");
    let lines = "tank 4 at minute 480\ntank 4 at minute 720\ncost 0, found in 9 visits\n";
    assert_eq!(run(&program, &["example.register"]), prints(lines, 0));
    let lines = "limit.register: refusal 14: the search takes more visits than its limit\n";
    assert_eq!(run(&program, &["limit.register"]), prints(lines, 1));
    let lines = "example.job: refusal 12 in part 1 at byte 48: bytes stand after the end\n";
    assert_eq!(run(&program, &["example.job"]), prints(lines, 1));
    for words in [&[][..], &["missing"], &["."]] {
        assert_eq!(run(&program, words), no_answer(), "{words:?}");
    }
}

/// The table of docs/PRODUCTS.md.
#[test]
fn products() {
    let page = text("docs/PRODUCTS.md");
    let lines = page.lines().skip_while(|line| !line.starts_with("| d |")).take_while(|line| line.starts_with('|'));
    let table: String = lines.map(|line| format!("{line}\n")).collect();
    assert_eq!(table.lines().count(), 2 + 30);
    assert_eq!(run(&compile("products"), &[]), prints(&table, 0));
}

#[test]
fn suppliers() {
    let program = compile("suppliers");
    let lines = "labs05.sdpa.bad-flip.job: refusal 8 in part 3 at byte 874: sets don't fit\n\
                 supplier 0: 1 accepted, 0 refused\nsupplier 3: 0 accepted, 1 refused\n";
    assert_eq!(run(&program, &["0", "labs05.csdp.job", "3", "labs05.sdpa.bad-flip.job"]), prints(lines, 1));
    assert_eq!(run(&program, &["15", "example.job"]), prints("supplier 15: 1 accepted, 0 refused\n", 0));
    let lines = "example.job: refusal 17: a supplier number is above 15\n";
    assert_eq!(run(&program, &["16", "example.job"]), prints(lines, 1));
    for words in [&[][..], &["0"], &["0", "missing"], &["256", "example.job"], &["-1", "example.job"], &["", "example.job"]] {
        assert_eq!(run(&program, words), no_answer(), "{words:?}");
    }
}
