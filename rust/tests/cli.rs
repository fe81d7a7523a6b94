//! Runs of the command-line program.

use pemzhulaq::{sheet, DataType};
use std::fs;
use std::io::Write;
use std::path::{Path, PathBuf};
use std::process::{Command, Output, Stdio};

/// Status, standard output and standard error.
type Run = (i32, String, String);

fn program(args: &[&str]) -> Command {
    let mut command = Command::new(env!("CARGO_BIN_EXE_pemzhulaq"));
    command.args(args);
    command
}

fn output_with(args: &[&str], input: &[u8]) -> Output {
    let mut command = program(args);
    command.stdin(Stdio::piped()).stdout(Stdio::piped()).stderr(Stdio::piped());
    let mut child = command.spawn().unwrap();
    // A program that fails early does not read its input.
    let _ = child.stdin.take().unwrap().write_all(input);
    child.wait_with_output().unwrap()
}

fn as_run(output: Output) -> Run {
    let text = |bytes: Vec<u8>| String::from_utf8(bytes).unwrap();
    (output.status.code().unwrap(), text(output.stdout), text(output.stderr))
}

fn run_with(args: &[&str], input: &[u8]) -> Run {
    as_run(output_with(args, input))
}

fn run(args: &[&str]) -> Run {
    run_with(args, b"")
}

fn printed(args: &[&str]) -> String {
    let (status, stdout, stderr) = run(args);
    assert_eq!((status, stderr.as_str()), (0, ""), "{args:?}");
    stdout
}

/// A run that fails with this status and an error that contains this text, and prints nothing.
fn fails(args: &[&str], status: i32, error: &str) {
    let (code, stdout, stderr) = run(args);
    assert_eq!((code, stdout.as_str()), (status, ""), "{args:?}: {stderr}");
    assert!(stderr.starts_with("pemzhulaq: ") && stderr.contains(error), "{args:?}: {stderr}");
}

/// An empty folder of a test's own.
fn folder(name: &str) -> PathBuf {
    let folder = Path::new(env!("CARGO_TARGET_TMPDIR")).join("cli").join(name);
    let _ = fs::remove_dir_all(&folder);
    fs::create_dir_all(&folder).unwrap();
    folder
}

fn files(folder: &Path) -> Vec<String> {
    let entries = fs::read_dir(folder).unwrap();
    let mut names: Vec<String> =
        entries.map(|entry| entry.unwrap().file_name().into_string().unwrap()).collect();
    names.sort();
    names
}

#[test]
fn three_answers() {
    assert_eq!(printed(&["Utf8", "Int32"]), "list     Int32\nunion    Utf8\ncompare  Int32\n");
    assert_eq!(
        printed(&["Int8", "Int16", "Boolean"]),
        "list     none\nunion    refused 7 (pair)\ncompare  refused 7 (pair)\n"
    );
    assert_eq!(
        printed(&[
            "Struct(cases: Int64, loose: Int64)",
            "Struct(loose: Int8, cases: nullable Int8)"
        ]),
        "list     Struct(loose: Int64, cases: nullable Int64)\n\
         union    Struct(cases: nullable Int64, loose: Int64)\n\
         compare  Struct(cases: nullable Int64, loose: Int64)\n"
    );
}

#[test]
fn one_question_and_a_mask() {
    assert_eq!(printed(&["--question", "union", "Utf8", "Int32"]), "union    Utf8\n");
    assert_eq!(
        printed(&["Null", "Int64", "--question=compare", "--mask", "0x40"]),
        "compare  Int64\n"
    );
    assert_eq!(printed(&["Null", "Int64", "--question=compare", "--mask=20"]), "compare  none\n");
    assert_eq!(printed(&["Int8", "--question=list", "--mask=1"]), "list     refused 6 (mask)\n");
}

#[test]
fn types_from_files() {
    let folder = folder("types");
    let path = folder.join("types.txt");
    fs::write(&path, "# our column, and the till's\nUInt32\n\nInt8\n").unwrap();
    let expected = "list     Int64\nunion    Int64\ncompare  Int64\n";
    assert_eq!(printed(&["--file", path.to_str().unwrap()]), expected);
    assert_eq!(run_with(&["--file", "-"], b"UInt32\nInt8").1, expected);
    assert_eq!(run_with(&["--file=-", "--question=list"], b"").1, "list     none\n");
    let (status, stdout, stderr) = run_with(&["--file", "-"], b"Int8\nList(Foo)\n");
    assert_eq!((status, stdout.as_str()), (2, ""));
    assert_eq!(
        stderr,
        "pemzhulaq: standard input, line 2, column 6: unknown type Foo\n  List(Foo)\n       ^\n"
    );
    for (text, place) in [
        (&b"Int8\nStruct(\"gr\xC3\xB6\xDF"[..], "line 2, column 12"),
        (b"\xEF\xBB\xBF\xFF\n", "line 1, column 1"),
    ] {
        let (status, stdout, stderr) = run_with(&["--file", "-"], text);
        assert_eq!((status, stdout.as_str()), (2, ""));
        assert!(stderr.contains(&format!("standard input, {place}: not UTF-8")), "{stderr}");
    }
    let marked = b"\xEF\xBB\xBF# from a till\r\nUInt32\r\n  # and ours\r\nInt8\r\n";
    assert_eq!(run_with(&["--file", "-"], marked).1, expected);
    let (_, _, stderr) = run_with(&["--file", "-"], b"\xEF\xBB\xBFList(Foo)\n");
    assert!(
        stderr.contains("line 1, column 6: unknown type Foo\n  List(Foo)\n       ^"),
        "{stderr}"
    );
}

#[test]
fn raw_sheets_in_and_out() {
    let folder = folder("raw");
    let (sheet, answer) = (folder.join("sheet"), folder.join("answer"));
    let (sheet, answer) = (sheet.to_str().unwrap(), answer.to_str().unwrap());
    let all = "list     Int64\nunion    Int64\ncompare  Int64\n";
    assert_eq!(printed(&["UInt32", "Int8", "--encode", sheet]), all);
    let types = ["UInt32".parse().unwrap(), "Int8".parse().unwrap()];
    assert_eq!(fs::read(sheet).unwrap(), sheet::encode(&types).unwrap());
    assert_eq!(printed(&["--sheet", sheet]), all);
    assert_eq!(run_with(&["--sheet", "-"], &fs::read(sheet).unwrap()).1, all);
    let args = ["--sheet", sheet, "--question", "list", "--out", answer];
    assert_eq!(printed(&args), "list     Int64\n");
    assert_eq!(fs::read(answer).unwrap(), sheet::encode(&["Int64".parse().unwrap()]).unwrap());
    assert_eq!(
        printed(&["--question=list", "--sheet", answer, "--out", answer]),
        "list     Int64\n"
    );
    assert_eq!(files(&folder), ["answer", "sheet"]);
}

/// A sheet on standard output stands there alone, so that it can go into a file or a pipe.
#[test]
fn sheets_on_standard_output() {
    let bytes = |args: &[&str]| {
        let output = output_with(args, b"");
        assert_eq!((output.status.code(), output.stderr.len()), (Some(0), 0), "{args:?}");
        output.stdout
    };
    let encoded = |texts: &[&str]| {
        let types: Vec<DataType> = texts.iter().map(|text| text.parse().unwrap()).collect();
        sheet::encode(&types).unwrap()
    };
    let pair = encoded(&["UInt32", "Int8"]);
    assert_eq!(bytes(&["UInt32", "Int8", "--encode", "-"]), pair);
    assert_eq!(bytes(&["UInt32", "Int8", "--encode=-", "--question=compare"]), pair);
    assert_eq!(bytes(&["UInt32", "Int8", "--question=compare", "--out", "-"]), encoded(&["Int64"]));
    let piped = run_with(&["--sheet", "-"], &pair);
    assert_eq!(piped.1, "list     Int64\nunion    Int64\ncompare  Int64\n");
    // The other sheet may go into a file at once.
    let folder = folder("standard");
    let path = folder.join("sheet");
    let path = path.to_str().unwrap();
    assert_eq!(bytes(&["UInt32", "Int8", "--question=list", "--encode", "-", "--out", path]), pair);
    assert_eq!(fs::read(path).unwrap(), encoded(&["Int64"]));
    assert_eq!(
        bytes(&["UInt32", "Int8", "--question=list", "--encode", path, "--out", "-"]),
        encoded(&["Int64"])
    );
    assert_eq!(fs::read(path).unwrap(), pair);
    fails(&["--out=-", "--encode=-", "--question=list", "Int8"], 2, "the same file");
    fails(&["--out=-", "--question=list", "--hex", "Int8"], 2, "takes the sheet alone");
    fails(&["--encode=-", "--hex", "Int8"], 2, "takes the sheet alone");
    fails(&["--out=-", "--question=union", "Int8", "Boolean"], 1, "union none: no sheet to write");
    // Nothing was written to a file of that name, but one can be.
    assert!(!Path::new("-").exists());
    let status =
        program(&["Int8", "--encode", "./-"]).current_dir(&folder).stdout(Stdio::null()).status();
    assert!(status.unwrap().success());
    assert_eq!(files(&folder), ["-", "sheet"]);
}

/// What the counter and the till of the readme have, and what is said of it.
const COUNTER: &str = "Struct(cases: Int64, loose: Int64)";
const TILL: &str = "Struct(pieces: Int64, cases: Int64)";
const WARNING: &str = "pemzhulaq: warning: union and compare match Structs by place, since their \
                       names differ (type 1 <- type 2):\n  cases <- pieces\n  loose <- cases\n";

#[test]
fn a_match_by_place_is_warned_of() {
    let (status, stdout, stderr) = run(&[COUNTER, TILL]);
    assert_eq!(status, 0);
    assert_eq!(stdout, format!("list     none\nunion    {COUNTER}\ncompare  {COUNTER}\n"));
    assert_eq!(stderr, WARNING);
    let folder = folder("by_place");
    let path = folder.join("sheet");
    let path = path.to_str().unwrap();
    assert_eq!(run(&[COUNTER, TILL, "--encode", path]).2, WARNING);
    assert_eq!(run(&["--sheet", path]).2, WARNING);
    assert_eq!(run(&["--sheet", path, "--question", "union"]).2, {
        WARNING.replace("union and compare match", "union matches")
    });
    assert_eq!(run(&["--sheet", path, "--question=compare", "--out", path]).2, {
        WARNING.replace("union and compare match", "compare matches")
    });
}

#[test]
fn pairs_have_their_places() {
    let left = "Struct(shelf: List(Struct(cases: Int64, l: Int64)), \"no.\": Int8)";
    let right = "Struct(\"no.\": Int8, shelf: List(row: Struct(pieces: Int64, cases: Int64)))";
    let expected =
        "  shelf.item.cases <- shelf.row.pieces\n  shelf.item.l     <- shelf.row.cases\n";
    assert_eq!(run(&[left, right]).2.split_once('\n').unwrap().1, expected);
}

#[test]
fn no_warning_where_none_is_due() {
    assert_eq!(printed(&["--quiet", COUNTER, TILL]).lines().count(), 3);
    assert_eq!(printed(&["-q", COUNTER, TILL]).lines().count(), 3);
    printed(&["--question=list", COUNTER, TILL]);
    printed(&[COUNTER, "Struct(loose: UInt8, cases: nullable Int8)"]);
    printed(&["Struct(a: Int8)", "Struct(b: Boolean)"]);
    printed(&[COUNTER, TILL, TILL]);
    let output = output_with(&["--encode", "-", COUNTER, TILL], b"");
    assert_eq!((output.status.code(), output.stderr.len()), (Some(0), 0));
}

#[test]
fn hexadecimal() {
    let int64 = "0200000000000000000000000000000006000000000000000000000000000000";
    let expected = format!("sheet    {int64}\nlist     Int64\n         {int64}\n");
    assert_eq!(printed(&["--hex", "--question=list", "Int64"]), expected);
}

#[test]
fn damaged_sheets() {
    let (status, stdout, _) = run_with(&["--sheet", "-"], b"");
    assert_eq!(status, 0);
    assert_eq!(
        stdout,
        "list     refused 1 (torn)\nunion    refused 1 (torn)\ncompare  refused 1 (torn)\n"
    );
    let (_, stdout, _) = run_with(&["--sheet", "-", "--question=list"], &[0; 100_000]);
    assert_eq!(stdout, "list     refused 1 (torn)\n");
    let mut bytes = sheet::encode(&["Int64".parse().unwrap()]).unwrap();
    bytes[24] = 1;
    let (_, stdout, _) = run_with(&["--sheet", "-", "--question=list"], &bytes);
    assert_eq!(stdout, "list     refused 3 (chain)\n");
}

#[test]
fn wrong_arguments() {
    fails(&[], 2, "no types were given");
    fails(&["--frobnicate"], 2, "unknown option --frobnicate");
    fails(&["--file"], 2, "--file needs a value");
    fails(&["--file", "a", "Int8"], 2, "not from two");
    fails(&["--file", "a", "--sheet", "b"], 2, "not from two");
    fails(&["--mask", "1", "--mask", "2", "Int8"], 2, "--mask was given twice");
    for mask in ["g", "+1", "0x", "11111111111111111"] {
        fails(&["--mask", mask, "Int8"], 2, "up to 16 hexadecimal digits");
    }
    fails(&["--question", "sum", "Int8"], 2, "list, union or compare");
    fails(&["--out", "x", "Int8"], 2, "--out needs --question");
    fails(&["--out=x", "--encode=x", "--question=list", "Int8"], 2, "the same file");
    fails(&["--file", "/nowhere/types"], 2, "cannot read /nowhere/types: No such file");
    fails(&["Int8", "List(Int8"], 2, "type 2, line 1, column 10: expected ')'");
    fails(&["--", "--hex"], 2, "type 1, line 1, column 1");
}

#[cfg(unix)]
#[test]
fn arguments_that_are_no_text() {
    use std::os::unix::ffi::OsStrExt;
    let mut command = Command::new(env!("CARGO_BIN_EXE_pemzhulaq"));
    let output = command.arg(std::ffi::OsStr::from_bytes(b"Int\xFF")).output().unwrap();
    assert_eq!((output.status.code(), output.stdout.len()), (Some(2), 0));
    assert!(String::from_utf8(output.stderr).unwrap().contains("is not UTF-8"));
}

#[test]
fn an_error_writes_nothing() {
    let folder = folder("errors");
    let path = |name: &str| folder.join(name).to_str().unwrap().to_string();
    let (sheet, answer) = (path("sheet"), path("answer"));
    let to = ["--question=union", "--encode", &sheet, "--out", &answer];
    let with = |types: &[&'static str]| [types, &to[..]].concat();
    fails(&with(&["Boolean", "Date32"]), 1, "union none: no sheet to write");
    fails(&with(&["Int8"]), 1, "union refused 7 (pair): no sheet to write");
    fails(&with(&["Int8", "Foo"]), 2, "unknown type Foo");
    fails(&with(&["Int8", "Int8", "--mask=x"]), 2, "--mask");
    assert!(files(&folder).is_empty());
    fs::create_dir(&answer).unwrap();
    fails(&with(&["Int8", "Int8"]), 2, "answer: not a plain file (- is standard output)");
    let missing = path("no/such/folder");
    let error = format!("cannot write {missing}: No such file");
    fails(&["Int8", "--encode", &missing], 2, &error);
    assert_eq!(files(&folder), ["answer"]);
    assert!(files(&folder.join("answer")).is_empty());
}

/// An error of one line, with nothing printed.
fn fails_in_one_line(output: Output, error: &str) {
    let (status, stdout, stderr) = as_run(output);
    assert_eq!((status, stdout.as_str()), (2, ""), "{stderr}");
    assert_eq!(stderr.lines().count(), 1, "{stderr}");
    assert!(stderr.starts_with(&format!("pemzhulaq: {error}")), "{stderr}");
}

#[cfg(unix)]
#[test]
fn a_read_error_is_said() {
    let folder = folder("unreadable");
    let path = folder.to_str().unwrap();
    for option in ["--file", "--sheet"] {
        let error = format!("cannot read {path}: Is a directory");
        fails_in_one_line(output_with(&[option, path], b""), &error);
        let mut command = program(&[option, "-"]);
        let output = command.stdin(fs::File::open(path).unwrap()).output().unwrap();
        fails_in_one_line(output, "cannot read standard input: Is a directory");
    }
}

fn full() -> fs::File {
    fs::OpenOptions::new().write(true).open("/dev/full").unwrap()
}

#[cfg(target_os = "linux")]
#[test]
fn a_write_error_is_said_and_leaves_no_file() {
    let folder = folder("full");
    let sheet = folder.join("sheet");
    let sheet = sheet.to_str().unwrap();
    let error = "cannot write standard output: No space left on device";
    for args in [
        &["Int8", "--encode", sheet][..],
        &["Int8", "--encode", "-"],
        &["Int8", "--question=list", "--out", "-", "--encode", sheet],
        &["--help"],
        &["--version"],
    ] {
        fails_in_one_line(program(args).stdout(full()).output().unwrap(), error);
    }
    assert!(files(&folder).is_empty());
    // Where the error cannot be written either, the status still tells it.
    let status = program(&["Int8"]).stdout(full()).stderr(full()).status().unwrap();
    assert_eq!(status.code(), Some(2));
    let status = program(&[COUNTER, TILL]).stdout(Stdio::null()).stderr(full()).status().unwrap();
    assert_eq!(status.code(), Some(0));
}

/// A pipe whose reader has gone.
#[cfg(unix)]
fn closed_pipe() -> Stdio {
    let mut reader = Command::new("true").stdin(Stdio::piped()).spawn().unwrap();
    let pipe = reader.stdin.take().unwrap();
    reader.wait().unwrap();
    pipe.into()
}

#[cfg(unix)]
#[test]
fn a_closed_output_ends_quietly() {
    let folder = folder("closed");
    let sheet = folder.join("sheet");
    for args in
        [&["Int8"][..], &["Int8", "--encode", "-"], &["Int8", "--hex"], &["--help"], &["--version"]]
    {
        let output = program(args).stdout(closed_pipe()).output().unwrap();
        assert_eq!(as_run(output), (0, String::new(), String::new()), "{args:?}");
    }
    // What goes into files is written all the same, and errors have their status.
    let args = ["Int8", "--encode", sheet.to_str().unwrap()];
    let output = program(&args).stdout(closed_pipe()).output().unwrap();
    assert_eq!((output.status.code(), files(&folder).len()), (Some(0), 1));
    let status = program(&["Foo"]).stdout(closed_pipe()).stderr(closed_pipe()).status().unwrap();
    assert_eq!(status.code(), Some(2));
    let status = program(&[COUNTER, TILL]).stdout(closed_pipe()).stderr(closed_pipe()).status();
    assert_eq!(status.unwrap().code(), Some(0));
}

/// More output than a pipe holds, and a reader that takes one line, or less, of it.
#[cfg(unix)]
#[test]
fn a_reader_that_stops_early() {
    let path = folder("early").join("types");
    let fields: Vec<String> = (0..1000).map(|number| format!("n{number:015}: Int8")).collect();
    fs::write(&path, format!("Struct({})", fields.join(", "))).unwrap();
    for taken in ["head -1 >/dev/null", "head -c 1 >/dev/null", "true"] {
        let program = env!("CARGO_BIN_EXE_pemzhulaq");
        let script =
            format!("{{ {program} --hex --file {}; echo $? >&2; }} | {taken}", path.display());
        let output = Command::new("sh").args(["-c", &script]).output().unwrap();
        assert_eq!(as_run(output), (0, String::new(), "0\n".to_string()), "{taken}");
    }
}

#[test]
fn too_many_types() {
    let text = "Int8\n".repeat(1024);
    let (status, stdout, stderr) = run_with(&["--file", "-"], text.as_bytes());
    assert_eq!((status, stdout.as_str()), (2, ""));
    assert_eq!(stderr, "pemzhulaq: no sheet can carry this: more than 1023 types, parts counted\n");
}

#[test]
fn help_and_version() {
    let help = printed(&["--help"]);
    assert!(help.contains("Exit status:") && help.lines().all(|line| line.len() <= 90));
    for option in ["file", "sheet", "question", "mask", "hex", "encode", "out", "quiet", "version"]
    {
        assert!(help.contains(&format!("--{option}")), "{option}");
    }
    assert!(help.contains("A field is not nullable unless nullable stands before its type"));
    assert_eq!(printed(&["--version"]), "pemzhulaq 0.1.0\n");
}
