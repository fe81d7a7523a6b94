//! The header: its own example is compiled against the archive, as C and as C++, and run.

use std::fs;
use std::path::{Path, PathBuf};
use std::process::{Command, Output};

fn root() -> PathBuf {
    Path::new(env!("CARGO_MANIFEST_DIR")).join("..")
}

/// The program in the header's first comment.
fn example() -> String {
    let header = fs::read_to_string(root().join("include/pemzhulaq.h")).unwrap();
    let lines = header.lines().skip_while(|line| !line.contains(" *   #include"));
    let program = lines.take_while(|line| *line == " *" || line.starts_with(" *   "));
    program.map(|line| line.trim_start_matches(" *").to_string() + "\n").collect()
}

fn folder(name: &str) -> PathBuf {
    let folder = Path::new(env!("CARGO_TARGET_TMPDIR")).join(name);
    fs::create_dir_all(&folder).unwrap();
    folder
}

/// A compiler, a standard of its language, and the name of a source of that language.
type Dialect = (&'static str, &'static str, &'static str);

const DIALECTS: [Dialect; 5] = [
    ("cc", "c99", "example.c"),
    ("cc", "c11", "example.c"),
    ("cc", "gnu17", "example.c"),
    ("g++", "c++11", "example.cpp"),
    ("g++", "c++17", "example.cpp"),
];

fn ran(command: &mut Command) -> Output {
    let output = command.output().unwrap();
    let errors = String::from_utf8_lossy(&output.stderr);
    assert!(output.status.success(), "{command:?}: {errors}");
    output
}

/// Compiles a program against the archive, as C and as C++, and looks at what it prints.
fn runs(name: &str, program: &str, expected: &str) {
    for (compiler, standard, file) in DIALECTS {
        let folder = folder(&format!("{name}_{standard}"));
        let (source, binary) = (folder.join(file), folder.join("example"));
        fs::write(&source, program).unwrap();
        let mut command = Command::new(compiler);
        command.arg(format!("-std={standard}"));
        command.args(["-Wall", "-Wextra", "-Wpedantic", "-Werror", "-I"]);
        command.arg(root().join("include")).arg(source);
        ran(command.arg(env!("PEMZHULAQ_ARCHIVE")).arg("-o").arg(&binary));
        let printed = String::from_utf8(ran(&mut Command::new(binary)).stdout).unwrap();
        assert_eq!(printed, expected, "{compiler} -std={standard}");
    }
}

#[test]
fn example_of_the_header() {
    runs("header", &example(), "kind 16, precision 22, scale 2\n");
}

#[test]
fn every_call_and_the_refusals() {
    let program = r#"
        #include <pemzhulaq.h>
        #include <stdio.h>

        static uint8_t sheet[48], out[48], work[96];

        static void ask(uint64_t mask, size_t out_len) {
            size_t list = pemzhulaq_type_union_resolution(sheet, 48, mask, out, out_len, work, 96);
            printf("%zu %d ", list, list < PEMZHULAQ_LEAST_TYPE ? 0 : out[16]);
            size_t both = pemzhulaq_type_union_coercion(sheet, 48, mask, out, out_len, work, 96);
            printf("%zu %d ", both, both < PEMZHULAQ_LEAST_TYPE ? 0 : out[16]);
            size_t cmp = pemzhulaq_comparison_coercion(sheet, 48, mask, out, out_len, work, 96);
            printf("%zu %d\n", cmp, cmp < PEMZHULAQ_LEAST_TYPE ? 0 : out[16]);
        }

        int main(void) {
            sheet[0] = 3;
            sheet[16] = 25;
            sheet[26] = 2;
            sheet[32] = 5;
            ask(PEMZHULAQ_MASK_ALL, 48);
            ask(1, 48);
            ask(PEMZHULAQ_MASK_ALL, 47);
            sheet[32] = 2;
            ask(PEMZHULAQ_MASK_ALL, 48);
            printf("%d%d%d%d%d%d%d%d%d\n", PEMZHULAQ_NONE, PEMZHULAQ_TORN, PEMZHULAQ_KIND,
                   PEMZHULAQ_CHAIN, PEMZHULAQ_FIGURE, PEMZHULAQ_LABEL, PEMZHULAQ_MASK,
                   PEMZHULAQ_PAIR, PEMZHULAQ_SPACE);
            return 0;
        }
    "#;
    let expected = "32 5 32 25 32 5\n6 0 6 0 6 0\n8 0 8 0 8 0\n0 0 0 0 0 0\n012345678\n";
    runs("calls", program, expected);
}

#[test]
fn the_limits_are_the_crates() {
    let header = fs::read_to_string(root().join("include/pemzhulaq.h")).unwrap();
    let number = |name: &str| {
        let line =
            header.lines().find(|line| line.starts_with(&format!("#define {name} "))).unwrap();
        line.split(' ').next_back().unwrap().to_string()
    };
    use pemzhulaq::{sheet, Mask};
    let mask = format!("UINT64_C(0x{:X})", Mask::ALL.bits());
    assert_eq!(number("PEMZHULAQ_MASK_ALL"), mask);
    assert_eq!(number("PEMZHULAQ_RECORD_BYTES"), sheet::RECORD.to_string());
    assert_eq!(number("PEMZHULAQ_MAX_RECORDS"), sheet::MAX_RECORDS.to_string());
    assert_eq!(number("PEMZHULAQ_MAX_LABEL_BYTES"), sheet::MAX_LABELS.to_string());
    assert_eq!(number("PEMZHULAQ_MAX_SHEET_BYTES"), sheet::MAX_SHEET.to_string());
}
