//! The jobs in `jobs/`: each text assembles, its serial run prints the file
//! beside it, and its disassembly gives the same bytes.

use host::asm::assemble;
use host::dis::disassemble;
use host::job::Job;
use host::serial;
use std::fs;
use std::path::{Path, PathBuf};

fn directory() -> PathBuf {
    Path::new(env!("CARGO_MANIFEST_DIR")).join("../jobs")
}

fn read(name: &str) -> String {
    fs::read_to_string(directory().join(name)).unwrap_or_else(|e| panic!("{name}: {e}"))
}

fn bytes(name: &str) -> Vec<u8> {
    let text = read(&format!("{name}.txt"));
    assemble(&text).unwrap_or_else(|fault| panic!("{name}.txt: {fault}"))
}

/// The names of the files with that ending, without it, in order.
fn names(ending: &str) -> Vec<String> {
    let files = fs::read_dir(directory()).expect("jobs/ is there");
    let names = files.map(|file| file.expect("an entry").file_name());
    let mut names: Vec<String> = names
        .filter_map(|name| name.to_str()?.strip_suffix(ending).map(str::to_string))
        .collect();
    names.sort();
    names
}

#[test]
fn every_job_prints_what_is_expected() {
    let jobs = names(".txt");
    assert_eq!(jobs, names(".out"));
    assert!(jobs.len() >= 7);
    for name in jobs {
        let printed = serial::text(&bytes(&name));
        let expected = read(&format!("{name}.out"));
        assert!(printed == expected, "{name} prints\n{printed}");
    }
}

#[test]
fn every_job_is_disassembled() {
    for name in names(".txt") {
        let bytes = bytes(&name);
        let job = Job::read(&bytes).expect("accepted");
        assert_eq!(assemble(&disassemble(&job)), Ok(bytes), "{name}");
    }
}

#[test]
fn document_01_has_94_bytes() {
    let bytes = bytes("document-01");
    assert_eq!(bytes.len(), 94);
    assert_eq!(bytes[..10], [4, 0, 4, 0, 28, 0, 5, 0, 255, 0]);
    assert_eq!(bytes[58..70], [1, 0, 10, 0, 0, 0, 0, 0, 0, 0, 0, 0]);
}
