//! The real datagrams in samples/captures, each file beside what is printed of it.

use crate::{assert_same, root, run};

fn printed_as_expected(name: &str) {
    let file = format!("samples/captures/{name}.hex");
    let run = run(&[&file], b"");
    let want = root().join(format!("samples/captures/{name}.txt"));
    assert_same(&run.out, &std::fs::read_to_string(want).expect("text"));
    assert_eq!((run.err.as_str(), run.status), ("", 0));
}

#[test]
fn ffmpeg() {
    printed_as_expected("ffmpeg");
}

#[test]
fn gstreamer_avp() {
    printed_as_expected("gstreamer-avp");
}

#[test]
fn gstreamer_rr() {
    printed_as_expected("gstreamer-rr");
}

#[test]
fn ortp() {
    printed_as_expected("ortp");
}

/// No file of datagrams is without its test.
#[test]
fn there_is_no_other_file() {
    let folder = std::fs::read_dir(root().join("samples/captures")).expect("a folder");
    let mut names: Vec<String> = folder
        .map(|file| file.expect("a file").file_name().into_string())
        .collect::<Result<_, _>>()
        .expect("text");
    names.retain(|name| name.ends_with(".hex"));
    names.sort();
    let want = ["ffmpeg", "gstreamer-avp", "gstreamer-rr", "ortp"];
    assert_eq!(names, want.map(|name| format!("{name}.hex")));
}

#[test]
fn a_summary_over_all_of_them() {
    let files = ["ffmpeg", "gstreamer-avp", "gstreamer-rr", "ortp"];
    let files = files.map(|name| format!("samples/captures/{name}.hex"));
    let mut words = vec!["--summary"];
    words.extend(files.iter().map(String::as_str));
    let run = run(&words, b"");
    let want = "summary
  datagrams: 449
    read: 448
    refused: 1
      by refusal 8: 1
";
    assert!(run.out.starts_with(want), "{}", run.out);
    assert_eq!((run.err.as_str(), run.status), ("", 0));
}
