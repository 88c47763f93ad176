//! The words of the command: help, version, and what is not understood.

use crate::run::yavrinks;

#[test]
fn help_is_printed_where_it_is_asked_for() {
    for words in [&["--help"][..], &["-h"], &["help"]] {
        let output = yavrinks(words).output().expect("the command runs");
        let printed = String::from_utf8(output.stdout).expect("text");
        assert_eq!(output.status.code(), Some(0));
        assert!(printed.contains("Usage: yavrinks VERB"), "{printed}");
        assert!(printed.contains("  confine [FILE] "), "{printed}");
        assert_eq!(output.stderr, b"");
    }
    for words in [["confine", "--help"], ["confine", "-h"]] {
        let output = yavrinks(&words).output().expect("the command runs");
        let printed = String::from_utf8(output.stdout).expect("text");
        assert_eq!(output.status.code(), Some(0));
        assert!(
            printed.starts_with("Usage: yavrinks confine [FILE]\n"),
            "{printed}"
        );
        for told in [
            "0 for accepted",
            "1 for refused",
            "and 2 where",
            "needs no entry",
            "an image of version 1",
            "`refused 15` at any version byte but 1",
        ] {
            assert!(printed.contains(told), "{printed}");
        }
    }
}

#[test]
fn the_version_is_the_packages_and_the_librarys() {
    for word in ["--version", "-V"] {
        let output = yavrinks(&[word]).output().expect("the command runs");
        let printed = String::from_utf8(output.stdout).expect("text");
        assert_eq!(printed, "yavrinks 0.1.0, libcaptable 0.10.0\n");
        assert_eq!(output.status.code(), Some(0));
    }
}

#[test]
fn words_that_are_not_understood_end_with_2() {
    for (words, complaint) in [
        (&[][..], "yavrinks: there is no verb\n"),
        (&["confin"], "yavrinks: what is `confin`?\n"),
        (&["--colour"], "yavrinks: what is `--colour`?\n"),
        (
            &["--version", "now"],
            "yavrinks: what is `--version now`?\n",
        ),
        (
            &["confine", "a", "b"],
            "yavrinks: confine takes at most one FILE\n",
        ),
        (
            &["confine", "--quiet"],
            "yavrinks: confine takes at most one FILE\n",
        ),
        (
            &["confine", "-"],
            "yavrinks: confine takes at most one FILE\n",
        ),
    ] {
        let output = yavrinks(words).output().expect("the command runs");
        let said = String::from_utf8(output.stderr).expect("text");
        assert_eq!(output.status.code(), Some(2), "{words:?}");
        assert_eq!(output.stdout, b"");
        assert!(said.starts_with(complaint), "{said}");
        assert!(said.contains("Usage: yavrinks "), "{said}");
    }
}

#[test]
fn help_that_is_lost_ends_with_2() {
    for words in [&["--help"][..], &["--version"], &["confine", "--help"]] {
        let full = std::fs::File::options().write(true).open("/dev/full");
        let output = yavrinks(words)
            .stdout(full.expect("the device"))
            .output()
            .expect("the command runs");
        assert_eq!(output.status.code(), Some(2), "{words:?}");
    }
}
