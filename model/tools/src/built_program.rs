//! The command `program`: runs a built program `confine` on many inputs, each as a process of its
//! own, and compares what it prints with the test vectors and with the model. With a verb the program is
//! one like `yavrinks confine`, whose status has to tell the answer too.

use std::fs;
use std::io::{self, Write};
use std::path::Path;
use std::process::{Command, ExitCode, Output, Stdio};

use crate::generate::{
    confine_input, confinement_case, newer_input, CONFINE_NUMBERS, INPUT_COUNT_AT,
};
use crate::progress::Progress;
use crate::rng::Rng;
use yavrinks_model::confine::confine;
use yavrinks_model::image::VERSION_AT;

/// Random inputs for each number that the program can give.
const EACH: usize = 40;
/// The length of the longest input that can be right.
const LONGEST: usize = INPUT_COUNT_AT + 1 + 2 * 255;

/// An input and what must be printed for it.
struct Case {
    name: String,
    input: Vec<u8>,
    expected: Vec<u8>,
}

/// The program, by its path and perhaps a verb.
struct Program<'a> {
    path: &'a str,
    verb: Option<&'a str>,
}

impl Program<'_> {
    /// The program as it is started; with this in front if it is to be started by a shell.
    fn started_by(&self, shell: &[&str]) -> Command {
        let mut words = shell.iter().copied().chain([self.path]).chain(self.verb);
        let mut command = Command::new(words.next().unwrap_or(self.path));
        command.args(words);
        command
    }

    /// The status that goes with an output. Without a verb there is but one: the
    /// proved program has another only where reading or printing fails.
    fn status(&self, expected: &[u8]) -> i32 {
        match (self.verb, expected) {
            (None, _) => 0,
            (Some(_), b"") => 2,
            (Some(_), printed) => i32::from(!printed.starts_with(b"accepted\n")),
        }
    }

    /// What must happen on a closed standard input. The proved program takes it for an empty one.
    fn closed(&self) -> Case {
        let mut case = model_case("a closed standard input", Vec::new());
        if self.verb.is_some() {
            case.expected = Vec::new();
        }
        case
    }
}

/// Runs the command. The exit status is 0 if every output is as expected and 1 if not.
pub fn command(path: &str, verb: Option<&str>) -> ExitCode {
    match compare(&Program { path, verb }) {
        Ok(0) => ExitCode::SUCCESS,
        Ok(_) => ExitCode::FAILURE,
        Err(error) => {
            eprintln!("yavrinks-tools program: {path}: {error}");
            ExitCode::FAILURE
        }
    }
}

/// Prints a line for each group of inputs; gives the number of differences.
fn compare(program: &Program<'_>) -> io::Result<usize> {
    let groups = [
        ("test vectors", vector_cases()?),
        ("random inputs", random_cases(&mut Rng::new(0xC0F1E))),
        ("odd lengths", odd_cases()),
        ("other versions", version_cases()),
    ];
    let mut output = io::stdout();
    let (mut done, mut differences) = (0, 0);
    let all = groups.iter().map(|(_, cases)| cases.len() as u64).sum();
    let mut progress = Progress::new("program: inputs", all);
    for (name, cases) in &groups {
        for case in cases {
            let printed = run(program.started_by(&[]), &case.input)?;
            differences += report(program, case, &printed)?;
            done += 1;
            progress.at(done);
        }
        writeln!(output, "{name:14} {:4} inputs", cases.len())?;
    }
    let shell = program.started_by(&["sh", "-c", "exec \"$0\" \"$@\" <&-"]);
    differences += report(program, &program.closed(), &run(shell, &[])?)?;
    writeln!(output, "{:14} {:4} input", "closed input", 1)?;
    writeln!(output, "{differences} differences")?;
    Ok(differences)
}

fn run(mut command: Command, input: &[u8]) -> io::Result<Output> {
    let mut child = command
        .stdin(Stdio::piped())
        .stdout(Stdio::piped())
        .stderr(Stdio::piped())
        .spawn()?;
    let pipe = child.stdin.take();
    std::thread::scope(|scope| {
        // The program may stop reading once an input is too long, so a failed write is no fault.
        scope.spawn(move || pipe.map(|mut pipe| pipe.write_all(input)));
        child.wait_with_output()
    })
}

/// 1, with both texts printed, if the program printed something else or ended otherwise.
fn report(program: &Program<'_>, case: &Case, output: &Output) -> io::Result<usize> {
    let wanted = program.status(&case.expected);
    if output.status.code() == Some(wanted) && output.stdout == case.expected {
        return Ok(0);
    }
    let printed = String::from_utf8_lossy(&output.stdout);
    let expected = String::from_utf8_lossy(&case.expected);
    let said = String::from_utf8_lossy(&output.stderr);
    let status = output.status;
    let name = &case.name;
    writeln!(
        io::stdout(),
        "{name}: expected {expected:?} and status {wanted}, printed {printed:?}, {status}; {said:?} on standard error"
    )?;
    Ok(1)
}

fn vector_cases() -> io::Result<Vec<Case>> {
    let folder = Path::new(env!("CARGO_MANIFEST_DIR")).join("../vectors/confine");
    let mut cases = Vec::new();
    for entry in fs::read_dir(folder)? {
        let path = entry?.path();
        if path.extension().is_some_and(|extension| extension == "in") {
            cases.push(Case {
                name: path.display().to_string(),
                input: fs::read(&path)?,
                expected: fs::read(path.with_extension("out"))?,
            });
        }
    }
    Ok(cases)
}

fn model_case(name: impl Into<String>, input: Vec<u8>) -> Case {
    Case {
        name: name.into(),
        expected: confine(&input).into_bytes(),
        input,
    }
}

fn random_cases(rng: &mut Rng) -> Vec<Case> {
    let mut cases = Vec::new();
    for number in CONFINE_NUMBERS {
        for place in 0..EACH {
            let name = format!("random input {place} for {number}");
            cases.push(model_case(name, confine_input(rng, number)));
        }
    }
    cases
}

/// Lengths at which a reader could go wrong, up to a megabyte.
fn odd_cases() -> Vec<Case> {
    let mut rng = Rng::new(0x0DD);
    let right = confine_input(&mut rng, 0);
    let mut cases = Vec::new();
    for length in [
        0,
        1,
        2,
        1922,
        1923,
        INPUT_COUNT_AT,
        INPUT_COUNT_AT + 1,
        1987,
        1996,
        LONGEST,
        LONGEST + 1,
        1 << 20,
    ] {
        let mut input = right.clone();
        input.resize(length, 0);
        if length > INPUT_COUNT_AT {
            input[INPUT_COUNT_AT] = 255;
        }
        cases.push(model_case(format!("{length} bytes"), input));
        cases.push(model_case(format!("{length} zeros"), vec![0; length]));
    }
    cases
}

/// Version bytes other than 1, with every length field, and with a byte too many; then whole images of version 2 in
/// the place of one of version 1.
fn version_cases() -> Vec<Case> {
    let mut rng = Rng::new(0x7E2);
    let right = confine_input(&mut rng, 0);
    let mut cases = Vec::new();
    for version in [0, 1, 2, 3, 255] {
        for field in [[0x07, 0x83], [0x07, 0xC3], [0, 0]] {
            let mut input = right.clone();
            input[..2].copy_from_slice(&field);
            input[VERSION_AT] = version;
            let name = format!("version byte {version}, length field {field:02x?}");
            cases.push(model_case(name.clone(), input.clone()));
            input.push(0);
            cases.push(model_case(format!("{name}, a byte too many"), input));
        }
    }
    for aim in [15, 17] {
        for place in 0..8 {
            let test = confinement_case(&mut rng, 0);
            let name = format!("image {place} of version 2, for {aim}");
            cases.push(model_case(name, newer_input(test, aim)));
        }
    }
    cases
}
