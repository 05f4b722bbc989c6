//! Compares another program with the twin on every job of the feed:
//! `compare PROGRAM [SEED]`. The program reads a job from standard input.

use std::io::{self, Write};
use std::process::{Command, ExitCode, ExitStatus, Stdio};

use lowline_twin::{feed, lines};

fn main() -> Result<ExitCode, Box<dyn std::error::Error>> {
    let mut arguments = std::env::args().skip(1);
    let Some(program) = arguments.next() else {
        eprintln!("usage: compare PROGRAM [SEED]");
        return Ok(ExitCode::from(2));
    };
    let seed = match arguments.next() {
        Some(text) => text.parse()?,
        None => feed::SEED,
    };

    let mut outcomes = Outcomes::default();
    for (index, job) in feed::jobs(seed).iter().enumerate() {
        let expected = lines(job);
        let other = run(&program, job)?;
        if other.text != expected.as_bytes() || other.status.code().is_none() {
            show_difference(index, job, &expected, &other);
            return Ok(ExitCode::FAILURE);
        }
        outcomes.count(&expected);
    }
    outcomes.show();
    Ok(ExitCode::SUCCESS)
}

struct Output {
    text: Vec<u8>,
    status: ExitStatus,
}

fn run(program: &str, job: &[u8]) -> io::Result<Output> {
    let mut child = Command::new(program)
        .stdin(Stdio::piped())
        .stdout(Stdio::piped())
        .spawn()?;
    if let Some(mut stdin) = child.stdin.take() {
        match stdin.write_all(job) {
            // The program need not read what is beyond its limit.
            Err(error) if error.kind() != io::ErrorKind::BrokenPipe => return Err(error),
            _ => {}
        }
    }
    let output = child.wait_with_output()?;
    Ok(Output {
        text: output.stdout,
        status: output.status,
    })
}

fn show_difference(index: usize, job: &[u8], expected: &str, other: &Output) {
    println!("job {index} differs, {} bytes:", job.len());
    let bytes: Vec<String> = job.iter().map(|byte| format!("{byte:02X}")).collect();
    println!("{}", bytes.join(" "));
    println!("twin:\n{expected}");
    println!(
        "other, {}:\n{}",
        other.status,
        String::from_utf8_lossy(&other.text)
    );
}

#[derive(Default)]
struct Outcomes {
    jobs: u64,
    settled: u64,
    full: u64,
    budget: u64,
    refused_components: u64,
    refused_jobs: u64,
}

impl Outcomes {
    fn count(&mut self, text: &str) {
        self.jobs += 1;
        if text.starts_with("refused") {
            self.refused_jobs += 1;
            return;
        }
        for line in text.lines().skip(1) {
            *match line.rsplit(' ').next() {
                Some("settled") => &mut self.settled,
                Some("full") => &mut self.full,
                Some("budget") => &mut self.budget,
                _ => &mut self.refused_components,
            } += 1;
        }
    }

    fn show(&self) {
        println!("equal jobs {}", self.jobs);
        println!("refused jobs {}", self.refused_jobs);
        println!("components settled {}", self.settled);
        println!("components full {}", self.full);
        println!("components budget {}", self.budget);
        println!("components refused {}", self.refused_components);
    }
}
