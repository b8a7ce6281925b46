//! A program in Rust that holds a book of synchronizations as a child process, and asks it line by line. README.md explains it.
//!
//!     rustc client.rs && ./client PROGRAM    with PROGRAM the path of `cml`

use std::env;
use std::io::{self, BufRead, BufReader, Write};
use std::process::{Child, ChildStdin, ChildStdout, Command, ExitCode, Stdio};

/// A child process that answers each line as soon as it has read it.
struct Book {
    child: Child,
    questions: ChildStdin,
    answers: BufReader<ChildStdout>,
}

/// What a command is answered: its lines, or that the rules refuse it, and nothing has changed.
enum Answer {
    Lines(Vec<String>),
    Refused,
}

impl Book {
    fn new(program: &str) -> io::Result<Book> {
        let mut child = Command::new(program)
            .args(["trace", "--live"])
            .stdin(Stdio::piped())
            .stdout(Stdio::piped())
            .spawn()?;
        let questions = child.stdin.take().expect("a pipe");
        let answers = BufReader::new(child.stdout.take().expect("a pipe"));
        Ok(Book { child, questions, answers })
    }

    /// Asks, and reads as many lines as the answer has.
    fn try_ask(&mut self, command: &str) -> io::Result<Answer> {
        println!("> {command}");
        self.questions.write_all(format!("{command}\n").as_bytes())?;
        self.questions.flush()?;
        let mut lines = vec![self.line()?];
        match lines[0].split(' ').next() {
            Some("refused" | "bad") => return Ok(Answer::Refused),
            Some("rows") => {
                let rows = number_in(&lines[0])?;
                for _ in 0..rows {
                    lines.push(self.line()?);
                }
            }
            Some("resume") => {
                while !lines[lines.len() - 1].starts_with("fired") {
                    lines.push(self.line()?);
                }
            }
            _ => {}
        }
        Ok(Answer::Lines(lines))
    }

    /// The lines that answer a command which the rules are to allow.
    fn ask(&mut self, command: &str) -> io::Result<Vec<String>> {
        match self.try_ask(command)? {
            Answer::Lines(lines) => Ok(lines),
            Answer::Refused => Err(io::Error::other(format!("refused: {command}"))),
        }
    }

    /// The next line of an answer.
    fn line(&mut self) -> io::Result<String> {
        let mut line = String::new();
        if self.answers.read_line(&mut line)? == 0 {
            return Err(io::ErrorKind::UnexpectedEof.into());
        }
        let line = line.trim_end_matches('\n');
        println!("{line}");
        Ok(line.to_string())
    }

    /// The number of what the command makes.
    fn number(&mut self, command: &str) -> io::Result<usize> {
        number_in(&self.ask(command)?[0])
    }

    /// What can be taken now: the numbers of each row.
    fn rows(&mut self) -> io::Result<Vec<String>> {
        let lines = self.ask("rows")?;
        Ok(lines[1..].iter().map(|line| line.replacen("row ", "", 1)).collect())
    }

    /// Takes the first row.
    fn take_first(&mut self) -> io::Result<()> {
        let rows = self.rows()?;
        self.ask(&format!("commit {}", rows[0]))?;
        Ok(())
    }

    /// Ends the input, and returns whether all was well.
    fn close(mut self) -> io::Result<bool> {
        drop(self.questions);
        Ok(self.child.wait()?.success())
    }
}

/// The number behind the first word of a line.
fn number_in(line: &str) -> io::Result<usize> {
    let number = line.split(' ').nth(1).and_then(|number| number.parse().ok());
    number.ok_or_else(|| io::Error::other(format!("no number: {line}")))
}

/// Ann sends a value, and Bob receives it.
fn hand_over(book: &mut Book, ann: usize, bob: usize) -> io::Result<()> {
    let channel = book.number("chan")?;
    book.ask(&format!("sync {ann} (send {channel} 42)"))?;
    book.ask(&format!("sync {bob} (recv {channel})"))?;
    book.take_first()
}

/// Ann waits for a value or for ten ticks, and nobody sends.
fn time_out(book: &mut Book, ann: usize) -> io::Result<()> {
    let channel = book.number("chan")?;
    book.ask(&format!("sync {ann} (choose (recv {channel}) (wrap (after 10) 1 \"timed out\"))"))?;
    assert!(book.rows()?.is_empty());
    book.ask("clock 10")?;
    book.take_first()
}

/// Both want the lock, and one waits until the other gives it back.
fn lock(book: &mut Book, ann: usize, bob: usize) -> io::Result<()> {
    let variable = book.number("mvar ()")?;
    for thread in [ann, bob] {
        book.ask(&format!("sync {thread} (mtake {variable})"))?;
    }
    let rows = book.rows()?;
    book.ask(&format!("commit {}", rows[0]))?;
    let second = format!("commit {}", rows[1]);
    if let Answer::Refused = book.try_ask(&second)? {
        book.ask(&format!("mput {variable} ()"))?;
        book.ask(&second)?;
    }
    Ok(())
}

/// Ann asks and takes something else at once, and Bob hears that the request is void.
fn cancel(book: &mut Book, ann: usize, bob: usize) -> io::Result<()> {
    let channel = book.number("chan")?;
    let nack = book.number(&format!("nack {ann}"))?;
    book.ask(&format!("sync {ann} (choose (scope {nack} (recv {channel})) (always 7))"))?;
    book.ask(&format!("sync {bob} (nack {nack})"))?;
    book.take_first()?;
    book.take_first()
}

fn main() -> io::Result<ExitCode> {
    let program = env::args().nth(1).expect("the path of cml");
    let mut book = Book::new(&program)?;
    let ann = book.number("spawn")?;
    let bob = book.number("spawn")?;
    hand_over(&mut book, ann, bob)?;
    time_out(&mut book, ann)?;
    lock(&mut book, ann, bob)?;
    cancel(&mut book, ann, bob)?;
    Ok(if book.close()? { ExitCode::SUCCESS } else { ExitCode::FAILURE })
}
