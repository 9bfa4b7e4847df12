//! `meter run`: a feed through the proved calls, each line as soon as its record is there.

use crate::cli::{refused, usage, Arguments, Failure, Outcome};
use crate::files::{Input, Output, Progress};
use crate::words::{self, END, LONGEST_RECORD};
use meter::{feed_taken, Meter, Reason, Refused};
use std::ffi::OsString;
use std::io::Read;

pub const HELP: &str = "\
Runs a feed into a clear meter and prints a line for its head, each record and
its end.

usage: meter run [FEED] [--wide] [-o IMAGE]

A file left out or - is standard input. Each line is printed as soon as the
words of its record are there, so that a feed can be a live pipe:

    geometry D W       the head
    updated            an update
    estimate FIGURE    what was asked for
    refused 6          an update that would make a counter of 64 bits overflow;
                       the feed goes on
    end RECORDS        the end
    stopped N at I     word I, counted from 0, was refused with number N, and no
                       more is read

Standard error says each refusal in words. The status is 0 if the feed ended and
nothing was refused.

  --wide     take feeds of more than 4,096 slots a row; without it they are
             stopped with 3 at word 0, as by the program run_feed
  -o IMAGE   write the meter's image once the feed has ended
";

/// The most slots of a row without --wide.
const MOST_SLOTS: usize = 4096;

/// Input at hand.
struct Words {
    input: Input,
    bytes: Vec<u8>,
    start: usize,
    over: bool,
}

impl Words {
    /// Waits for more bytes, after all lines are out.
    fn more(&mut self, output: &mut Output) -> Outcome {
        output.flush()?;
        self.bytes.drain(..self.start);
        self.start = 0;
        let held = self.bytes.len();
        self.bytes.resize(held + (1 << 16), 0);
        let n = match self.input.read(&mut self.bytes[held..]) {
            Ok(n) => n,
            Err(error) => return refused(format_args!("{}: {error}", self.input.name)),
        };
        self.bytes.truncate(held + n);
        self.over = n == 0;
        Ok(())
    }

    fn at_hand(&self) -> &[u8] {
        &self.bytes[self.start..]
    }

    /// Whole words at hand, as many as there is room for.
    fn copy(&self, room: &mut [u32]) -> usize {
        let mut n = 0;
        for (word, four) in room.iter_mut().zip(self.at_hand().chunks_exact(4)) {
            *word = words::word(four);
            n += 1;
        }
        n
    }
}

struct Run {
    words: Words,
    output: Output,
    progress: Progress,
    /// The words before the next record, and the records.
    before: u64,
    records: u64,
    /// Whether nothing was refused.
    clean: bool,
}

impl Run {
    fn new(input: Input, output: Output) -> Run {
        Run {
            words: Words {
                input,
                bytes: Vec::new(),
                start: 0,
                over: false,
            },
            output,
            progress: Progress::beside_lines("run"),
            before: 0,
            records: 0,
            clean: true,
        }
    }

    fn stopped(&mut self, r: Refused) -> Outcome<Failure> {
        self.output
            .put(format!("stopped {} at {}\n", r.number(), r.place).as_bytes())?;
        self.output.flush()?;
        let reason = match r.reason {
            Reason::Length => format!("more than {MOST_SLOTS} slots a row need more memory than is lent; --wide lends it"),
            reason => reason.to_string(),
        };
        Ok(Failure::Refused(format!(
            "{}: stopped at word {}: number {}: {reason}",
            self.words.input.name,
            r.place,
            r.number()
        )))
    }

    /// The clear meter of the feed's head.
    fn head(&mut self, wide: bool) -> Outcome<Meter> {
        while self.words.at_hand().len() < 4 && !self.words.over {
            self.words.more(&mut self.output)?;
        }
        let mut room = [0; 1];
        let n = self.words.copy(&mut room);
        let accepted = Meter::from_feed_head(&room[..n]).and_then(|meter| {
            if meter.w() > MOST_SLOTS && !wide {
                return Err(Refused {
                    reason: Reason::Length,
                    place: 0,
                });
            }
            Ok(meter)
        });
        match accepted {
            Ok(meter) => {
                self.words.start += 4;
                self.before = 1;
                self.output
                    .put(format!("geometry {} {}\n", meter.d(), meter.w()).as_bytes())?;
                Ok(meter)
            }
            Err(r) => Err(self.stopped(r)?),
        }
    }

    /// One record, or the end: true after that.
    fn record(&mut self, meter: &mut Meter) -> Outcome<bool> {
        let mut room = [0; LONGEST_RECORD];
        let mut n = self.words.copy(&mut room);
        let answer = loop {
            let answer = meter.record(self.before, &room[..n]);
            // What is refused for want of a word has changed nothing, and is tried again once there are more.
            match answer {
                Err(r) if r.reason == Reason::Word && r.place == n as u64 && !self.words.over => {
                    self.progress.now_at(self.records, None, "records");
                    self.words.more(&mut self.output)?;
                    n = self.words.copy(&mut room);
                }
                _ => break answer,
            }
        };
        let ends = room[0] >> 28 == END;
        match answer {
            Ok(_) if ends => self.output.put(format!("end {}\n", self.records).as_bytes())?,
            Ok(_) if room[0] >> 28 == words::UPDATE => self.output.put(b"updated\n")?,
            Ok(figure) => self.output.put(format!("estimate {figure}\n").as_bytes())?,
            Err(r) if r.reason == Reason::CounterFull => {
                self.clean = false;
                self.output.put(b"refused 6\n")?;
                self.progress.hide();
                crate::say(format_args!(
                    "meter run: {}: record at word {} refused: number 6: {}",
                    self.words.input.name, self.before, r.reason
                ));
            }
            Err(mut r) => {
                r.place += self.before;
                return Err(self.stopped(r)?);
            }
        }
        let taken = feed_taken(&room[..n]);
        self.words.start += 4 * taken;
        self.before += taken as u64;
        self.records += u64::from(!ends);
        self.progress.at(self.records, None, "records");
        Ok(ends)
    }

    /// Nothing follows the end.
    fn after_end(&mut self) -> Outcome {
        while self.words.at_hand().is_empty() && !self.words.over {
            self.words.more(&mut self.output)?;
        }
        if self.words.at_hand().is_empty() {
            return self.output.flush();
        }
        Err(self.stopped(Refused {
            reason: Reason::Word,
            place: self.before,
        })?)
    }
}

pub fn run(given: &[OsString]) -> Outcome {
    let arguments = Arguments::parse(given, &[("--wide", 0), ("-o", 1)])?;
    if arguments.value("-o").is_some_and(|file| file == "-") {
        return usage("standard output has the lines; the image needs a file");
    }
    let mut run = Run::new(Input::open(arguments.file()?)?, Output::standard()?);
    let mut meter = run.head(arguments.has("--wide"))?;
    while !run.record(&mut meter)? {}
    run.after_end()?;
    if let Some(file) = arguments.value("-o") {
        crate::image::save(file, &meter)?;
    }
    if run.clean {
        Ok(())
    } else {
        Err(Failure::Quiet)
    }
}

#[cfg(test)]
mod tests {
    use super::*;
    use crate::words::{Feed, Key};
    use std::fs::{self, File};

    /// A full counter refuses an update and the feed goes on. No feed of a size to test with fills one, so the meter is handed in.
    #[test]
    fn a_full_counter() {
        let folder = std::env::temp_dir().join(format!("meter-run-{}", std::process::id()));
        fs::create_dir_all(&folder).unwrap();
        let key = Key::new(b"A").unwrap();
        let mut feed = Feed::new(1, 32);
        feed.update(&key, 1);
        feed.update(&key, 0);
        feed.ask(&key);
        fs::write(folder.join("feed"), feed.ended()).unwrap();
        let output = Output::to(File::create(folder.join("lines")).unwrap());
        let mut run = Run::new(Input::open(folder.join("feed").as_os_str()).unwrap(), output);
        run.head(false).unwrap();
        let full = [[0xff; 32].to_vec(), vec![0x7f; 4]].concat();
        let mut meter = Meter::from_bytes(1, 32, full).unwrap();
        while !run.record(&mut meter).unwrap() {}
        run.after_end().unwrap();
        assert!(!run.clean);
        let lines = fs::read_to_string(folder.join("lines")).unwrap();
        assert_eq!(
            lines,
            format!("geometry 1 32\nrefused 6\nupdated\nestimate {}\nend 3\n", u64::MAX)
        );
        fs::remove_dir_all(&folder).unwrap();
    }
}
