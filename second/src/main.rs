//! The program: lists a night sheet, soaks the end against the exchange, writes cases, or meets
//! another program.

use std::fs;
use std::io::{self, BufRead, Read, Write};
use std::path::Path;
use std::process::ExitCode;

use second::across::across;
use second::answering::Answerer;
use second::call_cases::call_cases;
use second::call_dialogues::call_dialogues;
use second::cases::Cases;
use second::dialogues::{dialogues, disagreements, transcript, Dialogue};
use second::end_cases::end_cases;
use second::end_dialogues::end_dialogues;
use second::exchange_cases::exchange_cases;
use second::list_cases::list_cases;
use second::listing::printed;
use second::sheet_cases::sheet_cases;
use second::sheet_dialogues::sheet_dialogues;
use second::soak::soak;
use second::talk::Program;
use second::tally::MustReach;
use second::transcript::Transcript;
use second::world::Checks;
use second::wrong::{Wrong, WRONGS};

const HELP: &str = "\
second list < SHEET        list a night sheet, or print: refused 9
second soak SEEDS STEPS    run the end against the exchange over a bad path and print how often
                           each kind of event came about; a fault, or a kind that never came
                           about, ends with exit code 1
second list-cases DIR      write cases of lists, one a line: DIR/stdin, and DIR/stdout with the
                           output expected
second dialogues DIR       write dialogues with the exchange, their replies and tables stated by
                           hand: DIR/stdin and DIR/stdout, and DIR/canaries with what the driver
                           in C prints besides; where this program's own exchange says otherwise,
                           that is printed and the exit code is 1
second exchange-cases SEED COUNT DIR
                           write so many components made from the seed, with the answers of this
                           program's exchange: files as for dialogues; prints how often each kind
                           was reached; a kind never reached ends with exit code 1
second call-dialogues DIR  write dialogues of calls, what becomes of each stated by hand; files and
                           exit code as for dialogues
second call-cases SEED COUNT DIR
                           write so many calls made from the seed, with what this program makes of
                           them; files, tally and exit code as for exchange-cases
second sheet-dialogues DIR write dialogues about night sheets, what comes of writing, reading and
                           listing them stated by hand; files and exit code as for dialogues
second sheet-cases SEED COUNT DIR
                           write so many lines of sheets written, read and listed, made from the
                           seed, with the answers of this program's sheets; files, tally and exit
                           code as for exchange-cases
second end-dialogues DIR   write dialogues of the customer end, alone and with the exchange, every
                           line stated by hand; files and exit code as for dialogues
second end-cases SEED COUNT DIR
                           write so many lines of the customer end (send, arrived, give-up, shown),
                           made from the seed, with what this program's end does; files, tally and
                           exit code as for exchange-cases
second across SEED EVENTS COMMAND...
                           start COMMAND, which answers the lines of docs/DIALOGUES.md on standard
                           input, and play so many events of two meetings with it over a bad path:
                           the own end with its exchange, and its end with the own exchange; demand
                           3 is checked after every event, and every answer is compared with this
                           program's own. Each line is asked only after the one before is answered,
                           so COMMAND must flush each line: a program that prints with C's stdio is
                           to be started by the caller as
                               stdbuf -oL PROGRAM ...
                           or, where that has no hold on it, on a pseudo-terminal, as
                               script -E never -qefc \"stty -echo -opost; exec PROGRAM ...\" /dev/null
                           Prints how often each kind of event came about; a breach, told with the
                           lines since the last start, or a kind that never came about, ends with
                           exit code 1
second answer [wrong-N]    answer such lines by this program's own rules (remarks, start, access,
                           table, output, component, end, send, arrived, give-up, shown), flushing
                           each; with wrong-N as the N-th of the wrong ends and exchanges would
                           (second wrongs) that across must catch
second wrongs              list the wrong ends and exchanges
second help                this text
";

fn main() -> ExitCode {
    let arguments: Vec<String> = std::env::args_os()
        .skip(1)
        .map(|argument| argument.to_string_lossy().into_owned())
        .collect();
    let words: Vec<&str> = arguments.iter().map(String::as_str).collect();
    done(&words).unwrap_or_else(|fault| {
        // Nothing is left to tell it to if standard error is gone as well.
        let _ = writeln!(io::stderr(), "second: {fault}");
        ExitCode::FAILURE
    })
}

fn done(words: &[&str]) -> io::Result<ExitCode> {
    match *words {
        ["list"] => list(),
        ["soak", seeds, steps] => match (seeds.parse(), steps.parse()) {
            (Ok(seeds), Ok(steps)) => run_soak(seeds, steps),
            _ => misused(),
        },
        ["across", seed, events, command, ref arguments @ ..] => {
            run_across([seed, events], command, arguments)
        }
        ["answer"] => answer(Answerer::new(None)),
        ["answer", word] => match Wrong::named(word) {
            None => misused(),
            wrong => answer(Answerer::new(wrong)),
        },
        ["wrongs"] => print_wrongs(),
        ["help"] => print(HELP).map(|()| ExitCode::SUCCESS),
        _ => written(words),
    }
}

/// What writes files.
fn written(words: &[&str]) -> io::Result<ExitCode> {
    match *words {
        ["list-cases", directory] => write_list_cases(Path::new(directory)),
        ["dialogues", directory] => write_dialogues(&dialogues(), Path::new(directory)),
        ["call-dialogues", directory] => write_dialogues(&call_dialogues(), Path::new(directory)),
        ["sheet-dialogues", directory] => write_dialogues(&sheet_dialogues(), Path::new(directory)),
        ["end-dialogues", directory] => write_dialogues(&end_dialogues(), Path::new(directory)),
        ["exchange-cases", seed, count, directory] => {
            write_cases(exchange_cases, "components", [seed, count], directory)
        }
        ["call-cases", seed, count, directory] => {
            write_cases(call_cases, "calls", [seed, count], directory)
        }
        ["sheet-cases", seed, count, directory] => {
            write_cases(sheet_cases, "lines about sheets", [seed, count], directory)
        }
        ["end-cases", seed, count, directory] => {
            write_cases(end_cases, "lines of the end", [seed, count], directory)
        }
        _ => misused(),
    }
}

fn print(text: &str) -> io::Result<()> {
    let mut output = io::stdout().lock();
    output.write_all(text.as_bytes())?;
    output.flush()
}

fn misused() -> io::Result<ExitCode> {
    io::stderr().write_all(HELP.as_bytes())?;
    Ok(ExitCode::from(2))
}

fn list() -> io::Result<ExitCode> {
    let mut sheet = Vec::new();
    io::stdin().lock().read_to_end(&mut sheet)?;
    print(&printed(&sheet))?;
    Ok(ExitCode::SUCCESS)
}

fn write_list_cases(directory: &Path) -> io::Result<ExitCode> {
    let (input, output): (Vec<String>, Vec<String>) = list_cases().into_iter().unzip();
    write_both(
        directory,
        &(input.join("\n") + "\n"),
        &(output.join("\n") + "\n"),
    )?;
    Ok(ExitCode::SUCCESS)
}

fn write_both(directory: &Path, input: &str, expected: &str) -> io::Result<()> {
    fs::create_dir_all(directory)?;
    fs::write(directory.join("stdin"), input)?;
    fs::write(directory.join("stdout"), expected)
}

fn write_lines(directory: &Path, lines: &Transcript) -> io::Result<()> {
    write_both(directory, &lines.input, &lines.expected)?;
    fs::write(directory.join("canaries"), &lines.canaries.lines)
}

fn write_dialogues(all: &[Dialogue], directory: &Path) -> io::Result<ExitCode> {
    let lines = transcript(all);
    write_lines(directory, &lines)?;
    let found = disagreements(all);
    for one in &found {
        print(&format!("{one}\n"))?;
    }
    Ok(ExitCode::from(u8::from(!found.is_empty())))
}

/// The numbers are the seed, and how many cases to make.
fn write_cases<T: MustReach>(
    make: fn(u64, u64) -> Cases<T>,
    what: &str,
    numbers: [&str; 2],
    directory: &str,
) -> io::Result<ExitCode> {
    let [Ok(seed), Ok(count)] = numbers.map(str::parse) else {
        return misused();
    };
    let cases = make(seed, count);
    write_lines(Path::new(directory), &cases.lines)?;
    print(&format!("seed {seed}, {count} {what}\n"))?;
    print_tally(&cases)
}

fn run_soak(seeds: u64, steps: u64) -> io::Result<ExitCode> {
    match soak(seeds, steps) {
        Ok(tally) => {
            print(&format!("{seeds} seeds of {steps} steps\n"))?;
            print_tally(&tally)
        }
        Err(fault) => {
            print(&format!(
                "fault at seed {} step {}: {}\n",
                fault.seed, fault.step, fault.what
            ))?;
            Ok(ExitCode::FAILURE)
        }
    }
}

/// The numbers are the seed, and how many events there are to be.
fn run_across(numbers: [&str; 2], command: &str, arguments: &[&str]) -> io::Result<ExitCode> {
    let [Ok(seed), Ok(events)] = numbers.map(str::parse) else {
        return misused();
    };
    let program = Program::started(command, arguments)?;
    match across(Box::new(program), seed, events, Checks::All) {
        Ok(counts) => {
            print(&format!("seed {seed}, {events} events\n"))?;
            print_tally(&counts)
        }
        Err(breach) => {
            print(&format!("seed {seed}: {breach}"))?;
            Ok(ExitCode::FAILURE)
        }
    }
}

fn answer(mut answerer: Answerer) -> io::Result<ExitCode> {
    for line in io::stdin().lock().lines() {
        let said = answerer.answer(&line?).map_err(io::Error::other)?;
        if let Some(said) = said {
            print(&format!("{said}\n"))?;
        }
    }
    Ok(ExitCode::SUCCESS)
}

fn print_wrongs() -> io::Result<ExitCode> {
    for ((_, name), number) in WRONGS.iter().zip(1..) {
        print(&format!("wrong-{number:<3} {name}\n"))?;
    }
    Ok(ExitCode::SUCCESS)
}

/// Exit code 1 where a kind was never reached.
fn print_tally(tally: &impl MustReach) -> io::Result<ExitCode> {
    print(&tally.to_string())?;
    let never = tally.never_reached();
    for kind in &never {
        print(&format!("never reached: {kind}\n"))?;
    }
    Ok(ExitCode::from(u8::from(!never.is_empty())))
}
