//! The trials: many cases from a seed, put to a program over pipes, and every
//! answer held to this implementation's own. `--self` holds the plain rule
//! against instrumented code instead, with no other program.

use std::io::{self, Read, Write};
use std::process::ExitCode;
use std::time::{Instant, SystemTime, UNIX_EPOCH};
use independent::coverage::{meaning, Coverage};
use independent::file::{read_instrumented, read_routine};
use independent::gen::random::Random;
use independent::gen::{cases, every, known, others};
use independent::instruction::Instruction;
use independent::layout::{MEMORY, TABLE};
use independent::lockstep::same_run;
use independent::partner::{serve, Asked, Partner, Silence};
use independent::shrink::shrink;
use independent::states::Seen;
use independent::wire::{from_hex, to_hex, Answer, Case, Kind, HEADER};
use independent::{machine, plain};

const USAGE: &str = "\
use: trials --program CMD [--cases N] [--seed S] [--kinds 1,3,8]
     trials --program CMD --replay HEX
     trials --program CMD [--seed S] [--kinds 1,3,8] --replay NUMBER
     trials --self [--cases N] [--seed S]
     trials --self --replay HEX
     trials --self [--seed S] --replay NUMBER
     trials --serve [--spoil R]
     trials --emit [--cases N] [--seed S] [--kinds 1,3,8]
  CMD starts a program that reads cases and writes answers (PROTOCOL.md); the
  shell runs it if there is more to it than plain words
  S is a number, or the word fresh; HEX is a case in hexadecimal, or - for
  standard input; NUMBER is that of a case as a trial tells it; --serve answers cases as such a program does, and with
  --spoil wrongly wherever the first word should be R; --emit writes the cases
  themselves, as such a program reads them";

/// After so many differences the trial ends; more would not tell more.
const SHOWN: usize = 5;
/// So many questions are spent on making a difference small.
const QUESTIONS: usize = 300;

/// What the command line asks for.
struct Options {
    program: Option<String>,
    alone: bool,
    serve: bool,
    emit: bool,
    /// To see that a wrong answer is noticed.
    spoil: Option<u64>,
    cases: u64,
    seed: u64,
    kinds: Vec<Kind>,
    replay: Option<String>,
}

impl Options {
    /// What says, besides its number, which case is meant.
    fn which(&self) -> String {
        let mut words = format!("--seed {}", self.seed);
        if self.kinds != Kind::ALL {
            let kinds: Vec<String> =
                self.kinds.iter().map(|&kind| (kind as u8).to_string()).collect();
            words.push_str(&format!(" --kinds {}", kinds.join(",")));
        }
        words
    }
}

fn main() -> ExitCode {
    let options = match options(std::env::args().skip(1).collect()) {
        Ok(options) => options,
        Err(words) => {
            eprintln!("trials: {}\n{}", words, USAGE);
            return ExitCode::from(2);
        }
    };
    match carry_out(&options) {
        Ok(()) => ExitCode::SUCCESS,
        Err(words) => {
            eprintln!("trials: {}", words);
            ExitCode::FAILURE
        }
    }
}

fn options(words: Vec<String>) -> Result<Options, String> {
    let mut options = Options {
        program: None,
        alone: false,
        serve: false,
        emit: false,
        spoil: None,
        cases: 20_000,
        seed: 1,
        kinds: Kind::ALL.to_vec(),
        replay: None,
    };
    let mut words = words.into_iter();
    while let Some(word) = words.next() {
        let mut value = || words.next().ok_or(format!("{} wants a value", word));
        match word.as_str() {
            "--program" => options.program = Some(value()?),
            "--self" => options.alone = true,
            "--serve" => options.serve = true,
            "--emit" => options.emit = true,
            "--spoil" => options.spoil = Some(number(&value()?)?),
            "--cases" => options.cases = number(&value()?)?,
            "--seed" => options.seed = seed(&value()?)?,
            "--kinds" => options.kinds = kinds(&value()?)?,
            "--replay" => options.replay = Some(value()?),
            _ => return Err(format!("{:?} is no option", word)),
        }
    }
    let ways = [options.program.is_some(), options.alone, options.serve, options.emit];
    if ways.iter().filter(|way| **way).count() != 1 {
        return Err("say one of --program, --self, --serve and --emit".to_string());
    }
    Ok(options)
}

fn number(word: &str) -> Result<u64, String> {
    word.parse().map_err(|_| format!("{:?} is no number", word))
}

/// A fresh seed comes from the clock, and is told so that it can be used again.
fn seed(word: &str) -> Result<u64, String> {
    if word != "fresh" {
        return number(word);
    }
    let now = SystemTime::now().duration_since(UNIX_EPOCH);
    let now = now.map_err(|error| format!("the clock is of no use: {}", error))?;
    Ok(now.as_nanos() as u64 % 1_000_000_000_000)
}

fn kinds(word: &str) -> Result<Vec<Kind>, String> {
    let one = |part: &str| {
        let kind = part.parse().ok().and_then(Kind::from_byte);
        kind.ok_or_else(|| format!("{:?} is no kind of case; they are 1 to 9", part))
    };
    word.split(',').map(one).collect()
}

fn carry_out(options: &Options) -> Result<(), String> {
    if options.serve {
        let answer = |case: &Case| spoiled(case.answer(), options.spoil);
        return serve(io::stdin().lock(), io::stdout().lock(), answer);
    }
    if options.emit {
        return emit(options).map_err(|error| format!("the cases cannot be written: {}", error));
    }
    match (&options.program, &options.replay) {
        (Some(program), Some(word)) => replay(program, word, options),
        (Some(program), None) => against(program, options),
        (None, Some(word)) => replay_alone(word, options),
        (None, None) => alone(options),
    }
}

/// Writes the cases, and that no more follow.
fn emit(options: &Options) -> io::Result<()> {
    let mut output = io::BufWriter::new(io::stdout().lock());
    let all = Cases::of(options);
    for number in 0..options.cases {
        output.write_all(&all.case(number).to_bytes())?;
    }
    output.write_all(&[0; HEADER])?;
    output.flush()
}

fn spoiled(mut answer: Answer, spoil: Option<u64>) -> Answer {
    if spoil == Some(u64::from(answer.reason())) {
        answer.0[1] += 1;
    }
    answer
}

/// Tells every few seconds how far the trials are.
struct Progress {
    started: Instant,
    told: u64,
    wanted: u64,
}

impl Progress {
    fn start(wanted: u64, seed: u64) -> Progress {
        eprintln!("trials: {} cases from seed {}", wanted, seed);
        Progress { started: Instant::now(), told: 0, wanted }
    }

    fn tell(&mut self, done: u64, different: usize) {
        let seconds = self.started.elapsed().as_secs();
        if seconds >= self.told + 5 {
            self.told = seconds;
            eprintln!(
                "trials: {} of {} cases, {} different, {} s",
                done, self.wanted, different, seconds
            );
        }
    }

    fn seconds(&self) -> f64 {
        self.started.elapsed().as_secs_f64()
    }
}

/// All cases of a trial by number: the examples of the description and a case for
/// every number and state first, then those that the seed gives.
struct Cases {
    opening: Vec<Case>,
    seed: u64,
    kinds: Vec<Kind>,
}

impl Cases {
    fn of(options: &Options) -> Cases {
        let opening = known::cases().into_iter().chain(every::cases());
        let opening = opening.filter(|case| options.kinds.contains(&case.kind));
        Cases { opening: opening.collect(), seed: options.seed, kinds: options.kinds.clone() }
    }

    fn case(&self, number: u64) -> Case {
        match self.opening.get(number as usize) {
            Some(case) => case.clone(),
            None => cases::case(self.seed, number - self.opening.len() as u64, &self.kinds),
        }
    }

    fn asked(&self, number: u64) -> Asked {
        let case = self.case(number);
        let mut seen = Seen::default();
        let expected = seen.answer(&case);
        Asked { number, case, expected, seen }
    }
}

fn against(program: &str, options: &Options) -> Result<(), String> {
    let mut progress = Progress::start(options.cases, options.seed);
    let mut coverage = Coverage::default();
    let mut different = Vec::new();
    let mut done = 0;
    let mut partner = Partner::start(program).map_err(|silence| silence.to_string())?;
    let all = Cases::of(options);
    let asked = (0..options.cases).map(|number| all.asked(number));
    let streamed = partner.stream(asked, |asked, answer| {
        done += 1;
        coverage.note(asked.case.kind, asked.expected.reason());
        coverage.note_states(asked.case.kind, &asked.seen);
        if answer != asked.expected {
            different.push((asked.number, asked.case));
        }
        progress.tell(done, different.len());
        different.len() < SHOWN
    });
    let ended = match streamed {
        Ok(()) if different.len() == SHOWN => Ok(()),
        Ok(()) => partner.finish(),
        Err((asked, silence)) => {
            let words = format!("case {}: {}", asked.number, silence);
            different.push((asked.number, asked.case));
            Err(words)
        }
    };
    print!("{}{}", coverage.table(&options.kinds), coverage.state_table(&options.kinds));
    for (number, case) in different.iter() {
        println!("case {} of seed {} differs", number, options.seed);
        println!("again: {} --replay {}", options.which(), number);
        show_small(program, case);
    }
    ended?;
    verdict(&coverage, &options.kinds, true, done, different.len(), &progress)
}

fn verdict(
    coverage: &Coverage,
    kinds: &[Kind],
    with_states: bool,
    done: u64,
    different: usize,
    progress: &Progress,
) -> Result<(), String> {
    let (mut missing, mut states) = (Vec::new(), Vec::new());
    if different == 0 {
        missing = coverage.missing(kinds);
        if with_states {
            states = coverage.missing_states(kinds);
        }
    }
    for (kind, number) in &missing {
        println!("not reached: {} ({}) by {}", number, meaning(*number), kind.name());
    }
    for (state, kind, part) in &states {
        println!("not reached: {} (part {}) by {}", state.name(), part, kind.name());
    }
    println!(
        "{} cases, {} different, {} numbers not reached, {} states not reached, {:.1} s",
        done,
        different,
        missing.len(),
        states.len(),
        progress.seconds()
    );
    match (different, missing.len() + states.len()) {
        (0, 0) => Ok(()),
        (0, _) => Err("not all was reached; more cases may reach it".to_string()),
        _ => Err("the program answers otherwise".to_string()),
    }
}

/// A program that is started again when it has ended.
struct Asker<'a> {
    program: &'a str,
    partner: Option<Partner>,
}

impl Asker<'_> {
    fn ask(&mut self, case: &Case) -> Result<Answer, Silence> {
        let mut partner = match self.partner.take() {
            Some(partner) => partner,
            None => Partner::start(self.program)?,
        };
        let answer = partner.ask(case)?;
        self.partner = Some(partner);
        Ok(answer)
    }
}

/// Makes a case that differs small and shows it. Where the program hangs every
/// question would be waited for, so such a case stays as it is.
fn show_small(program: &str, case: &Case) {
    let partner = None;
    let mut asker = Asker { program, partner };
    let mut small = case.clone();
    let mut answer = asker.ask(case);
    if !matches!(answer, Err(Silence::Hangs(_))) {
        let differs = |case: &Case| match asker.ask(case) {
            Ok(answer) => answer != case.answer(),
            Err(silence) => matches!(silence, Silence::Ended(_)),
        };
        small = shrink(small, differs, QUESTIONS);
        answer = asker.ask(&small);
    }
    show(&small, &answer);
    println!("replay: --replay {}", to_hex(&small.to_bytes()));
}

/// A case in words, and both answers side by side.
fn show(case: &Case, answer: &Result<Answer, Silence>) {
    describe(case);
    let expected = case.answer();
    println!("  {:<14}{:>12}{:>12}", "", "program", "expected");
    for (index, field) in case.kind.fields().iter().enumerate() {
        let theirs = match answer {
            Ok(answer) => answer.0[index].to_string(),
            Err(_) => "none".to_string(),
        };
        let ours = expected.0[index].to_string();
        if !field.is_empty() || theirs != ours {
            let mark = if theirs == ours { "" } else { "  differs" };
            println!("  {:<14}{:>12}{:>12}{}", field, theirs, ours, mark);
        }
    }
    if let Err(silence) = answer {
        println!("  {}", silence);
    }
}

fn describe(case: &Case) {
    println!(
        "  {}: a file of {} bytes, cursor {}, room {}, limit {}, memory {}, table {}, inputs {:?}",
        case.kind.name(),
        case.file.len(),
        case.cursor,
        case.room,
        case.limit,
        case.memory,
        case.table,
        case.inputs
    );
    if let Ok(routine) = read_routine(&case.file) {
        println!("  objects {:?}\n  sets {:?}", routine.objects, routine.sets);
        list(&routine.code, true);
    } else if let Ok(program) = read_instrumented(&case.file) {
        println!("  objects {:?}\n  colors {:?}", program.objects, program.colors);
        list(&program.code, false);
    }
}

fn list(code: &[Instruction], with_sets: bool) {
    for (number, instruction) in code.iter().enumerate() {
        println!("  {:>5} {}", number, instruction.listing(with_sets));
    }
}

/// A word that is a case's number. A case in hexadecimal has 64 digits or more.
fn case_number(word: &str) -> Option<u64> {
    match word.len() < 20 {
        true => word.parse().ok(),
        false => None,
    }
}

/// The case that stands in hexadecimal on the command line or the input.
fn case_from(hex: &str) -> Result<Case, String> {
    let mut text = hex.to_string();
    if hex == "-" {
        text.clear();
        let read = io::stdin().read_to_string(&mut text);
        read.map_err(|error| format!("the case cannot be read: {}", error))?;
    }
    Case::from_bytes(&from_hex(&text)?).map_err(|words| format!("this is no case: {}", words))
}

fn replay(program: &str, word: &str, options: &Options) -> Result<(), String> {
    let case = match case_number(word) {
        Some(number) => Cases::of(options).case(number),
        None => case_from(word)?,
    };
    let answer = Partner::start(program).and_then(|mut partner| partner.ask(&case));
    show(&case, &answer);
    match answer {
        Ok(answer) if answer == case.answer() => Ok(()),
        _ => Err("the program answers otherwise".to_string()),
    }
}

/// The plain rule against instrumented code.
fn alone(options: &Options) -> Result<(), String> {
    let mut progress = Progress::start(options.cases, options.seed);
    let mut coverage = Coverage::default();
    for number in 0..options.cases {
        let mut random = Random::for_case(options.seed, number);
        let case = self_case(&mut random);
        let compared = by_lockstep(&case).and_then(|reason| {
            round_trips(&case.file)?;
            others_are_read_back(&mut random)?;
            Ok(reason)
        });
        match compared {
            Ok(reason) => coverage.note(Kind::Control, reason),
            Err(words) => {
                let small = shrink(case, |case| by_lockstep(case).is_err(), QUESTIONS);
                describe(&small);
                println!("again: --self --seed {} --replay {}", options.seed, number);
                println!("replay: --self --replay {}", to_hex(&small.to_bytes()));
                return Err(format!("case {}: {}", number, words));
            }
        }
        progress.tell(number + 1, 0);
    }
    coverage.note(Kind::Control, both_refuse_short_memory()?);
    print!("{}", coverage.table(&[Kind::Control]));
    verdict(&coverage, &[Kind::Control], false, options.cases, 0, &progress)
}

/// 11 comes before anything is read, under either rule.
fn both_refuse_short_memory() -> Result<u32, String> {
    let mut memory = vec![0; MEMORY - 1];
    let mut table = vec![0; TABLE];
    let guarded = machine::run(&[], &[], 1, &mut memory, &mut table, &mut []);
    let plain = plain::run(&[], &[], 1, &mut memory, &mut []);
    match guarded == plain {
        true => Ok(plain.reason),
        false => Err(format!("short memory: instrumented {}, plain {}", guarded, plain)),
    }
}

/// A routine with inputs, room and limit. Both machines are compared after
/// every step, so the runs are kept short.
fn self_case(random: &mut Random) -> Case {
    Case {
        inputs: (0..random.below(9)).map(|_| random.edgy()).collect(),
        room: random.below(12),
        limit: random.pick(&[3, 40, 400, 3_000, 3_000, 3_000]),
        file: cases::routine_file(random),
        ..Case::new(Kind::Control)
    }
}

fn by_lockstep(case: &Case) -> Result<u32, String> {
    let room = case.room as usize;
    let record = same_run(&case.file, &case.inputs, room, case.limit)?;
    Ok(record.reason)
}

/// A file that is read is what is written for what was read.
fn round_trips(file: &[u8]) -> Result<(), String> {
    match read_routine(file) {
        Ok(routine) if routine.write() != file => {
            Err("version 1 is not written as it was read".to_string())
        }
        _ => Ok(()),
    }
}

fn others_are_read_back(random: &mut Random) -> Result<(), String> {
    let file = others::program(random).write();
    match read_instrumented(&file) {
        Ok(program) if program.write() == file => Ok(()),
        Ok(_) => Err("version 2 is not written as it was read".to_string()),
        Err(refusal) => Err(format!("a version 2 file that was written is {}", refusal)),
    }
}

fn replay_alone(word: &str, options: &Options) -> Result<(), String> {
    let case = match case_number(word) {
        Some(number) => self_case(&mut Random::for_case(options.seed, number)),
        None => case_from(word)?,
    };
    describe(&case);
    let record = same_run(&case.file, &case.inputs, case.room as usize, case.limit)?;
    println!("  both runs give {}", record);
    Ok(())
}
