//! Holds docs/FORMAT.md to a program: each row of its tables, and a reader of
//! files made from them.

use independent::sheet::hold::Holding;
use std::path::Path;
use std::process::ExitCode;

const USAGE: &str = "\
use: sheet ROOT CMD
  ROOT is the repository; CMD starts a program that reads cases and writes answers
  (PROTOCOL.md)";

/// So many differences are told; more would not tell more.
const SHOWN: usize = 20;

fn main() -> ExitCode {
    let words: Vec<String> = std::env::args().skip(1).collect();
    let (root, command) = match &words[..] {
        [root, command] => (Path::new(root), command),
        _ => {
            eprintln!("{}", USAGE);
            return ExitCode::from(2);
        }
    };
    let page = root.join("docs/FORMAT.md");
    let held = Holding::new(root, &page, command).and_then(|mut holding| {
        holding.hold()?;
        Ok(holding)
    });
    match held {
        Ok(holding) => {
            for words in holding.failed.iter().take(SHOWN) {
                println!("FAILED: {}", words);
            }
            println!("{} files were given to both readers", holding.files);
            println!("{} passed, {} failed", holding.passed, holding.failed.len());
            ExitCode::from(u8::from(!holding.failed.is_empty()))
        }
        Err(words) => {
            println!("FAILED: {}", words);
            println!("0 passed, 1 failed");
            ExitCode::FAILURE
        }
    }
}
