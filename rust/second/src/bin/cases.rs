//! Writes the cases of the programs `crates/check_NAME` and this engine's
//! answers to them.

use second::cases::PROGRAMS;
use std::fs;
use std::path::Path;
use std::process::ExitCode;

const USAGE: &str = "\
usage: cases DIR

Writes the cases of every program crates/check_NAME and the second engine's
answers to DIR/check_NAME/stdin and stdout, and counts them.";

fn main() -> ExitCode {
    cli::run(USAGE, |mut args| {
        let dir = args.word("DIR")?;
        args.end()?;
        for (name, groups) in PROGRAMS {
            let (mut asked, mut told) = (String::new(), String::new());
            for (group, make) in groups {
                let cases = make();
                println!("check_{name}: {} cases, {group}", cases.len());
                for (line, answer) in cases {
                    asked += &(line + "\n");
                    told += &(answer + "\n");
                }
            }
            let folder = Path::new(&dir).join(format!("check_{name}"));
            fs::create_dir_all(&folder)?;
            fs::write(folder.join("stdin"), asked)?;
            fs::write(folder.join("stdout"), told)?;
        }
        Ok(())
    })
}
