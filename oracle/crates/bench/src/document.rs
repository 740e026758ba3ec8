//! docs/SPEED.md: the parts between its marks are written anew, the rest stays.

use std::path::Path;
use std::process::Command;
use std::{env, fs, io, thread};

/// Puts each text between `<!-- begin NAME -->` and `<!-- end NAME -->`.
pub fn write(folder: &Path, parts: &[(&str, String)]) -> io::Result<()> {
    let file = folder.join("SPEED.md");
    let mut text = fs::read_to_string(&file)?;
    for (name, part) in parts {
        let (begin, end) = (
            format!("<!-- begin {name} -->\n"),
            format!("<!-- end {name} -->"),
        );
        let missing = || io::Error::other(format!("no mark {name}"));
        let (before, rest) = text.split_once(&begin).ok_or_else(missing)?;
        let (_, after) = rest.split_once(&end).ok_or_else(missing)?;
        text = format!("{before}{begin}{part}{end}{after}");
    }
    fs::write(file, text)
}

/// The machine's kind, the tools and the date.
pub fn machine() -> String {
    let cpus = fs::read_to_string("/proc/cpuinfo").unwrap_or_default();
    let memory = fs::read_to_string("/proc/meminfo").unwrap_or_default();
    let field = |text: &str, name: &str| {
        let line = text.lines().find(|line| line.starts_with(name));
        let value = line.and_then(|line| line.split_once(':'));
        value.map_or("unknown".into(), |(_, value)| value.trim().to_string())
    };
    let kilobytes = field(&memory, "MemTotal").replace(" kB", "");
    let gigabytes = kilobytes.parse::<f64>().unwrap_or(0.0) / 1024.0 / 1024.0;
    let cores = thread::available_parallelism().map_or(0, usize::from);
    format!(
        "{} (family {}, model {}, cache {}), {cores} cores, {gigabytes:.0} GiB; {}; {}; {}.\n",
        field(&cpus, "model name"),
        field(&cpus, "cpu family"),
        field(&cpus, "model\t"),
        field(&cpus, "cache size"),
        first_line("rustc"),
        first_line("gcc"),
        env::var("BENCH_DATE").unwrap_or_else(|_| "no date".into()),
    )
}

/// What a program says of its version.
fn first_line(program: &str) -> String {
    let output = Command::new(program).arg("--version").output();
    let text = output.map(|output| String::from_utf8_lossy(&output.stdout).into_owned());
    text.ok()
        .and_then(|text| Some(text.lines().next()?.to_string()))
        .unwrap_or_else(|| format!("no {program}"))
}
