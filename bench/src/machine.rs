//! Where and with what it was measured.

use std::fs;
use std::process::Command;

pub struct Machine {
    pub processor: String,
    pub kernel: String,
    pub rustc: String,
    pub rt: String,
}

pub fn describe() -> Machine {
    let cpuinfo = fs::read_to_string("/proc/cpuinfo").unwrap_or_default();
    let of = |name: &str| {
        let line = cpuinfo.lines().find(|line| line.starts_with(name));
        let value = line.and_then(|line| line.split(':').nth(1));
        value.unwrap_or("unknown").trim().to_string()
    };
    let count = cpuinfo
        .lines()
        .filter(|line| line.starts_with("processor"))
        .count();
    let kernel = fs::read_to_string("/proc/sys/kernel/osrelease").unwrap_or_default();
    Machine {
        processor: format!(
            "{} (family {}, model {}, {} of cache), {count} processors",
            of("model name"),
            of("cpu family"),
            of("model\t"),
            of("cache size"),
        ),
        kernel: format!("Linux {}", kernel.trim()),
        rustc: said("rustc", &["--version"]),
        rt: said("rt", &["version"]),
    }
}

fn said(program: &str, words: &[&str]) -> String {
    let output = Command::new(program).args(words).output();
    match output {
        Ok(output) => String::from_utf8_lossy(&output.stdout).trim().to_string(),
        Err(_) => "unknown".to_string(),
    }
}

/// The octets of all .text sections of an archive, as `size -A` gives them.
pub fn text_size(archive: &str) -> Option<u64> {
    let listed = said("size", &["-A", archive]);
    let sizes = listed.lines().filter_map(|line| {
        let mut words = line.split_whitespace();
        let name = words.next()?;
        let is_text = name == ".text" || name.starts_with(".text.");
        is_text.then(|| words.next()?.parse::<u64>().ok()).flatten()
    });
    let sizes: Vec<u64> = sizes.collect();
    (!sizes.is_empty()).then(|| sizes.iter().sum())
}
