//! What the numbers were taken on.

use std::fs::read_to_string;

/// The processor and its cores.
pub fn describe() -> String {
    let cores = std::thread::available_parallelism().map_or(0, |n| n.get());
    let word = if cores == 1 { "core" } else { "cores" };
    let (name, kind) = (processor(), std::env::consts::ARCH);
    format!("{name} ({kind}), {cores} {word}")
}

/// How many programs wanted a core in the last minute.
pub fn load() -> String {
    let load = read_to_string("/proc/loadavg").unwrap_or_default();
    load.split(' ').next().unwrap_or("unknown").to_string()
}

/// The processor's name: x86-64 has it in cpuinfo, Arm only numbers there.
fn processor() -> String {
    let info = read_to_string("/proc/cpuinfo").unwrap_or_default();
    let field = |name: &str| {
        let line = info.lines().find(|line| line.starts_with(name))?;
        Some(line.split_once(':')?.1.trim().to_string())
    };
    let parts = || {
        let (maker, part) = (field("CPU implementer")?, field("CPU part")?);
        Some(format!("maker {maker}, part {part}"))
    };
    // The name alone is that of many processors.
    let numbered = || {
        let numbers = ["cpu family", "model", "stepping", "cpu MHz"].map(field);
        let [Some(family), Some(model), Some(stepping), Some(clock)] = numbers else {
            return None;
        };
        let (name, clock) = (field("model name")?, clock.split('.').next()?.to_string());
        Some(format!(
            "{name}, family {family}, model {model}, stepping {stepping}, {clock} MHz"
        ))
    };
    numbered()
        .or_else(|| field("model name"))
        .or_else(parts)
        .unwrap_or("an unnamed processor".into())
}
