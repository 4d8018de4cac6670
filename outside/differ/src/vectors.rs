//! Stored images, call scripts and Linux lists with their expected answers: NNNN.img with NNNN.out, NNNN.calls, and NNNN.lin with NNNN.linout.

use crate::expected::{call_of, exported, imported};
use crate::images::hex;
use crate::subjects::SUBJECTS;
use model::dispatch::Model;
use model::judge::report;
use std::fs;
use std::path::{Path, PathBuf};

/// What the checking program prints, made of what a judging answers.
pub fn printed(judge: fn(&[u8], &mut [u8]) -> u64, image: &[u8]) -> String {
    let mut out = [0; 1032];
    judge(image, &mut out);
    let u16_at = |at: usize| u16::from_le_bytes([out[at], out[at + 1]]);
    if out[0] != 0 {
        return format!("image {} {}\n", out[0], u16_at(2));
    }
    let mut text = String::new();
    for i in 0..usize::from(u16_at(6)) {
        let at = 8 + 16 * i;
        let charge = u64::from_le_bytes(out[at + 8..at + 16].try_into().unwrap());
        text += &format!("task {} {} {}\n", u16_at(at), out[at + 2], charge);
    }
    text + &format!("verdict {} {}\n", out[1], u16_at(4))
}

/// What could not be done with a file.
fn trouble(path: &Path) -> impl Fn(std::io::Error) -> String + '_ {
    move |e| format!("{}: {e}", path.display())
}

fn unhex(text: &str) -> Vec<u8> {
    (0..text.len() / 2).map(|i| u8::from_str_radix(&text[2 * i..2 * i + 2], 16).unwrap()).collect()
}

/// One line of a call script: its record, the answer, the running task and every task's standing.
struct Line {
    record: [u8; 16],
    answer: u8,
    running: u16,
    standings: Vec<(u16, u8, u64, u8)>,
}

fn parse(line: &str) -> Option<Line> {
    let words: Vec<&str> = line.split_whitespace().collect();
    let arrow = words.iter().position(|w| *w == "->")?;
    let mut record = [0; 16];
    record[0] = ["release", "signal", "withdraw", "acquire", "give", "complete", "block"].iter().position(|n| *n == words[0])? as u8 + 1;
    if arrow > 1 {
        record[2..4].copy_from_slice(&words[1].parse::<u16>().ok()?.to_le_bytes());
    }
    if arrow > 2 {
        record[8..16].copy_from_slice(&words[2].parse::<u64>().ok()?.to_le_bytes());
    }
    let standings = words[arrow + 5..].iter().map(|word| {
        let (number, rest) = word.split_once(':')?;
        let parts: Vec<&str> = rest.split(',').collect();
        Some((number.parse().ok()?, parts[0].parse().ok()?, parts[1].parse().ok()?, parts[2].parse().ok()?))
    });
    Some(Line {
        record,
        answer: words[arrow + 1].parse().ok()?,
        running: words[arrow + 3].parse().ok()?,
        standings: standings.collect::<Option<Vec<_>>>()?,
    })
}

/// The script that asks for every standing after every call, and what each record must answer.
fn expand(lines: &[Line]) -> (Vec<u8>, Vec<u8>) {
    let (mut script, mut wanted) = (Vec::new(), Vec::new());
    for line in lines {
        for (i, (number, queue, deadline, position)) in line.standings.iter().enumerate() {
            let mut record = if i == 0 { line.record } else { [0; 16] };
            record[4..6].copy_from_slice(&number.to_le_bytes());
            script.extend(record);
            let mut part = [0; 32];
            part[0] = if i == 0 { line.answer } else { 255 };
            part[2..4].copy_from_slice(&line.running.to_le_bytes());
            part[5] = *queue;
            part[6] = *position;
            part[8..16].copy_from_slice(&deadline.to_le_bytes());
            wanted.extend(part);
        }
    }
    (script, wanted)
}

/// The image of a call script, which its first line has.
fn image_line(text: &str) -> Result<Vec<u8>, String> {
    Ok(unhex(text.lines().next().and_then(|l| l.strip_prefix("image ")).ok_or("no image line")?.trim()))
}

fn play(path: &Path) -> Result<usize, String> {
    let text = fs::read_to_string(path).map_err(trouble(path))?;
    let image = image_line(&text)?;
    let lines: Option<Vec<Line>> = text.lines().skip(1).filter(|l| !l.trim().is_empty()).map(parse).collect();
    let lines = lines.ok_or_else(|| format!("{}: a line that is no call", path.display()))?;
    let mut model = Model::new(model::image::read(&image).map_err(|r| format!("{}: {r:?}", path.display()))?);
    for (i, line) in lines.iter().enumerate() {
        let answer = model.call(call_of(&line.record).unwrap());
        let standings = model.standings();
        let same = line.standings.iter().zip(&standings).all(|(w, g)| (w.1, w.2, usize::from(w.3)) == *g);
        if answer != line.answer || model.running() != line.running || !same || standings.len() != line.standings.len() {
            return Err(format!("{}: the model differs at call {i}", path.display()));
        }
    }
    let (script, wanted) = expand(&lines);
    for subject in &SUBJECTS {
        let mut out = vec![170; wanted.len()];
        (subject.play)(&image, &script, &mut out);
        if out != wanted {
            return Err(format!("{}: {} differs", path.display(), subject.name));
        }
    }
    Ok(lines.len())
}

fn judge(path: &Path) -> Result<(), String> {
    let image = fs::read(path).map_err(trouble(path))?;
    let wanted = fs::read_to_string(path.with_extension("out")).map_err(trouble(path))?;
    if report(&image) != wanted {
        return Err(format!("{}: the model differs", path.display()));
    }
    for subject in &SUBJECTS {
        if printed(subject.judge, &image) != wanted {
            return Err(format!("{}: {} differs", path.display(), subject.name));
        }
        let mut buffer = vec![170; image.len()];
        let rewritten = (subject.rewrite)(&image, &mut buffer);
        if (rewritten == 0) != !wanted.starts_with("image") || (rewritten == 0 && buffer != image) {
            return Err(format!("{}: {} does not write the image back", path.display(), subject.name));
        }
    }
    Ok(())
}

/// What is told of a list, made of what importing it and exporting its image answer; of a refused one also where a byte was changed.
fn told(import: fn(&[u8], &mut [u8]) -> u64, export: fn(&[u8], &mut [u8]) -> u64, list: &[u8]) -> String {
    let records = list.len() / 48;
    let (mut image, mut written) = (vec![170; 32 * records], vec![170; 48 * records]);
    let answer = import(list, &mut image);
    let text = format!("read {} {}\n", answer % 256, answer / 256);
    if answer != 0 {
        let changed = image.iter().any(|byte| *byte != 170);
        return text + if changed { "a byte was changed\n" } else { "" };
    }
    let number = export(&image, &mut written);
    text + &format!("image {}\nwrite {number}\nlist {}\n", hex(&image), hex(&written))
}

fn list(path: &Path) -> Result<(), String> {
    let list = fs::read(path).map_err(trouble(path))?;
    let answer = path.with_extension("linout");
    let wanted = fs::read_to_string(&answer).map_err(trouble(&answer))?;
    if told(imported, exported, &list) != wanted {
        return Err(format!("{}: the model differs", path.display()));
    }
    for subject in &SUBJECTS {
        if told(subject.import, subject.export, &list) != wanted {
            return Err(format!("{}: {} differs", path.display(), subject.name));
        }
    }
    Ok(())
}

/// Each kind of case, and the kind of the answer beside it, if that has a file of its own.
const CASES: [(&str, Option<&str>); 3] = [("img", Some("out")), ("calls", None), ("lin", Some("linout"))];

/// The images, scripts and lists of a folder; an answer to none of them is an error.
fn cases(folder: &Path) -> Result<Vec<PathBuf>, String> {
    let entries = fs::read_dir(folder).map_err(trouble(folder))?;
    let mut paths: Vec<PathBuf> = entries.filter_map(|entry| entry.ok().map(|e| e.path())).collect();
    paths.sort();
    if let Some(path) = paths.iter().find(|path| lonely(path)) {
        return Err(format!("{}: an answer without its case", path.display()));
    }
    paths.retain(|path| CASES.iter().any(|(case, _)| ends_in(path, case)));
    Ok(paths)
}

/// Whether a file is the answer to a case that is not there.
fn lonely(path: &Path) -> bool {
    CASES.iter().any(|(case, answer)| answer.is_some_and(|ending| ends_in(path, ending)) && !path.with_extension(case).exists())
}

fn ends_in(path: &Path, ending: &str) -> bool {
    path.extension().is_some_and(|e| e == ending)
}

/// Whether an image has a task record with a byte from 12 to 15 that is not zero: before request a) such a record was refused with 4.
fn has_deadline(path: &Path) -> Result<bool, String> {
    let bytes = fs::read(path).map_err(trouble(path))?;
    let image = if ends_in(path, "calls") { image_line(&String::from_utf8_lossy(&bytes))? } else { bytes };
    Ok(image.chunks_exact(32).any(|record| record[0] == 1 && record[12..16] != [0; 4]))
}

/// Runs every case; how many images, calls and lists there were.
fn replay(paths: &[PathBuf]) -> Result<(usize, usize, usize), String> {
    let (mut images, mut calls, mut lists) = (0, 0, 0);
    for path in paths {
        if ends_in(path, "calls") {
            calls += play(path)?;
        } else if ends_in(path, "lin") {
            list(path)?;
            lists += 1;
        } else {
            judge(path)?;
            images += 1;
        }
    }
    Ok((images, calls, lists))
}

/// Runs every case of a folder.
pub fn run(folder: &Path) -> Result<String, String> {
    let (images, calls, lists) = replay(&cases(folder)?)?;
    if images + calls + lists == 0 {
        return Err(format!("{}: no vector", folder.display()));
    }
    Ok(format!("vectors: {images} images, {calls} calls and {lists} lists, no difference"))
}

/// Runs those cases of a folder from before request a) that have no task record with a deadline: what they answered then, they answer now.
pub fn run_old(folder: &Path) -> Result<String, String> {
    let all = cases(folder)?;
    let mut kept = Vec::new();
    for path in &all {
        if !has_deadline(path)? {
            kept.push(path.clone());
        }
    }
    let (images, calls, _) = replay(&kept)?;
    if images == 0 || calls == 0 {
        return Err(format!("{}: no image or no call script without a deadline", folder.display()));
    }
    let left = all.len() - kept.len();
    Ok(format!("old vectors: {images} images and {calls} calls without a deadline, no difference; {left} with one left out"))
}
