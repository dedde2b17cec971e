//! Kills the program while it writes an image file, again and again, and looks at what is left with an old machine of its own.
//! It shares no code with the program: what it knows of the format is in `read_disk`, straight from the rules.
//!
//! crash PROGRAM KILLS FOLDER: stops once so many runs were killed before their end. Status 0 if every image was right.

use std::collections::BTreeMap;
use std::env;
use std::fs;
use std::io::Write;
use std::path::{Path, PathBuf};
use std::process::{Command, ExitCode, Stdio};
use std::thread::sleep;
use std::time::Duration;

type Files = BTreeMap<Vec<u8>, Vec<u8>>;

/// The files of a disk, or what is wrong with it.
fn read_disk(disk: &[u8]) -> Result<Files, String> {
    let blocks = disk.len() / 64;
    if disk.len() % 64 != 0 || !(9..=250).contains(&blocks) {
        return Err(format!("{} bytes", disk.len()));
    }
    let mut files = Files::new();
    let mut taken = vec![false; blocks];
    for i in 0..16 {
        let entry = &disk[32 * i..32 * i + 32];
        if entry[0] > 1 {
            return Err(format!("entry {i} begins with {}", entry[0]));
        }
        if entry[0] == 0 {
            continue;
        }
        let len = usize::from(entry[12]) + 256 * usize::from(entry[13]);
        if len > 1024 {
            return Err(format!("entry {i} has {len} bytes"));
        }
        let mut file = Vec::new();
        for &number in &entry[14..14 + len.div_ceil(64)] {
            let b = usize::from(number);
            if b < 8 || b >= blocks || taken[b] {
                return Err(format!("entry {i} has block {b}"));
            }
            taken[b] = true;
            file.extend_from_slice(&disk[64 * b..64 * b + 64]);
        }
        file.truncate(len);
        if files.insert(entry[1..12].to_vec(), file).is_some() {
            return Err(format!("entry {i} has a name that is there before"));
        }
    }
    Ok(files)
}

/// Numbers that look random, the same for the same seed.
struct Random(u64);

impl Random {
    fn next(&mut self) -> u64 {
        self.0 ^= self.0 << 13;
        self.0 ^= self.0 >> 7;
        self.0 ^= self.0 << 17;
        self.0
    }

    fn below(&mut self, n: u64) -> u64 {
        self.next() % n
    }
}

/// A name that may be put or taken away, filled up with blanks.
fn name(i: u64) -> Vec<u8> {
    let mut name = format!("PATTERN {i}").into_bytes();
    name.resize(11, b' ');
    name
}

/// The text of some requests, and the files after each of them.
fn requests(random: &mut Random, before: &Files, blocks: usize) -> (String, Vec<Files>) {
    let mut text = String::new();
    let mut after = vec![before.clone()];
    for _ in 0..12 {
        let mut files = after[after.len() - 1].clone();
        let i = random.below(20);
        if random.below(4) == 0 {
            text += &format!("away PATTERN {i}\n");
            files.remove(&name(i));
        } else {
            let lengths = [0, 1, 63, 64, 65, 200, 500, 960, 1023, 1024];
            let len = lengths[random.below(10) as usize];
            let content: Vec<u8> = (0..len).map(|_| random.below(256) as u8).collect();
            text += &format!("put PATTERN {i}\n");
            for part in content.chunks(16) {
                for byte in part {
                    text += &format!("{byte:02x} ");
                }
                text += "\n";
            }
            // The new blocks are taken before the old ones are free.
            let used: usize = files.values().map(|f| f.len().div_ceil(64)).sum();
            let fits = content.len().div_ceil(64) <= blocks - 8 - used;
            if fits && (files.contains_key(&name(i)) || files.len() < 16) {
                files.insert(name(i), content);
            }
        }
        after.push(files);
    }
    (text, after)
}

fn run(program: &Path, image: &Path, text: &str, wait: Duration) -> Result<bool, String> {
    let mut child = Command::new(program)
        .arg(image)
        .stdin(Stdio::piped())
        .stdout(Stdio::null())
        .spawn()
        .map_err(|e| e.to_string())?;
    let mut stdin = child.stdin.take().ok_or("no standard input")?;
    stdin.write_all(text.as_bytes()).map_err(|e| e.to_string())?;
    drop(stdin);
    sleep(wait);
    let running = child.try_wait().map_err(|e| e.to_string())?.is_none();
    if running {
        child.kill().map_err(|e| e.to_string())?;
    }
    child.wait().map_err(|e| e.to_string())?;
    Ok(running)
}

fn trial(program: &Path, folder: &Path, wanted: u64) -> Result<(u64, u64, u64), String> {
    let blocks = 60;
    let image: PathBuf = folder.join("crash.img");
    fs::write(&image, vec![0; 64 * blocks]).map_err(|e| e.to_string())?;
    let mut random = Random(0x1981_0007_2026_1118);
    let mut files = Files::new();
    let (mut runs, mut kills, mut inside) = (0, 0, 0);
    // How long a whole run takes on this machine.
    let mut longest = 4000;
    while kills < wanted {
        if runs == 40 * wanted {
            return Err(format!("only {kills} of {runs} runs were killed"));
        }
        let (text, after) = requests(&mut random, &files, blocks);
        let wait = Duration::from_micros(random.below(longest));
        let killed = run(program, &image, &text, wait)?;
        runs += 1;
        if killed {
            kills += 1;
            longest += longest / 8;
        } else {
            longest = (longest - longest / 8).max(400);
        }
        let disk = fs::read(&image).map_err(|e| e.to_string())?;
        let left = read_disk(&disk).map_err(|e| format!("run {runs}: not sound: {e}"))?;
        let Some(done) = after.iter().position(|files| *files == left) else {
            return Err(format!("run {runs}: files that no number of requests leaves"));
        };
        if !killed && after[after.len() - 1] != left {
            return Err(format!("run {runs}: not all was done, and it was not killed"));
        }
        if killed && done > 0 && done + 1 < after.len() {
            inside += 1;
        }
        files = left;
    }
    Ok((runs, kills, inside))
}

fn main() -> ExitCode {
    let args: Vec<String> = env::args().collect();
    let [_, program, kills, folder] = &args[..] else {
        eprintln!("usage: crash PROGRAM KILLS FOLDER");
        return ExitCode::FAILURE;
    };
    let kills = kills.parse().unwrap_or(100);
    match trial(Path::new(program), Path::new(folder), kills) {
        Ok((runs, kills, inside)) => {
            println!("crash: {runs} runs, {kills} killed, {inside} of them between two requests or within one: every image sound, every file as it was or as it is to be");
            println!("1 passed, 0 failed");
            ExitCode::SUCCESS
        }
        Err(what) => {
            println!("crash: {what}");
            println!("0 passed, 1 failed");
            ExitCode::FAILURE
        }
    }
}
