mod bench;
#[cfg(test)]
mod check;
mod ctx;
mod play;
mod pool;
mod raster;
mod render;
mod scene;

use render::{Out, Renderer};
use std::io::{Read, Write};
use std::process::exit;

const LIMIT: u64 = 16_777_216;

pub fn band_threads() -> usize {
    match std::env::var("PLAIN_THREADS").ok().and_then(|s| s.parse::<usize>().ok()) {
        Some(n) => n.clamp(1, 256),
        None => std::thread::available_parallelism().map_or(1, |n| n.get()),
    }
}

struct Words {
    mode: String,
    journal: bool,
    count: u32,
}

/// One positional, one flag, one option, as clap's simple command takes them.
fn words(args: &[String]) -> Option<Words> {
    let mut mode = None;
    let mut journal = false;
    let mut count = None;
    let mut only_positional = false;
    let mut i = 0;
    while i < args.len() {
        let a = args[i].as_str();
        i += 1;
        if !only_positional && a == "--" {
            only_positional = true;
        } else if !only_positional && a == "--journal" {
            if journal {
                return None;
            }
            journal = true;
        } else if !only_positional && (a == "--count" || a.starts_with("--count=")) {
            let v = match a.strip_prefix("--count=") {
                Some(v) => v,
                None => {
                    let v = args.get(i)?.as_str();
                    i += 1;
                    v
                }
            };
            if count.is_some() || v.is_empty() || !v.bytes().all(|b| b.is_ascii_digit()) || (v.len() > 1 && v.starts_with('0')) {
                return None;
            }
            count = Some(v.parse::<u32>().ok().filter(|n| (1..=512).contains(n))?);
        } else if (!only_positional && a.starts_with('-') && a != "-") || mode.is_some() {
            return None;
        } else if ["play", "replay", "make"].contains(&a) {
            mode = Some(a.to_string());
        } else {
            return None;
        }
    }
    Some(Words { mode: mode?, journal, count: count.unwrap_or(8) })
}

fn notes(text: &[u8]) -> bool {
    std::io::stderr().write_all(text).is_ok()
}

fn fail(status: i32, text: &str) -> ! {
    notes(text.as_bytes());
    exit(status)
}

fn main() {
    let args: Option<Vec<String>> = std::env::args_os().skip(1).map(|a| a.into_string().ok()).collect();
    let args = args.unwrap_or_default();
    match args.first().map(|s| s.as_str()) {
        Some("bench") if args.get(1).is_some_and(|a| a == "fill") => return bench::fill(),
        Some("bench") => return bench::bench(&args[1..]),
        Some("maketext") => {
            let n = args.get(1).and_then(|s| s.parse().ok()).unwrap_or(8);
            let _ = std::io::stdout().write_all(&scene::make_text(n));
            return;
        }
        _ => (),
    }
    let Some(w) = words(&args) else { fail(1, "usage: gfx_play MODE [--journal] [--count N]\n") };
    if w.mode == "make" {
        let sc = scene::make_scene(w.count);
        let mut r = Renderer::new(sc.width, sc.height, Out::Sum(0), band_threads());
        let n = play::run_threads(&sc, &mut r, false);
        let items: u64 = n.items.iter().map(|i| *i as u64).sum();
        let Out::Sum(sum) = r.out else { unreachable!() };
        let ok = notes(format!("frames {} items {} sum {}\n", w.count, items, sum).as_bytes());
        exit(if ok { 0 } else { 5 });
    }
    let mut input = Vec::new();
    if std::io::stdin().lock().take(LIMIT + 1).read_to_end(&mut input).is_err() {
        exit(3);
    }
    if input.len() as u64 > LIMIT {
        fail(6, "input is longer than 16777216 bytes\n");
    }
    let replay = w.mode == "replay";
    let got = if replay { scene::read_front(&input) } else { scene::read(&input).map(|s| (s, input.len())) };
    let (sc, at) = match got {
        Ok(g) => g,
        Err(f) => fail(2, &format!("scene refused at line {} for cause {}\n", f.line, f.cause)),
    };
    let mut r = Renderer::new(sc.width, sc.height, Out::stdout(), band_threads());
    let n = if replay {
        let j = scene::read_journal(&input[at..], sc.frames.len()).and_then(|j| play::judge(&sc, &j).map(|()| j));
        match j {
            Err(p) => fail(7, &format!("journal refused at entry {p}\n")),
            Ok(j) => play::run_single(&sc, &mut r, w.journal, Some(&j)),
        }
    } else {
        play::run_threads(&sc, &mut r, w.journal)
    };
    if n.failed {
        exit(4);
    }
    let mut text = Vec::new();
    for k in 0..n.items.len() {
        text.extend_from_slice(b"frame ");
        scene::put_num(&mut text, k as u64);
        text.extend_from_slice(b" items ");
        scene::put_num(&mut text, n.items[k] as u64);
        text.extend_from_slice(b" dropped ");
        scene::put_num(&mut text, n.dropped[k] as u64);
        text.push(b'\n');
    }
    if w.journal {
        play::journal_text(&n.journal, &mut text);
    }
    let ok = notes(&text);
    exit(if ok { 0 } else { 5 });
}
