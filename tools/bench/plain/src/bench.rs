//! `bench [FRAMES ..] [--reps N]`: the generated scenes, on one thread and on all cores; then some
//! fill scenes.

use crate::play;
use crate::render::{Out, Renderer};
use crate::scene;
use std::time::{Duration, Instant};

struct Run {
    total: Duration,
    record: Duration,
    render: Duration,
    /// seconds on a processor, of the calling thread alone
    cpu: f64,
}

/// Nanoseconds that this thread was on a processor, where the system tells it: a measure that other
/// programs on the machine disturb less.
fn on_cpu() -> Option<f64> {
    let s = std::fs::read_to_string("/proc/thread-self/schedstat").ok()?;
    s.split(' ').next()?.parse().ok()
}

fn one(sc: &scene::Scene, threads: usize) -> (Run, u32, u64) {
    let mut r = Renderer::new(sc.width, sc.height, Out::Sum(0), threads);
    let t = Instant::now();
    let c = on_cpu();
    let n = if threads == 1 { play::run_single(sc, &mut r, false, None) } else { play::run_threads(sc, &mut r, false) };
    let total = t.elapsed();
    let cpu = if let (Some(a), Some(b)) = (c, on_cpu()) { (b - a) / 1e9 } else { 0.0 };
    let Out::Sum(sum) = r.out else { unreachable!() };
    (Run { total, record: n.record, render: r.busy, cpu }, sum, n.items.iter().map(|i| *i as u64).sum())
}

fn best(sc: &scene::Scene, threads: usize, reps: usize) -> (Run, u32, u64) {
    let mut b = one(sc, threads);
    for _ in 1..reps {
        let r = one(sc, threads);
        if r.0.total < b.0.total {
            b = r;
        }
    }
    b
}

pub fn bench(args: &[String]) {
    let mut counts: Vec<u32> = Vec::new();
    let mut reps = None;
    let mut i = 0;
    while i < args.len() {
        if args[i] == "--reps" {
            reps = args.get(i + 1).and_then(|s| s.parse().ok());
            i += 1;
        } else if let Ok(n) = args[i].parse() {
            counts.push(n);
        }
        i += 1;
    }
    if counts.is_empty() {
        counts = vec![1, 8, 64, 512];
    }
    let cores = std::env::var("PLAIN_THREADS")
        .ok()
        .and_then(|s| s.parse().ok())
        .unwrap_or(std::thread::available_parallelism().map_or(1, |n| n.get()));
    println!("frames mode    total_ms   us/frame  frames/s    draws/s      pixels/s   record_ms render_ms | parse_ms parse_MB/s");
    for n in counts {
        let reps: usize = reps.unwrap_or((256 / n as usize).clamp(3, 32));
        let text = scene::make_text(n);
        let mut parse = Duration::MAX;
        let mut sc = None;
        for _ in 0..reps {
            let t = Instant::now();
            sc = scene::read(&text).ok();
            parse = parse.min(t.elapsed());
        }
        let sc = sc.expect("a scene");
        let mut single = 0.0;
        for threads in [1, cores] {
            let (r, sum, items) = best(&sc, threads, reps);
            let s = r.total.as_secs_f64();
            let ms = |d: Duration| d.as_secs_f64() * 1e3;
            let (frames, draws) = (n as f64 / s, items as f64 / s);
            println!(
                "{n:6} {:7} {:8.3} {:10.1} {frames:9.0} {draws:11.0} {:13.0} {:10.3} {:9.3} | {:8.3} {:10.0}  sum {sum}{}",
                if threads == 1 { "single".to_string() } else { format!("all({threads})") },
                ms(r.total),
                s * 1e6 / n as f64,
                frames * 307200.0,
                ms(r.record),
                ms(r.render),
                ms(parse),
                text.len() as f64 / 1e6 / parse.as_secs_f64(),
                if threads == 1 { format!("  on cpu {:.1} us/frame", r.cpu * 1e6 / n as f64) } else { format!("  speed-up {:.2}", single / s) }
            );
            if threads == 1 {
                single = s;
            }
        }
    }
}

/// A scene of full-size layers: each is two triangles over the whole 640 by 480 target.
fn fill_text(layers: u32, frames: u32, state: u64, program: &str, vary: bool, cells: i64) -> Vec<u8> {
    use std::fmt::Write;
    let mut t = String::from("scene 1\nsize 640 480\nencoders 1\nroom 8191 1048576 8191\n");
    let mut tex = String::new();
    for i in 0..64 * 64u32 {
        write!(tex, "{:08x}", i.wrapping_mul(0x9E37_79B9) | 0xff).unwrap();
    }
    for f in 0..frames {
        t.push_str("frame\n");
        if f == 0 {
            t.push_str("layout q position:fixed:3 color0:u8:4 texcoord0:fixed:2\nuniform u_color vec4\n");
            writeln!(t, "program s {program}\ntexture x 64 64 rgba8 - hex:{tex}\nview 0 clear 7 000000ff 16777215 0\nview 0 mode sequential").unwrap();
        }
        t.push_str("encoder 0\nset u_color 30000 20000 50000 40000\n");
        for l in 0..layers {
            let mut v = String::new();
            for cy in 0..cells {
                for cx in 0..cells {
                    let x = |i: i64| (-65536 + 131072 * i / cells) as i32;
                    for (i, j, k) in [(0, 0, 0u32), (1, 0, 1), (1, 1, 2), (0, 0, 0), (1, 1, 2), (0, 1, 3)] {
                        let (px, py) = (x(cx + i), -x(cy + j));
                        let z = if vary { 60000 - 900 * l as i32 - 1000 * k as i32 } else { 60000 - 900 * l as i32 };
                        let c = if vary { [255, 40 * k, 255 - 60 * k, 100 + 40 * k] } else { [200, 100, 50, 128] };
                        for b in [px, py, z] {
                            write!(v, "{:08x}", b.swap_bytes()).unwrap();
                        }
                        for b in c {
                            write!(v, "{:02x}", b as u8).unwrap();
                        }
                        for b in [i as i32 * 200000, j as i32 * 150000] {
                            write!(v, "{:08x}", b.swap_bytes()).unwrap();
                        }
                    }
                }
            }
            writeln!(t, "state {state}\nbind 0 x\ntvertices q {v}\nsubmit 0 s 0 255").unwrap();
        }
    }
    t.push_str("done\n");
    t.into_bytes()
}

pub fn fill() {
    let depth = 1u64 << 38 | 1 << 4;
    let over = 0x656_5000u64;
    let cases: [(&str, u64, &str, bool); 8] = [
        ("solid, no depth", 15, "solid", false),
        ("solid, depth constant", 15 | depth, "solid", false),
        ("solid, depth sloped", 15 | depth, "solid", true),
        ("solid, alpha over", 15 | over, "solid", false),
        ("vertex colour", 15, "color", true),
        ("vertex colour, depth sloped", 15 | depth, "color", true),
        ("texture", 15, "texture", true),
        ("texture*colour, depth, over", 15 | depth | over, "texcolor", true),
    ];
    let cores = std::env::var("PLAIN_THREADS").ok().and_then(|s| s.parse().ok()).unwrap_or(4);
    println!("layers of 640x480, 20 a frame, 4 frames; pixels/s (millions), of which each is tested and written");
    println!("{:30} {:>12} {:>12} {:>14} {:>14}", "", "2 tri single", "2 tri all", "800 tri single", "800 tri all");
    for (name, state, program, vary) in cases {
        let mut out = Vec::new();
        for cells in [1, 20] {
            let sc = scene::read(&fill_text(20, 4, state, program, vary, cells)).expect("a scene");
            for threads in [1, cores] {
                let (r, _, _) = best(&sc, threads, 5);
                let t = if threads == 1 && r.cpu > 0.0 { r.cpu } else { r.render.as_secs_f64() };
                out.push(20.0 * 4.0 * 307200.0 / t / 1e6);
            }
        }
        println!("{name:30} {:12.0} {:12.0} {:14.0} {:14.0}", out[0], out[1], out[2], out[3]);
    }
}
