//! The rasteriser against the rules of docs/rules, written down pixel by pixel.

use crate::ctx::{state_ok, stencil_ok, Layout};
use crate::raster::*;

struct Rng(u64);

impl Rng {
    fn next(&mut self) -> u64 {
        self.0 ^= self.0 << 13;
        self.0 ^= self.0 >> 7;
        self.0 ^= self.0 << 17;
        self.0.wrapping_mul(0x2545_F491_4F6C_DD1D) >> 11
    }
    fn below(&mut self, n: u64) -> u64 {
        self.next() % n
    }
    fn pick<T: Copy>(&mut self, l: &[T]) -> T {
        l[self.below(l.len() as u64) as usize]
    }
}

fn comp(b: &[u8], kind: u8, k: usize) -> i128 {
    match kind {
        0 => b[k] as i128 * 65536 / 255,
        1 => 2 * i16::from_le_bytes([b[2 * k], b[2 * k + 1]]) as i128,
        _ => i32::from_le_bytes([b[4 * k], b[4 * k + 1], b[4 * k + 2], b[4 * k + 3]]) as i128,
    }
}

#[derive(Clone, Copy, Debug)]
struct V {
    x: i128,
    y: i128,
    z: i128,
    c: [i128; 4],
    t: [i128; 2],
}

fn place(bytes: &[u8], l: &Layout, i: usize, models: [&[i32; 12]; 2], rect: [i128; 4]) -> Option<V> {
    let s = l.stride as usize;
    if (i + 1) * s > bytes.len() {
        return None;
    }
    let v = &bytes[i * s..(i + 1) * s];
    let get = |a: (u8, u8, u8), k: usize| if k < a.2 as usize { Some(comp(&v[a.0 as usize..], a.1, k)) } else { None };
    let mut p = [0, 1, 2].map(|k| get(l.pos, k).unwrap_or(0));
    for m in models {
        let q = p;
        for r in 0..3 {
            let s = m[4 * r] as i128 * q[0] + m[4 * r + 1] as i128 * q[1] + m[4 * r + 2] as i128 * q[2] + m[4 * r + 3] as i128 * 65536;
            p[r] = s.div_euclid(65536).clamp(i32::MIN as i128, i32::MAX as i128);
        }
    }
    if p[0].abs() > 524288 || p[1].abs() > 524288 || p[2] < 0 || p[2] > 65536 {
        return None;
    }
    let c = [0, 1, 2, 3].map(|k| match get(l.color, k) {
        Some(v) => (v.clamp(0, 65536) * 255 + 32768) / 65536,
        None if l.color.2 == 0 || k == 3 => 255,
        None => 0,
    });
    Some(V {
        x: 256 * rect[0] + ((p[0] + 65536) * rect[2]).div_euclid(512),
        y: 256 * rect[1] + ((65536 - p[1]) * rect[3]).div_euclid(512),
        z: p[2] * 16777215 / 65536,
        c,
        t: [get(l.uv, 0).unwrap_or(0), get(l.uv, 1).unwrap_or(0)],
    })
}

fn test(t: u64, a: i128, b: i128) -> bool {
    match t {
        1 => a < b,
        2 => a <= b,
        3 => a == b,
        4 => a >= b,
        5 => a > b,
        6 => a != b,
        7 => false,
        _ => true,
    }
}

fn mul(a: i128, b: i128) -> i128 {
    (a * b + 127) / 255
}

fn stencil(op: u32, s: i128, r: i128) -> i128 {
    match op {
        0 => 0,
        1 => s,
        2 => r,
        3 => (s + 1) % 256,
        4 => (s + 1).min(255),
        5 => (s + 255) % 256,
        6 => (s - 1).max(0),
        _ => 255 - s,
    }
}

fn pixel(color: &mut u32, depth: Option<&mut u32>, src: [i128; 4], z: i128, w: u64, st: u32) {
    let mut dw = depth.as_ref().map(|d| **d);
    if let Some(d) = dw.as_mut() {
        let (mut sd, mut ss) = ((*d & 0xff_ffff) as i128, (*d >> 24) as i128);
        let mut go = true;
        let (r, m) = ((st & 255) as i128, (st >> 8 & 255) as i128);
        if st != 0 && !test((st >> 16 & 15) as u64, r & m, ss & m) {
            ss = stencil(st >> 20 & 15, ss, r);
            go = false;
        } else if !test(w >> 4 & 15, z, sd) {
            if st != 0 {
                ss = stencil(st >> 24 & 15, ss, r);
            }
            go = false;
        } else {
            if st != 0 {
                ss = stencil(st >> 28, ss, r);
            }
            if w >> 38 & 1 == 1 {
                sd = z;
            }
        }
        *d = sd as u32 | (ss as u32) << 24;
        *depth.unwrap() = *d;
        if !go {
            return;
        }
    }
    let d = color.to_le_bytes().map(|b| b as i128);
    let mut out = src;
    if w >> 12 & 15 != 0 {
        for k in 0..4 {
            let (fs, fd, eq) = if k < 3 { (w >> 12 & 15, w >> 16 & 15, w >> 28 & 7) } else { (w >> 20 & 15, w >> 24 & 15, w >> 31 & 7) };
            let f = |f: u64| match f {
                1 => 0,
                2 => 255,
                3 => src[k],
                4 => 255 - src[k],
                5 => src[3],
                6 => 255 - src[3],
                7 => d[3],
                8 => 255 - d[3],
                9 => d[k],
                10 => 255 - d[k],
                _ => {
                    if k < 3 {
                        src[3].min(255 - d[3])
                    } else {
                        255
                    }
                }
            };
            let (s, t) = (mul(src[k], f(fs)), mul(d[k], f(fd)));
            out[k] = match eq {
                0 => (s + t).min(255),
                1 => (s - t).max(0),
                2 => (t - s).max(0),
                3 => src[k].min(d[k]),
                _ => src[k].max(d[k]),
            };
        }
    }
    let mut b = color.to_le_bytes();
    for k in 0..4 {
        if w >> k & 1 == 1 {
            b[k] = out[k] as u8;
        }
    }
    *color = u32::from_le_bytes(b);
}

#[test]
fn raster_is_exact() {
    let mut r = Rng(0x1234_5678_9abc_def1);
    let mut touched = 0u64;
    let rounds: usize = std::env::var("ROUNDS").ok().and_then(|s| s.parse().ok()).unwrap_or(40_000);
    for round in 0..rounds {
        let most = if round % 64 == 0 { 250 } else { 24 };
        let (w, h) = (1 + r.below(most) as i32, 1 + r.below(most) as i32);
        let with_depth = r.below(3) > 0;
        let mut color: Vec<u32> = (0..w * h).map(|_| r.next() as u32).collect();
        let mut depth: Vec<u32> = (0..w * h).map(|_| (r.pick(&[0u64, 8388607, 16777215, 5000000]) as u32) | (r.pick(&[0u64, 1, 255, 7]) as u32) << 24).collect();
        let full = r.below(2) == 0;
        let rect = if full {
            [0, 0, w as i128, h as i128]
        } else if r.below(8) == 0 {
            [r.below(65536) as i128, r.below(3) as i128, r.below(65536) as i128, 65535]
        } else {
            [r.below(w as u64) as i128, r.below(h as u64) as i128, r.below(40) as i128, 1 + r.below(40) as i128]
        };
        let kinds = [r.below(3) as u8, r.pick(&[0u8, 0, 1, 2]), r.pick(&[2u8, 2, 2, 1, 0])];
        let counts = [1 + r.below(4) as u8, r.below(5) as u8, r.below(5) as u8];
        let size = |k: usize| [1u8, 2, 4][kinds[k] as usize] * counts[k];
        let l = Layout {
            stride: size(0) + size(1) + size(2) + 1,
            pos: (1, kinds[0], counts[0]),
            color: (1 + size(0), kinds[1], counts[1]),
            uv: (1 + size(0) + size(1), kinds[2], counts[2]),
        };
        let n = r.below(10) as usize;
        let mut bytes = vec![0u8; n * l.stride as usize + r.below(3) as usize];
        let grid = r.below(2) == 0;
        let same = r.below(3) == 0;
        for i in 0..n {
            let v = &mut bytes[i * l.stride as usize..][..l.stride as usize];
            v.iter_mut().for_each(|b| *b = r.next() as u8);
            if kinds[0] == 2 {
                for k in 0..counts[0].min(3) as usize {
                    let c = match (k, r.below(40)) {
                        (2, 0) => r.pick(&[-1, 65537]),
                        (2, _) => r.pick(&[0, 65536, 30000, 32768, 7]),
                        (_, 0) => r.pick(&[524288, -524288, 524289, -524289, i32::MAX, i32::MIN]),
                        (_, 1..=4) => (r.below(1048577) as i32) - 524288,
                        _ if grid => (r.below(17) as i32 - 8) * 8192 * r.pick(&[1, 1, 3]),
                        _ => (r.below(300000) as i32) - 150000,
                    };
                    v[1 + 4 * k..5 + 4 * k].copy_from_slice(&c.to_le_bytes());
                }
            }
            if kinds[2] == 2 && r.below(3) > 0 {
                for k in 0..counts[2] as usize {
                    let c = (r.below(400000) as i32) - 200000;
                    let at = l.uv.0 as usize + 4 * k;
                    v[at..at + 4].copy_from_slice(&c.to_le_bytes());
                }
            }
            if same {
                for k in 0..size(1) as usize {
                    v[l.color.0 as usize + k] = 0x60 + k as u8;
                }
            }
        }
        let identity = crate::ctx::IDENTITY;
        let mut tr = || {
            let mut m = identity;
            match r.below(8) {
                0 => m.iter_mut().for_each(|v| *v = r.next() as i32),
                1 => m.iter_mut().for_each(|v| *v = v.wrapping_add((r.below(80000) as i32) - 40000)),
                2 => {
                    m[3] = (r.below(65536) as i32) - 32768;
                    m[0] = -65536;
                }
                _ => (),
            }
            m
        };
        let (model, view) = (tr(), tr());
        let mut cut = [0, 0, w, h];
        if r.below(3) == 0 {
            cut = [r.below(w as u64) as i32, r.below(h as u64) as i32, r.below(w as u64 + 1) as i32, r.below(h as u64 + 1) as i32];
        }
        let state = loop {
            let mut s = 15 | r.below(9) << 4 | r.pick(&[0u64, 1]) << 38 | r.below(3) << 36 | r.below(2) << 48;
            if r.below(4) == 0 {
                s = s & !15 | r.below(16);
            }
            match r.below(4) {
                0 => s |= 0x222_2000 | 0,
                1 => s |= 0x656_5000,
                2 => {
                    for k in 0..4 {
                        s |= (1 + r.below(11)) << (12 + 4 * k);
                    }
                    s |= r.below(5) << 28 | r.below(5) << 31;
                }
                _ => (),
            }
            if state_ok(s) {
                break s;
            }
        };
        let mut sten = || loop {
            if r.below(2) == 0 {
                break 0;
            }
            let s = r.pick(&[0u32, 1, 255, 7]) | r.pick(&[255u32, 1, 0x0f]) << 8 | (1 + r.below(8) as u32) << 16 | (r.below(8) as u32) << 20 | (r.below(8) as u32) << 24 | (r.below(8) as u32) << 28;
            if stencil_ok(s) {
                break s;
            }
        };
        let (front, back) = (sten(), sten());
        let paint = r.below(4) as u8;
        let (tw, th) = (1 + r.below(9) as u32, 1 + r.below(9) as u32);
        let tex: Vec<u32> = (0..tw * th).map(|_| r.next() as u32).collect();
        let solid = r.next() as u32;
        let indexed = r.below(3) == 0;
        let idx: Vec<u8> = (0..r.below(14)).flat_map(|_| (r.below(n as u64 + 2) as u16).to_le_bytes()).collect();
        let nverts = bytes.len() / l.stride as usize;
        let wmask = (0..4).map(|k| if state >> k & 1 == 1 { 0xffu32 << (8 * k) } else { 0 }).sum();
        let tmask = TESTS[(state >> 4 & 15) as usize];
        let p = Prep {
            place: Place {
                x: rect[0] as i64,
                y: rect[1] as i64,
                w: rect[2] as i64,
                h: rect[3] as i64,
                view: if view == identity { std::ptr::null() } else { &view },
                model: if model == identity { std::ptr::null() } else { &model },
            },
            cut,
            paint,
            cull: (state >> 36 & 3) as u8,
            strip: state >> 48 & 1 == 1,
            indexed,
            blended: blend_kind(state) != 0,
            dwrite: state >> 38 & 1 == 1,
            use_depth: with_depth && (tmask != 7 || state >> 38 & 1 == 1),
            has_depth: with_depth,
            tmask,
            bkind: blend_kind(state),
            wmask,
            state,
            front,
            back,
            solid,
            tex: tex.as_ptr(),
            tw,
            th,
            layout: l,
            verts: bytes.as_ptr(),
            nverts: nverts as u64,
            idx: idx.as_ptr(),
            nidx: idx.len() as u64 / 2,
        };
        // the reference
        let (mut rc, mut rd) = (color.clone(), depth.clone());
        let list: Vec<usize> = if indexed { idx.chunks(2).map(|b| b[0] as usize + 256 * b[1] as usize).collect() } else { (0..nverts).collect() };
        let mut tris: Vec<[usize; 3]> = Vec::new();
        if p.strip {
            for t in 0..list.len().saturating_sub(2) {
                tris.push(if t % 2 == 1 { [list[t + 1], list[t], list[t + 2]] } else { [list[t], list[t + 1], list[t + 2]] });
            }
        } else {
            list.chunks_exact(3).for_each(|c| tris.push([c[0], c[1], c[2]]));
        }
        for t in tris {
            let v: Vec<Option<V>> = t.iter().map(|&i| place(&bytes, &l, i, [&model, &view], rect)).collect();
            let (Some(a), Some(mut b), Some(mut c)) = (v[0], v[1], v[2]) else { continue };
            let mut area = (b.x - a.x) * (c.y - a.y) - (b.y - a.y) * (c.x - a.x);
            if area == 0 || (p.cull == 1 && area > 0) || (p.cull == 2 && area < 0) {
                continue;
            }
            let mut word = front;
            if area < 0 {
                area = -area;
                std::mem::swap(&mut b, &mut c);
                if back != 0 {
                    word = back;
                }
            }
            for y in cut[1]..cut[3] {
                for x in cut[0]..cut[2] {
                    let (mx, my) = (256 * x as i128 + 128, 256 * y as i128 + 128);
                    let e = |p: &V, q: &V| (q.x - p.x) * (my - p.y) - (q.y - p.y) * (mx - p.x);
                    let inside = |p: &V, q: &V| e(p, q) > 0 || (e(p, q) == 0 && ((q.y == p.y && q.x > p.x) || q.y < p.y));
                    if !(inside(&a, &b) && inside(&b, &c) && inside(&c, &a)) {
                        continue;
                    }
                    let (wa, wb, wc) = (e(&b, &c), e(&c, &a), e(&a, &b));
                    let at = |va: i128, vb: i128, vc: i128| (wa * va + wb * vb + wc * vc).div_euclid(area);
                    let z = at(a.z, b.z, c.z);
                    let col = [0, 1, 2, 3].map(|k| at(a.c[k], b.c[k], c.c[k]));
                    let uv = [0, 1].map(|k| at(a.t[k], b.t[k], c.t[k]));
                    let tc = (uv[0] * tw as i128).div_euclid(65536).rem_euclid(tw as i128);
                    let tr = (uv[1] * th as i128).div_euclid(65536).rem_euclid(th as i128);
                    let texel = tex[(tr * tw as i128 + tc) as usize].to_le_bytes().map(|b| b as i128);
                    let src = match paint {
                        0 => solid.to_le_bytes().map(|b| b as i128),
                        1 => col,
                        2 => texel,
                        _ => [0, 1, 2, 3].map(|k| mul(texel[k], col[k])),
                    };
                    let i = (y * w + x) as usize;
                    let d = if with_depth { Some(&mut rd[i]) } else { None };
                    pixel(&mut rc[i], d, src, z, state, word);
                    touched += 1;
                }
            }
        }
        let s = Surf { color: color.as_mut_ptr(), depth: if with_depth { depth.as_mut_ptr() } else { std::ptr::null_mut() }, w, h };
        if cut[0] < cut[2] && cut[1] < cut[3] {
            let mut cache = Vec::new();
            let band = 1 + r.below(h as u64) as i32;
            let mut tris = Vec::new();
            unsafe { triangles(&p, 0, &mut cache, &mut |t: &Tri| tris.push(*t)) };
            let mut y = 0;
            while y < h {
                for t in &tris {
                    unsafe { raster(t, &p, &s, y, (y + band).min(h)) };
                }
                y += band;
            }
        }
        assert!(color == rc && depth == rd, "round {round}: rect {rect:?} state {state:#x} paint {paint} layout kinds {kinds:?} counts {counts:?}");
    }
    println!("{touched} pixels");
    assert!(touched > rounds as u64);
}
