//! The safe calls: what is drawn, what is refused, and encoders on several threads.
use std::{mem, thread};

use vgfx::*;

const BLACK: Clear = Clear {
    color: Some([0, 0, 0, 255]),
    depth: None,
    stencil: None,
};

/// A layout, two triangles over all of a view, and a program of the vertices' colour.
fn made(context: &Context, color: [u8; 4]) -> Result<(VertexBuffer, Program), Error> {
    let parts = [
        LayoutPart::new(Attribute::Position, Component::I16, 2),
        LayoutPart::skip(2),
        LayoutPart::new(Attribute::Color0, Component::U8, 4),
    ];
    let layout = context.create_layout(&parts)?;
    let mut bytes = Vec::new();
    for (x, y) in [(-1, 1), (1, 1), (1, -1), (-1, 1), (1, -1), (-1, -1)] {
        for part in [x, y] {
            bytes.extend_from_slice(&i16::to_le_bytes(if part < 0 { -32768 } else { 32767 }));
        }
        bytes.extend_from_slice(&[9, 9]);
        bytes.extend_from_slice(&color);
    }
    Ok((
        context.create_vertex_buffer(layout, &bytes)?,
        context.create_program(ProgramKind::Color)?,
    ))
}

#[test]
fn a_view_has_its_rectangle_and_clears_it() -> Result<(), Error> {
    let mut context = Context::new(2, 1)?;
    assert_eq!((context.sides(), context.frame_number()?, version() >> 16), ((2, 1), 0, 0));
    context.set_view_rect(0, Rect { x: 1, y: 0, w: 1, h: 1 })?;
    context.set_view_clear(
        0,
        Clear {
            color: Some([1, 2, 3, 4]),
            ..BLACK
        },
    )?;
    context.begin(Room::of_items(1))?.touch(0)?;
    let mut picture = Picture::new();
    assert_eq!(context.frame(&mut picture)?, FrameReport { number: 0, dropped: 0 });
    assert_eq!(picture.pixels(), [0, 0, 0, 1, 2, 3]);
    assert_eq!(picture.p6(), b"P6\n2 1\n255\n\0\0\0\x01\x02\x03");
    Ok(())
}

#[test]
fn a_draw_has_its_colour_its_scissor_and_its_blend() -> Result<(), Error> {
    let mut context = Context::new(4, 1)?;
    context.set_view_clear(
        0,
        Clear {
            color: Some([100, 100, 100, 255]),
            ..BLACK
        },
    )?;
    context.set_view_mode(0, ViewMode::Sequential)?;
    let (vertices, program) = made(&context, [200, 0, 50, 255])?;
    let mut encoder = context.begin(Room::of_items(2))?;
    encoder.set_scissor(Rect { x: 0, y: 0, w: 2, h: 1 })?;
    encoder.set_transform(Transform::from_rows([
        [2.0, 0.0, 0.0, 0.0],
        [0.0, 2.0, 0.0, 0.0],
        [0.0, 0.0, 1.0, 0.0],
    ]))?;
    encoder.set_vertices(vertices, 0, 6)?;
    encoder.submit(0, program, 0, Discard::STATE)?;
    encoder.set_state(State::WRITE_RGBA | State::blend(Factor::One, Factor::One))?;
    encoder.set_scissor(Rect { x: 1, y: 0, w: 2, h: 1 })?;
    encoder.submit(0, program, 0, Discard::ALL)?;
    encoder.end(7)?;
    let mut picture = Picture::new();
    assert_eq!(context.frame(&mut picture)?.dropped, 7);
    assert_eq!(picture.pixels(), [200, 0, 50, 255, 0, 100, 255, 100, 150, 100, 100, 100]);
    Ok(())
}

#[test]
fn what_cannot_be_is_refused() -> Result<(), Error> {
    assert_eq!(Context::new(0, 1).unwrap_err(), Error::BadSize);
    let mut context = Context::new(1, 1)?;
    let other = Context::new(1, 1)?;
    let (vertices, program) = made(&context, [0; 4])?;
    assert_eq!(other.destroy(program), Err(Error::Unknown));
    assert_eq!(context.create_index_buffer(&[]), Err(Error::BadSize));
    assert_eq!(context.set_view_order(&[3, 3]), Err(Error::BadRange));
    assert_eq!(context.reset_view(512), Err(Error::BadView));
    assert_eq!(context.begin(Room::of_items(0)).unwrap_err(), Error::BadSize);
    let texture = context.create_filled_texture((1, 1), Format::D24S8, false, [0; 4])?;
    assert_eq!(context.create_frame_buffer(texture, None), Err(Error::WrongKind));
    let mut encoder = context.begin(Room::of_items(1))?;
    context.destroy(vertices)?;
    let later = context.create_program(ProgramKind::Solid)?;
    assert_eq!(encoder.submit(0, later, 0, Discard::ALL), Err(Error::Unknown));
    assert_eq!(encoder.set_state(State(1 << 63)), Err(Error::BadState));
    assert_eq!(
        encoder.set_transient_vertices(Layout::clone(&context.create_layout(&[LayoutPart::skip(1)])?), &[]),
        Err(Error::Unknown)
    );
    mem::forget(encoder);
    let mut picture = Picture::new();
    assert_eq!(context.frame(&mut picture), Err(Error::TryAgain));
    assert!(picture.pixels().is_empty());
    Ok(())
}

#[test]
fn pixels_are_read_with_a_stride() -> Result<(), Error> {
    let mut context = Context::new(2, 1)?;
    let texture = context.create_texture((1, 2), Format::Rgba8, false, &[1, 2, 3, 4, 5, 6, 7, 8])?;
    let depth = context.create_filled_texture((1, 1), Format::D24S8, false, [9, 8, 7, 6])?;
    let mut read = [99; 11];
    assert_eq!(context.read_pixels(Some(texture), Pixels::Rgba8, &mut read, 6), Err(Error::NotThere));
    context.set_view_clear(
        0,
        Clear {
            color: Some([10, 20, 30, 40]),
            ..BLACK
        },
    )?;
    let (vertices, program) = made(&context, [0; 4])?;
    let mut encoder = context.begin(Room::of_items(2))?;
    encoder.set_vertices(vertices, 0, 6)?;
    encoder.discard(Discard::ALL)?;
    encoder.submit(0, program, 0, Discard::ALL)?;
    encoder.end(3)?;
    assert_eq!(context.frame_unseen()?, FrameReport { number: 0, dropped: 3 });
    context.read_pixels(Some(texture), Pixels::Bgra8, &mut read, 6)?;
    assert_eq!(read, [3, 2, 1, 4, 99, 99, 7, 6, 5, 8, 99]);
    context.read_pixels(None, Pixels::Rgba8, &mut read, 8)?;
    assert_eq!(read[..8], [10, 20, 30, 40, 10, 20, 30, 40]);
    context.read_pixels(Some(depth), Pixels::D24S8, &mut read, 4)?;
    assert_eq!(read[..4], [9, 8, 7, 6]);
    assert_eq!(context.read_pixels(Some(depth), Pixels::Rgba8, &mut read, 4), Err(Error::WrongKind));
    assert_eq!(context.read_pixels(None, Pixels::Rgba8, &mut read, 7), Err(Error::BadSize));
    assert_eq!(context.read_pixels(Some(texture), Pixels::Rgba8, &mut read, 8), Err(Error::TooSmall));
    Ok(())
}

#[test]
fn eight_threads_record_at_once() -> Result<(), Error> {
    let mut context = Context::new(8, 1)?;
    let (vertices, program) = made(&context, [255, 128, 1, 255])?;
    for view in 0..8 {
        context.set_view_rect(view, Rect { x: view, y: 0, w: 1, h: 1 })?;
        context.set_view_clear(view, BLACK)?;
    }
    let mut picture = Picture::new();
    for frame in 0..4 {
        thread::scope(|scope| {
            for view in 0..8 {
                let mut encoder = context.begin(Room::of_items(100)).unwrap();
                scope.spawn(move || {
                    for _ in 0..100 {
                        encoder.set_vertices(vertices, 0, 6).unwrap();
                        encoder.submit(view, program, 0, Discard::ALL).unwrap();
                    }
                    encoder.end(1).unwrap();
                });
            }
        });
        assert_eq!(context.begin(Room::of_items(1)).unwrap_err(), Error::NoEncoder);
        assert_eq!(context.collect()?, 0);
        context = thread::spawn(move || context).join().unwrap();
        assert_eq!(context.frame(&mut picture)?, FrameReport { number: frame, dropped: 8 });
        assert_eq!(picture.pixels(), [255, 128, 1].repeat(8));
    }
    Ok(())
}

#[test]
fn texels_are_sampled_blitted_and_updated() -> Result<(), Error> {
    let mut context = Context::new(2, 1)?;
    let layout = context.create_layout(&[
        LayoutPart::new(Attribute::Position, Component::I16, 2),
        LayoutPart::new(Attribute::Texcoord0, Component::U8, 2),
    ])?;
    let source = context.create_texture((2, 1), Format::Rgba8, false, &[1, 2, 3, 255, 4, 5, 6, 255])?;
    let target = context.create_filled_texture((2, 1), Format::Rgba8, true, [0; 4])?;
    let program = context.create_program(ProgramKind::Texture)?;
    let stage = context.create_int("s_tex")?;
    context.update_texture(source, Rect { x: 1, y: 0, w: 1, h: 1 }, &[7, 8, 9, 255])?;
    let mut encoder = context.begin(Room {
        items: 2,
        bytes: 64,
        uniforms: 1,
    })?;
    let corner = |x: i16, u: u8| -> Vec<u8> {
        [x.to_le_bytes(), i16::MAX.to_le_bytes()]
            .concat()
            .into_iter()
            .chain([u, 0])
            .collect()
    };
    let low = |x: i16, u: u8| -> Vec<u8> {
        [x.to_le_bytes(), i16::MIN.to_le_bytes()]
            .concat()
            .into_iter()
            .chain([u, 0])
            .collect()
    };
    let bytes = [corner(i16::MIN, 0), corner(i16::MAX, 255), low(i16::MAX, 255), low(i16::MIN, 0)].concat();
    encoder.blit(
        0,
        Blit {
            destination: target,
            to: [0, 0],
            source,
            from: Rect { x: 0, y: 0, w: 2, h: 1 },
        },
    )?;
    encoder.set_transient_vertices(layout, &bytes)?;
    encoder.set_transient_indices(&[0, 1, 2, 0, 2, 3])?;
    encoder.set_texture(1, Some(target))?;
    encoder.set_int(stage, 1)?;
    encoder.submit(0, program, 0, Discard::ALL)?;
    drop(encoder);
    let mut picture = Picture::new();
    context.frame(&mut picture)?;
    assert_eq!(picture.pixels(), [1, 2, 3, 7, 8, 9]);
    Ok(())
}

#[test]
fn words_have_the_bits_of_the_page() {
    assert_eq!(
        (State::WRITE_RGBA | State::WRITE_DEPTH | State::depth_test(Compare::Less)).0,
        274877906975
    );
    assert_eq!((State::default() | State::BLEND_ALPHA).0, 106319887);
    assert_eq!((State::default() | State::CULL_CLOCKWISE).0, 68719476751);
    let keep = StencilStep::Keep;
    assert_eq!(Stencil::new(255, 255, Compare::Equal, [keep, keep, keep]).0, 286523391);
    assert_eq!(
        Stencil::new(0, 255, Compare::Always, [keep, StencilStep::IncrementSaturated, keep]).0,
        337182464
    );
    assert_eq!((fixed(1.0), fixed(-0.5), fixed(1e9)), (65536, -32768, i32::MAX));
}

#[test]
fn a_scene_plays_and_a_text_that_is_none_is_told() {
    let played = play(b"scene 1\nsize 2 2\nencoders 1\nframe\nview 0 clear 1 ff0000ff 0 0\nencoder 0\ntouch 0\ndone\n").unwrap();
    assert_eq!(played.pictures, [b"P6\n2 2\n255\n".to_vec(), [255, 0, 0].repeat(4)].concat());
    assert_eq!(played.report, b"frame 0 items 1 dropped 0\n");
    assert_eq!(play(b"scene 1\nsize 1 x\n"), Err(PlayError::NoScene { line: 2, cause: 6 }));
    assert_eq!(play(&[]), Err(PlayError::NoScene { line: 1, cause: 2 }));
}

#[test]
fn a_frame_in_passes_has_the_picture_of_a_frame() -> Result<(), Error> {
    let mut context = Context::new(8, 8)?;
    context.set_view_clear(0, BLACK)?;
    let (vertices, program) = made(&context, [200, 0, 50, 255])?;
    let mut pictures = [Picture::new(), Picture::new(), Picture::new()];
    for (number, picture) in pictures.iter_mut().enumerate() {
        let mut encoder = context.begin(Room::of_items(1))?;
        encoder.set_scissor(Rect { x: 1, y: 1, w: 5, h: 6 })?;
        encoder.set_vertices(vertices, 0, 6)?;
        encoder.submit(0, program, 0, Discard::ALL)?;
        encoder.end(3)?;
        let report = if number == 0 {
            context.frame(picture)?
        } else {
            let mut frame = context.frame_in_passes()?;
            while let Some(mut pass) = frame.next_pass(3)? {
                assert_eq!(pass.len(), 3);
                // In the last of the frames a band is left out: its rows are drawn at the pass's end.
                let drawn = 4 - number;
                thread::scope(|scope| {
                    for band in pass.iter_mut().take(drawn) {
                        scope.spawn(move || band.draw());
                    }
                });
            }
            frame.end(picture)?
        };
        assert_eq!(report, FrameReport { number: number as u32, dropped: 3 });
    }
    assert_eq!(pictures[0].p6(), pictures[1].p6());
    assert_eq!(pictures[0].p6(), pictures[2].p6());
    // A frame that is let go is ended, and so is a context with a pass that is out.
    drop(context.frame_in_passes()?);
    assert_eq!(context.frame_number()?, 4);
    context.begin(Room::of_items(1))?.touch(0)?;
    let mut frame = context.frame_in_passes()?;
    mem::forget(frame.next_pass(2)?);
    assert!(frame.next_pass(2).is_err());
    Ok(())
}
