//! The pictures of examples/c/frames.c, from Rust: in each frame a thing is made, drawn with, and destroyed, and the picture is written to standard
//! output.
use std::io::{self, Write};

use vgfx::{Attribute, Clear, Component, Context, Discard, LayoutPart, Picture, ProgramKind, Room};

const FRAMES: i32 = 8;

fn main() -> Result<(), Box<dyn std::error::Error>> {
    let mut context = Context::new(160, 120)?;
    let mut picture = Picture::new();
    let layout = context.create_layout(&[LayoutPart::new(Attribute::Position, Component::Fixed, 2)])?;
    let color = context.create_vec4("u_color")?;
    let solid = context.create_program(ProgramKind::Solid)?;
    context.set_view_clear(
        0,
        Clear {
            color: Some([0x14, 0x21, 0x3d, 0xff]),
            ..Clear::default()
        },
    )?;
    for frame in 0..FRAMES {
        // a triangle that grows
        let side = vgfx::ONE * (frame + 1) / FRAMES;
        let bytes: Vec<u8> = [0, side, side, -side, -side, -side]
            .into_iter()
            .flat_map(i32::to_le_bytes)
            .collect();
        let buffer = context.create_vertex_buffer(layout, &bytes)?;
        let mut encoder = context.begin(Room {
            uniforms: 1,
            ..Room::of_items(1)
        })?;
        encoder.set_vec4(color, [62195, 41378, 15677, vgfx::ONE])?;
        encoder.set_vertices(buffer, 0, 3)?;
        encoder.submit(0, solid, 0, Discard::ALL)?;
        encoder.end(0)?;
        // what this frame names stays until it is drawn
        context.destroy(buffer)?;
        context.frame(&mut picture)?;
        io::stdout().write_all(picture.p6())?;
    }
    Ok(())
}
