#!/usr/bin/env python3
"""Plants wrong definitions, one at a time, and says which rows or laws refuse each.

usage: tools/prove/wrong_definitions.py [NAME ..]     (by hand, not by the gate)

Each entry of WRONG is a wrong definition: its name, a file, a text of that file and the text in its place. The script copies the crates of
definitions, plants the change, runs `rt check` on scene_model (which checks gfx_model below it), and on command_line_model above it where
nothing below refuses, and prints a line:

    refused      NAME: the worked rows and laws that no longer hold
    ill-formed   NAME: the change does not elaborate, so it shows nothing; mend the entry
    NOT REFUSED  NAME: no row and no law refuses it; write a row
    NOT PLANTED  NAME: the text stands in the file not once; mend the entry

It ends with 1 where some definition was not refused or not planted. With words behind it, only the entries whose names have one of them are
planted. A check takes 5 to 40 seconds.
"""
import os
import re
import shutil
import signal
import subprocess
import sys
import tempfile

TOP = os.path.dirname(os.path.dirname(os.path.dirname(os.path.abspath(__file__))))

G = "crates/gfx_model/specs/"
S = "crates/scene_model/specs/"

WRONG = [
    # keys and orders
    ("orders equal keys by reverse place", G + "World.antt", "if nat_le x.0 y.0 then x ∷ y ∷ ys", "if nat_lt x.0 y.0 then x ∷ y ∷ ys"),
    ("descending without turned depth", G + "Views.antt", "depth_field = 2 ^ 32 - 1 - depth", "depth_field = depth"),
    ("ascending turned", G + "Views.antt", "mode_type = 1; blended = blended; program = program; depth_field = depth;", "mode_type = 1; blended = blended; program = program; depth_field = 2 ^ 32 - 1 - depth;"),
    ("sequential by depth", G + "Views.antt", "mode_type = 2; blended = blended; program = program; depth_field = 0; number = number", "mode_type = 1; blended = blended; program = program; depth_field = depth; number = 0"),
    ("blending first", G + "Views.antt", "2 ^ (59 - position_bits) * k.blended", "2 ^ (59 - position_bits) * (1 - k.blended)"),
    ("views by id", G + "Views.antt", "view_order vs = vs.order ++ filter (λ v. not (is_among v vs.order)) (range_with_len 0 (view_count vs))", "view_order vs = range_with_len 0 (view_count vs)"),
    # frames
    ("items of the frame before", S + "Fold.antt", "recording_of s k before f e", "recording_of s (k + 1) before f e"),
    ("destroys before draws", S + "Fold.antt", "gone = gone;\n  changes", "gone = gone ++ deaths_in k all.resources;\n  changes"),
    ("frees at once", G + "Resources.antt", "nat_le (death + 1 + latency) frame", "nat_le death frame"),
    ("never frees", G + "Resources.antt", "nat_le (death + 1 + latency) frame", "nat_lt frame 0"),
    ("frees one frame early", G + "Resources.antt", "nat_le (death + 1 + latency) frame", "nat_le (death + latency) frame"),
    ("untouched views cleared", G + "World.antt", "entered_views f = filter (λ v. list_any (is_of_view v) f.items) (view_order f.views)", "entered_views f = view_order f.views"),
    ("clear whole target", G + "World.antt", "if contains (view_rect view.rect s.color.width s.color.height) x y then cleared view.clear p else p", "cleared view.clear p"),
    # pixels
    ("shared edge to both", G + "Raster.antt", "is_top_or_left p q = if int_le p.y q.y then int_le q.y p.y && int_lt p.x q.x else true", "is_top_or_left p q = true"),
    ("shared edge to neither", G + "Raster.antt", "is_top_or_left p q = if int_le p.y q.y then int_le q.y p.y && int_lt p.x q.x else true", "is_top_or_left p q = not true"),
    ("screen y up", G + "Raster.antt", "(pos 65536 -ℤ p.y)", "(pos 65536 +ℤ p.y)"),
    ("cull turned", G + "Raster.antt", "(is_front t && not (cull == 1)) || (is_back t && not (cull == 2))", "(is_front t && not (cull == 2)) || (is_back t && not (cull == 1))"),
    ("no guard range", G + "Raster.antt", "if is_in_guard_range p then Some", "if true then Some"),
    ("depth stored after failed stencil", G + "Pixel.antt", "then record { color = color; depth = Some (depth + 2 ^ 24 * stencil_by word (on_stencil_fail word) stencil) }", "then record { color = color; depth = Some (shaded.depth + 2 ^ 24 * stencil_by word (on_stencil_fail word) stencil) }"),
    ("saturating increment", G + "Pixel.antt", "(if op == 3 then (stored + 1) % 256", "(if op == 3 then min 255 (stored + 1)"),
    ("alpha by colour factor", G + "Pixel.antt", "blend_channel (alpha_source state)", "blend_channel (color_source state)"),
    ("least with factors", G + "Pixel.antt", "(if equation == 3 then min s d else max s d)", "(if equation == 3 then min scaled_s scaled_d else max s d)"),
    ("greatest with factors", G + "Pixel.antt", "(if equation == 3 then min s d else max s d)", "(if equation == 3 then min s d else max scaled_s scaled_d)"),
    # draws
    ("uniforms reset each draw", G + "World.antt", "do_item view w (draw_item d) = draw_on (fold set_uniform w d.values) view d", "do_item view w (draw_item d) = record (draw_on (fold set_uniform w d.values) view d) { things = w.things }"),
    ("blit reads past the source", G + "World.antt", "nat_lt (b.sx + (x - b.dx)) source.width", "true"),
    ("samples its own target", G + "World.antt", "if is_serial h.serial (target_color w view.target) then None else texels_of", "if false then None else texels_of"),
    ("stage below 0 is stage 0", G + "World.antt", "bound_handle textures (negsuc n) = None", "bound_handle textures (negsuc n) = slice_index_or textures 0 None"),
    ("index from zero", G + "Vertex.antt", "fetch v.layout v.bytes (v.first + i) else None", "fetch v.layout v.bytes i else None"),
    ("strip not turned", G + "Vertex.antt", "if odd then record { a = b; b = a; c = c }", "if false then record { a = b; b = a; c = c }"),
    ("update one byte late", G + "World.antt", "with_bytes_at at new old = take at old", "with_bytes_at at new old = take (at + 1) old"),
    # calls of the API thread
    ("accepts a newer serial", G + "Words.antt", "is_live_in word serial = (place_state word == 1) && (place_serial word == serial)", "is_live_in word serial = (place_state word == 1)"),
    ("uniform dies at first destroy", G + "Resources.antt", "if nat_lt 1 (references_of", "if nat_lt 2 (references_of"),
    ("attached by colour alone", G + "Resources.antt", "(color == serial) || (depth == serial)", "color == serial"),
    ("odd index buffer", G + "Resources.antt", " && (length bytes % 2 == 0)), bad_size)", "), bad_size)"),
    ("frame buffer's word before its kind", G + "Resources.antt", "((not (can_attach color depth), wrong_kind) ∷ is_not_live r color ∷ not_live_option r depth)", "(is_not_live r color ∷ (not (can_attach color depth), wrong_kind) ∷ not_live_option r depth)"),
    ("texels before the index", G + "Resources.antt", "∷ lacks_index r texture_kind\n    ∷ (nat_lt greatest_texels (sum_by (λ t. texel_count t.content) r.things + width * height), texels_full)\n", "∷ (nat_lt greatest_texels (sum_by (λ t. texel_count t.content) r.things + width * height), texels_full)\n    ∷ lacks_index r texture_kind\n"),
    ("texture update's size before its range", G + "Resources.antt", "∷ (passes_side rect h.info, bad_range)\n    ∷ (not (length bytes == 4 * (rect.w * rect.h)), bad_size) ∷ []", "∷ (not (length bytes == 4 * (rect.w * rect.h)), bad_size)\n    ∷ (passes_side rect h.info, bad_range) ∷ []"),
    ("one reference less", G + "Resources.antt", "greatest_references = 65535", "greatest_references = 65534"),
    ("one serial less", G + "Resources.antt", "greatest_serial = 4294967295", "greatest_serial = 4294967294"),
    # calls of encoders
    ("touch keeps values", G + "Recorder.antt", "recorded i flags e = record e { items = e.items ++ i ∷ []; pending = [];", "recorded i flags e = record e { items = e.items ++ i ∷ []; pending = e.pending;"),
    ("discard ignored", G + "Recorder.antt", "vertices = if is_bit_set flags 5 then plain_state.vertices else s.vertices", "vertices = s.vertices"),
    ("room one larger", G + "Recorder.antt", "nat_le e.room.items (length e.items), room_full", "nat_lt e.room.items (length e.items), room_full"),
    ("one byte of room less", G + "Recorder.antt", "nat_lt e.room.bytes (e.used_bytes + length bytes), bytes_full", "nat_le e.room.bytes (e.used_bytes + length bytes), bytes_full"),
    ("blit destination not asked", G + "Recorder.antt", "(not (is_blit_destination_in b.destination.info), not_blit_destination)", "(false, not_blit_destination)"),
    # journals
    ("serial encoders reversed", S + "Journal.antt", "serial_from e (a ∷ rest) = entries_of e (length a.items) ++ serial_from (e + 1) rest", "serial_from e (a ∷ rest) = serial_from (e + 1) rest ++ entries_of e (length a.items)"),
    ("blits share no key", S + "Journal.antt", "(is_blit a && is_blit b)\n    ||", "false ||"),
    ("journal's encoders to 254", S + "JournalText.antt", "greatest_encoder = 255", "greatest_encoder = 254"),
    ("journal's encoders to 256", S + "JournalText.antt", "greatest_encoder = 255", "greatest_encoder = 256"),
    ("journal's ordinals one less", S + "JournalText.antt", "greatest_ordinal = 4294967295", "greatest_ordinal = 4294967294"),
    ("journal's ordinals one more", S + "JournalText.antt", "greatest_ordinal = 4294967295", "greatest_ordinal = 4294967296"),
    # texts
    ("leading zeros", S + "Field.antt", "not (b == 48) && list_all is_digit", "true && list_all is_digit"),
    ("i32 from one more", S + "Field.antt", "int_le (negsuc 2147483647) z", "int_le (negsuc 2147483646) z"),
    ("place before version", S + "Grammar.antt", "_ ← unless (not (is_other_version known.newest fs)) unknown_version\n  _ ← unless (is_in_place r w fs) misplaced_word", "_ ← unless (is_in_place r w fs) misplaced_word\n  _ ← unless (not (is_other_version known.newest fs)) unknown_version"),
    ("skipped lines not counted", S + "Grammar.antt", "read_pieces known (n + 1) (line_read known r p) (q ∷ rest)", "read_pieces known (if is_skipped p then n else n + 1) (line_read known r p) (q ∷ rest)"),
    ("order one shorter", S + "Grammar.antt", "has_count_from 1 (1 + views) fs", "has_count_from 1 views fs"),
    ("order one longer", S + "Grammar.antt", "has_count_from 1 (1 + views) fs", "has_count_from 1 (2 + views) fs"),
    ("order of 256 in both versions", S + "Grammar.antt", "resource_form known (views_in r.version) r.names fs w", "resource_form known 256 r.names fs w"),
    ("layout of 14 parts", S + "Grammar.antt", "has_count_from 3 17 fs", "has_count_from 3 16 fs"),
    ("layout of 16 parts", S + "Grammar.antt", "has_count_from 3 17 fs", "has_count_from 3 18 fs"),
    ("one byte less in a room", S + "Grammar.antt", "number_to most_bytes (field fs 2)", "number_to 1048575 (field fs 2)"),
    ("one byte more in a room", S + "Grammar.antt", "number_to most_bytes (field fs 2)", "number_to 1048577 (field fs 2)"),
    # versions
    ("512 views in both versions", S + "Scene.antt", "if version == 1 then fewest_views else most_views", "most_views"),
    ("latency in both versions", S + "Grammar.antt", "says_latency version = not (version == 1)", "says_latency version = true"),
    ("latency to 4", S + "Scene.antt", "greatest_latency = 3", "greatest_latency = 4"),
    ("latency from 0", S + "Grammar.antt", "number_in 1 greatest_latency (field fs 1)", "number_in 0 greatest_latency (field fs 1)"),
    ("latency before the room", S + "Grammar.antt", "with_latency latency r = record r { latency = latency; stage = at_first_frame }", "with_latency latency r = record r { latency = latency; stage = at_room }"),
    ("one frame out always", S + "Scene.antt", "latency_of s = s.latency", "latency_of s = 1"),
    ("version 3 is read", S + "Scene.antt", "newest_version = 2", "newest_version = 3"),
    ("no version is refused as such", S + "Grammar.antt", "number_in (newest + 1) 255 n", "number_in 256 255 n"),
    # whole runs
    ("an input one byte longer", S + "Run.antt", "longest_input = 16777216", "longest_input = 16777217"),
    ("an input one byte shorter", S + "Run.antt", "longest_input = 16777216", "longest_input = 16777215"),
    ("refused runs show the bytes of their note", S + "Run.antt", "refused ending line = record { ending = ending; pictures = [];", "refused ending line = record { ending = ending; pictures = line;"),
    ("make shows its pictures", S + "Run.antt", "record { ending = all_done; pictures = []; journal = drawn s;", "record { ending = all_done; pictures = pictures_text s (drawn s); journal = drawn s;"),
    ("make notes nothing", S + "Run.antt", "noted = make_note s (drawn s)", "noted = []"),
    ("make notes a report", S + "Run.antt", "noted = make_note s (drawn s)", "noted = notes s (drawn s) (nat_lt 1 0)"),
    ("made by any journal", S + "Run.antt", "IsMade count run = (j : Journal) × IsLawful (generated count) j ×", "IsMade count run = (j : Journal) × ⊤ ×"),
    ("made of one frame always", S + "Run.antt", "(run ≡ made count (λ s. j))", "(run ≡ made 1 (λ s. j))"),
    ("made with no journal", S + "Run.antt", "(run ≡ made count (λ s. j))", "(run ≡ made count (λ s. []))"),
    ("make sums the samples alone", S + "Output.antt", "decimal (sum (pictures_text s j) % 2 ^ 32)", "decimal (sum (flat_map (λ t. flat_map (take 3) t.texels) (pictures s j)) % 2 ^ 32)"),
    ("make notes the frames for the items", S + "Output.antt", "decimal (sum_by frame_items (plans s))", "decimal (length (plans s))"),
    ("replay shows a journal with a fault", S + "Run.antt", "shown_unless with_journal s j (Some place) = unlawful place", "shown_unless with_journal s j (Some place) = shown with_journal s j"),
]


# the crates of definitions, lowest first, as crates.txt lists them; a change is checked in the last two
CRATES = {"gfx_model": "", "scene_model": " gfx_model", "command_line_model": " gfx_model scene_model clap"}


def refusals(folder, crate):
    """What no longer holds in proofs, and what does not elaborate in specs."""
    run = subprocess.run(["rt", "check", "--jobs", "1"], cwd=os.path.join(folder, "crates", crate), capture_output=True, text=True)
    errors = re.findall(r"\./(proofs|specs)/(\w+)\.antt:\d+:\d+: error: `([^`]*)`", run.stdout + run.stderr)
    proofs = sorted({f"{file}.{name}" for part, file, name in errors if part == "proofs"})
    specs = sorted({f"{file}.{name}" for part, file, name in errors if part == "specs"})
    return proofs, specs


def main():
    signal.signal(signal.SIGPIPE, signal.SIG_DFL)  # a reader that has gone ends this without a word
    if sys.argv[1:2] in (["--help"], ["-h"]):
        print(__doc__)
        return
    os.chdir(TOP)
    wanted = sys.argv[1:]
    for word in wanted:
        if not any(word in name for name, _, _, _ in WRONG):
            print(f"wrong_definitions.py: no name has {word}", file=sys.stderr)
            sys.exit(2)
    failed = False
    with tempfile.TemporaryDirectory() as folder:
        os.mkdir(os.path.join(folder, "crates"))
        for crate in CRATES:
            shutil.copytree(os.path.join("crates", crate), os.path.join(folder, "crates", crate))
        with open(os.path.join(folder, "crates.txt"), "w") as listed:
            listed.writelines(f"{crate}:{below}\n" for crate, below in CRATES.items())
        for name, path, right, wrong in WRONG:
            if wanted and not any(word in name for word in wanted):
                continue
            planted = os.path.join(folder, path)
            with open(planted) as source:
                text = source.read()
            if text.count(right) != 1:
                failed = True
                print(f"NOT PLANTED  {name}: {text.count(right)} times in {path}", flush=True)
                continue
            with open(planted, "w") as source:
                source.write(text.replace(right, wrong))
            proofs, specs = refusals(folder, "scene_model")
            if not proofs and not specs:
                proofs, specs = refusals(folder, "command_line_model")
            with open(planted, "w") as source:
                source.write(text)
            if proofs:
                print(f"refused      {name}: {', '.join(proofs)}", flush=True)
            elif specs:
                failed = True
                print(f"ill-formed   {name}: {', '.join(specs)}", flush=True)
            else:
                failed = True
                print(f"NOT REFUSED  {name}", flush=True)
    sys.exit(1 if failed else 0)


main()
