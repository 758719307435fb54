#!/bin/sh
# Makes the pictures of docs/use that stand outside of the gallery, and writes them into docs/use/pictures: of writing-scenes.md triangle.png,
# depth-order.png and turning-triangle.png, a strip of five of the forty frames; of writing-scenes-2.md lessons/; of debugging.md broken/; of
# models.md crane.png, a strip of four of 24 frames. Each is the program's own picture, byte for byte. tools/scene/make_gallery makes the
# gallery's. The page in watch.png is a screenshot of a browser, as tools/try/watch_page --keep FOLDER makes them.
#
# usage: tools/scene/make_pictures.sh
#
# It needs Python 3 and the program (tools/gfx says how it is found).
set -eu

case ${1:-} in
    --help | -h) sed -n '2,/^set -/{/^set -/d;s/^# \{0,1\}//;p;}' "$0"; exit 0 ;;
    ?*) echo "make_pictures.sh: there is no word $1; --help shows what it does" >&2; exit 2 ;;
esac
cd "$(dirname "$0")/../.."
pictures=docs/use/pictures
mkdir -p $pictures/lessons $pictures/broken
tools/gfx png examples/triangle.scene $pictures/triangle.png
tools/gfx png examples/depth-order.scene $pictures/depth-order.png
tools/gfx png --strip 0,8,16,24,32 examples/turning-triangle.scene $pictures/turning-triangle.png
for scene in examples/lessons/*.scene; do
    tools/gfx png "$scene" "$pictures/lessons/$(basename "$scene" .scene).png"
done
for script in behind stencil race; do
    tools/gfx png examples/broken/$script.py $pictures/broken/$script.png
done
tools/gfx png --frame 1 examples/broken/dropped.py $pictures/broken/dropped.png
crane=$(mktemp)
trap 'rm -f "$crane"' EXIT
tools/scene/gltf_to_scene.py --frames 24 --size 200 150 --zoom 1.5 --background 8ecae6 examples/models/crane.gltf > "$crane"
tools/gfx png --strip 0,4,8,12 "$crane" $pictures/crane.png
