/* Dear ImGui over the library: its demo window as a PNG file on standard output.
 *
 *   c++ -std=c++17 imgui.cpp $(pkg-config --cflags --libs vgfx imgui) -o imgui && ./imgui > imgui.png
 *
 * Dear ImGui asks of a renderer what is there: indices of 16 bits, one texture of four bytes a texel, colours of vertices, scissors and
 * blending by alpha. Its positions and texture positions are floats; they become whole numbers of 1/65536. Since a texture has no linear
 * filter, its lines are made of triangles alone.
 */
#include <cmath>
#include <cstdint>
#include <cstdio>
#include <cstdlib>
#include <vector>

#include <imgui.h>

#include "png.h"
#include "vgfx.hpp"

namespace {

constexpr std::uint16_t width = 900, height = 720;
static_assert(sizeof(ImDrawIdx) == sizeof(std::uint16_t), "indices have 16 bits");
static_assert(sizeof(ImTextureID) >= sizeof(vgfx::Id), "an id is carried as a texture of Dear ImGui");

void must(vgfx::Status status, const char *call) {
    if (status == VGFX_OK) return;
    std::fprintf(stderr, "imgui: %s: %s\n", vgfx_status_name(status), call);
    std::exit(1);
}
#define MUST(call) must(call, #call)

struct Vertex {
    std::int32_t x, y, u, v;
    std::uint32_t color; /* red is the lowest byte, as IM_COL32 has it */
};

std::int32_t fixed(float value) { return static_cast<std::int32_t>(std::lround(value * 65536.0f)); }

ImTextureID texture_of(vgfx::Id id) { return reinterpret_cast<ImTextureID>(static_cast<std::uintptr_t>(id)); }
vgfx::Id id_of(ImTextureID texture) { return reinterpret_cast<std::uintptr_t>(texture); }

/* Draws what Dear ImGui made, in view 0. */
class Renderer {
  public:
    explicit Renderer(vgfx::Context &context) : context_(context) {
        const vgfx_layout_part parts[] = {
            {VGFX_ATTRIBUTE_POSITION, VGFX_COMPONENT_FIXED, 2}, {VGFX_ATTRIBUTE_TEXCOORD0, VGFX_COMPONENT_FIXED, 2}, {VGFX_ATTRIBUTE_COLOR0, VGFX_COMPONENT_U8, 4}};
        MUST(context.create_layout(parts, layout_));
        MUST(context.create_program(vgfx::Program::TextureColor, program_));
        MUST(context.set_view_mode(0, vgfx::ViewMode::Sequential));
        ImFontAtlas &atlas = *ImGui::GetIO().Fonts;
        unsigned char *texels;
        int w, h;
        atlas.Flags |= ImFontAtlasFlags_NoBakedLines;
        atlas.GetTexDataAsRGBA32(&texels, &w, &h);
        vgfx::Id texture;
        const vgfx::Sides sides = {static_cast<std::uint16_t>(w), static_cast<std::uint16_t>(h)};
        MUST(context.create_texture(sides, vgfx::Format::Rgba8, false, {texels, std::size_t{4} * sides.width * sides.height}, texture));
        atlas.SetTexID(texture_of(texture));
    }

    void draw(const ImDrawData &data) {
        std::uint32_t items = 0;
        for (int i = 0; i < data.CmdListsCount; i++) items += static_cast<std::uint32_t>(data.CmdLists[i]->CmdBuffer.Size);
        const std::size_t bytes = sizeof(Vertex) * static_cast<std::size_t>(data.TotalVtxCount) + sizeof(ImDrawIdx) * static_cast<std::size_t>(data.TotalIdxCount);
        vgfx::Encoder encoder;
        MUST(context_.begin(encoder, {items + 1, static_cast<std::uint32_t>(bytes), 0}));
        MUST(encoder.touch(0)); /* so that the view is cleared where there is nothing to draw, too */
        MUST(encoder.set_state(VGFX_STATE_WRITE_RGBA | VGFX_STATE_BLEND_FUNC_SEPARATE(VGFX_BLEND_SRC_ALPHA, VGFX_BLEND_INV_SRC_ALPHA, VGFX_BLEND_ONE, VGFX_BLEND_INV_SRC_ALPHA)));
        for (int i = 0; i < data.CmdListsCount; i++) draw_list(encoder, data, *data.CmdLists[i]);
        MUST(encoder.end());
    }

  private:
    void draw_list(vgfx::Encoder &encoder, const ImDrawData &data, const ImDrawList &list) {
        vertices_.clear();
        for (const ImDrawVert &v : list.VtxBuffer)
            vertices_.push_back({fixed(2 * (v.pos.x - data.DisplayPos.x) / data.DisplaySize.x - 1), fixed(1 - 2 * (v.pos.y - data.DisplayPos.y) / data.DisplaySize.y),
                                 fixed(v.uv.x), fixed(v.uv.y), v.col});
        MUST(encoder.set_transient_vertices(layout_, vertices_));
        for (const ImDrawCmd &command : list.CmdBuffer) {
            const vgfx::Rect rect = scissor(data, command.ClipRect);
            if (command.UserCallback || !rect.w || !rect.h) continue; /* of no width or no height, nothing is seen */
            MUST(encoder.set_scissor(rect));
            MUST(encoder.set_texture(0, id_of(command.GetTexID())));
            MUST(encoder.set_transient_indices({list.IdxBuffer.Data + command.IdxOffset, command.ElemCount}));
            MUST(encoder.submit(0, program_, 0, VGFX_DISCARD_NONE));
        }
    }

    static vgfx::Rect scissor(const ImDrawData &data, const ImVec4 &clip) {
        const auto within = [](float value, float most) { return static_cast<std::uint16_t>(value < 0 ? 0 : value > most ? most : value); };
        const std::uint16_t left = within(clip.x - data.DisplayPos.x, data.DisplaySize.x), right = within(clip.z - data.DisplayPos.x, data.DisplaySize.x);
        const std::uint16_t top = within(clip.y - data.DisplayPos.y, data.DisplaySize.y), bottom = within(clip.w - data.DisplayPos.y, data.DisplaySize.y);
        if (right <= left || bottom <= top) return {};
        return {left, top, static_cast<std::uint16_t>(right - left), static_cast<std::uint16_t>(bottom - top)};
    }

    vgfx::Context &context_;
    vgfx::Id layout_ = 0, program_ = 0;
    std::vector<Vertex> vertices_;
};

/* Some frames, since Dear ImGui finds the sides of its windows in the first ones. */
void make_windows() {
    for (int frame = 0; frame < 4; frame++) {
        ImGui::GetIO().DeltaTime = 1.0f / 60;
        ImGui::NewFrame();
        ImGui::ShowDemoWindow();
        ImGui::SetWindowPos("Dear ImGui Demo", {20, 20});
        ImGui::SetWindowSize("Dear ImGui Demo", {520, 680});
        ImGui::SetNextWindowPos({560, 60});
        ImGui::Begin("vgfx", nullptr, ImGuiWindowFlags_AlwaysAutoResize);
        static float angle = 0.7f, color[4] = {0.96f, 0.64f, 0.38f, 1};
        static bool on = true;
        ImGui::Text("drawn by version %d.%d.%d", VGFX_VERSION_MAJOR, VGFX_VERSION_MINOR, VGFX_VERSION_PATCH);
        ImGui::Checkbox("a box", &on);
        ImGui::SliderFloat("an angle", &angle, 0, 3.14f);
        ImGui::ColorPicker4("a colour", color);
        ImGui::End();
        ImGui::Render();
    }
}

} // namespace

int main() {
    IMGUI_CHECKVERSION();
    ImGui::CreateContext();
    ImGui::GetIO().DisplaySize = {width, height};
    ImGui::GetIO().IniFilename = nullptr;

    vgfx::Context context;
    MUST(context.init(width, height));
    MUST(context.set_view_clear(0, VGFX_CLEAR_COLOR, {0x14, 0x21, 0x3d, 255}));
    Renderer renderer(context);
    make_windows();
    renderer.draw(*ImGui::GetDrawData());

    std::vector<std::uint8_t> picture(VGFX_PICTURE_BYTES(width, height));
    vgfx_frame_report report;
    MUST(context.frame(picture, report));
    ImGui::DestroyContext();
    /* the pixels are the last bytes of the picture's text */
    return png_write(stdout, picture.data() + report.picture - std::size_t{3} * width * height, width, height);
}
