/* vgfx.h for C++17: handles that give up what they own, ranges in place of pointers with lengths, and enumerations that cannot be exchanged.
 *
 * Each call is one call of vgfx.h, with its comment there, and answers its status; nothing is thrown and nothing is allocated.
 *
 *     vgfx::Context context;
 *     vgfx::Status status = context.init(640, 480);
 *     if (status != VGFX_OK) return fail(vgfx_status_name(status));
 *     vgfx::Encoder encoder;
 *     status = context.begin(encoder, {16}); // room for 16 items
 */
#ifndef VGFX_HPP
#define VGFX_HPP

#include <cstddef>
#include <cstdint>
#include <string_view>
#include <type_traits>
#include <utility>

#include "vgfx.h"

namespace vgfx {

using Status = vgfx_status;
using Id = vgfx_id;
using Transform = vgfx_transform;

enum class Format : std::uint32_t { Rgba8 = VGFX_FORMAT_RGBA8, D24S8 = VGFX_FORMAT_D24S8 };
enum class Pixels : std::uint32_t { Rgba8 = VGFX_PIXELS_RGBA8, D24S8 = VGFX_PIXELS_D24S8, Bgra8 = VGFX_PIXELS_BGRA8 };
enum class Program : std::uint32_t {
    Solid = VGFX_PROGRAM_SOLID, Color = VGFX_PROGRAM_COLOR, Texture = VGFX_PROGRAM_TEXTURE, TextureColor = VGFX_PROGRAM_TEXTURE_COLOR
};
enum class Uniform : std::uint32_t { Vec4 = VGFX_UNIFORM_VEC4, Int = VGFX_UNIFORM_INT };
enum class ViewMode : std::uint32_t {
    Default = VGFX_VIEW_MODE_DEFAULT, Sequential = VGFX_VIEW_MODE_SEQUENTIAL, DepthAscending = VGFX_VIEW_MODE_DEPTH_ASCENDING,
    DepthDescending = VGFX_VIEW_MODE_DEPTH_DESCENDING
};

/* Elements one behind the other: of a vector, an array, or a pointer and a length. It owns nothing. */
template <class T> class Span {
  public:
    constexpr Span() noexcept = default;
    constexpr Span(T *data, std::size_t size) noexcept : data_(data), size_(size) {}
    template <std::size_t N> constexpr Span(T (&items)[N]) noexcept : data_(items), size_(N) {}
    template <class C, class = std::enable_if_t<std::is_convertible_v<decltype(std::declval<C &>().data()), T *>>>
    constexpr Span(C &items) noexcept : data_(items.data()), size_(items.size()) {}
    template <class C, class = std::enable_if_t<std::is_const_v<T> && std::is_convertible_v<decltype(std::declval<const C &>().data()), T *>>>
    constexpr Span(const C &items) noexcept : data_(items.data()), size_(items.size()) {}
    constexpr T *data() const noexcept { return data_; }
    constexpr std::size_t size() const noexcept { return size_; }

  private:
    T *data_ = nullptr;
    std::size_t size_ = 0;
};

/* The bytes of elements that can be copied as bytes. */
class Bytes {
  public:
    constexpr Bytes() noexcept = default;
    constexpr Bytes(const void *data, std::size_t size) noexcept : data_(data), size_(size) {}
    template <class T, std::size_t N> constexpr Bytes(const T (&items)[N]) noexcept : data_(items), size_(N * sizeof(T)) {
        static_assert(std::is_trivially_copyable_v<T>);
    }
    template <class C, class T = std::remove_reference_t<decltype(*std::declval<const C &>().data())>>
    constexpr Bytes(const C &items) noexcept : data_(items.data()), size_(items.size() * sizeof(T)) {
        static_assert(std::is_trivially_copyable_v<T>);
    }
    constexpr const void *data() const noexcept { return data_; }
    constexpr std::size_t size() const noexcept { return size_; }

  private:
    const void *data_ = nullptr;
    std::size_t size_ = 0;
};

struct Rect { std::uint16_t x = 0, y = 0, w = 0, h = 0; };
struct Color { std::uint8_t red = 0, green = 0, blue = 0, alpha = 255; };
struct Room { std::uint32_t items = 1, bytes = 0, uniforms = 0; };
struct Sides { std::uint16_t width, height; };

class Context;

/* Rows of a pass, which one thread draws. One that goes out of scope before the end of its pass is given up, and its rows are drawn then. */
class Band {
  public:
    Band() noexcept = default;
    Band(Band &&other) noexcept = default;
    Band &operator=(Band &&other) noexcept {
        if (this != &other) { close(); handle_.at = std::exchange(other.handle_.at, nullptr); }
        return *this;
    }
    ~Band() { close(); }

    Status draw() noexcept { return vgfx_band_draw(&handle_); }
    explicit operator bool() const noexcept { return handle_.at != nullptr; }
    vgfx_band *handle() noexcept { return &handle_; }

  private:
    void close() noexcept {
        vgfx_context none;
        if (handle_.at && vgfx_pass_end(&none, &handle_, 1) != VGFX_OK) handle_.at = nullptr;
    }
    vgfx_band handle_;
};
static_assert(sizeof(Band) == sizeof(vgfx_band) && std::is_standard_layout_v<Band>);

/* An encoder. One that goes out of scope before its end is ended, so that its frame can go on; the calls that it recorded are drawn. */
class Encoder {
  public:
    Encoder() noexcept = default;
    Encoder(Encoder &&other) noexcept = default;
    Encoder &operator=(Encoder &&other) noexcept {
        if (this != &other) { close(); handle_.at = std::exchange(other.handle_.at, nullptr); }
        return *this;
    }
    ~Encoder() { close(); }

    Status set_state(std::uint64_t state) noexcept { return vgfx_encoder_set_state(&handle_, state); }
    Status set_stencil(std::uint32_t front, std::uint32_t back = VGFX_STENCIL_NONE) noexcept { return vgfx_encoder_set_stencil(&handle_, front, back); }
    Status set_scissor(Rect r) noexcept { return vgfx_encoder_set_scissor(&handle_, r.x, r.y, r.w, r.h); }
    Status set_transform(const Transform &transform) noexcept { return vgfx_encoder_set_transform(&handle_, &transform); }
    Status set_vertices(Id buffer, std::uint32_t first, std::uint32_t count) noexcept { return vgfx_encoder_set_vertices(&handle_, buffer, first, count); }
    Status set_indices(Id buffer, std::uint32_t first, std::uint32_t count) noexcept { return vgfx_encoder_set_indices(&handle_, buffer, first, count); }
    Status set_transient_vertices(Id layout, Bytes bytes) noexcept { return vgfx_encoder_set_transient_vertices(&handle_, layout, bytes.data(), bytes.size()); }
    Status set_transient_indices(Span<const std::uint16_t> indices) noexcept {
        return vgfx_encoder_set_transient_indices(&handle_, indices.data(), 2 * indices.size());
    }
    Status set_texture(std::uint8_t stage, Id texture) noexcept { return vgfx_encoder_set_texture(&handle_, stage, texture); }
    Status set_vec4(Id uniform, std::int32_t x, std::int32_t y, std::int32_t z, std::int32_t w) noexcept {
        return vgfx_encoder_set_vec4(&handle_, uniform, x, y, z, w);
    }
    Status set_int(Id uniform, std::int32_t value) noexcept { return vgfx_encoder_set_int(&handle_, uniform, value); }
    Status submit(std::uint16_t view, Id program, std::uint32_t depth = 0, std::uint8_t discard = VGFX_DISCARD_ALL) noexcept {
        return vgfx_encoder_submit(&handle_, view, program, depth, discard);
    }
    Status discard(std::uint8_t discard = VGFX_DISCARD_ALL) noexcept { return vgfx_encoder_discard(&handle_, discard); }
    Status touch(std::uint16_t view) noexcept { return vgfx_encoder_touch(&handle_, view); }
    Status blit(std::uint16_t view, Id destination, std::uint16_t dx, std::uint16_t dy, Id source, Rect from) noexcept {
        return vgfx_encoder_blit(&handle_, view, destination, dx, dy, source, from.x, from.y, from.w, from.h);
    }
    Status end(std::uint32_t dropped = 0) noexcept { return vgfx_encoder_end(&handle_, dropped); }
    Status drop() noexcept { return vgfx_encoder_drop(&handle_); }
    explicit operator bool() const noexcept { return handle_.at != nullptr; }
    vgfx_encoder *handle() noexcept { return &handle_; }

  private:
    void close() noexcept {
        if (handle_.at && vgfx_encoder_end(&handle_, 0) != VGFX_OK) handle_.at = nullptr;
    }
    vgfx_encoder handle_;
};

/* A context. It is shut down where it goes out of scope. */
class Context {
  public:
    Context() noexcept = default;
    Context(Context &&other) noexcept = default;
    Context &operator=(Context &&other) noexcept {
        if (this != &other) { close(); handle_.at = std::exchange(other.handle_.at, nullptr); }
        return *this;
    }
    ~Context() { close(); }

    Status init(std::uint16_t width, std::uint16_t height) noexcept { return vgfx_init(&handle_, width, height); }
    Status shutdown() noexcept { return vgfx_shutdown(&handle_); }
    Status frame_number(std::uint32_t &number) noexcept { return vgfx_frame_number(&handle_, &number); }
    Status begin(Encoder &encoder, Room room) noexcept {
        return vgfx_encoder_begin(&handle_, encoder.handle(), room.items, room.bytes, room.uniforms);
    }
    Status collect(std::uint32_t &out) noexcept { return vgfx_collect(&handle_, &out); }
    Status frame(Span<std::uint8_t> picture, vgfx_frame_report &report) noexcept { return vgfx_frame(&handle_, picture.data(), picture.size(), &report); }

    /* Without a picture's text; read_pixels reads the pixels. */
    Status frame(vgfx_frame_report &report) noexcept { return vgfx_frame(&handle_, nullptr, 0, &report); }

    /* A frame in passes. Each band that next_pass lends may be drawn by a thread of its own. */
    Status begin_frame() noexcept { return vgfx_frame_begin(&handle_); }
    Status next_pass(Span<Band> bands, std::size_t &count) noexcept { return vgfx_pass_next(&handle_, raw(bands), bands.size(), &count); }
    Status end_pass(Span<Band> bands) noexcept { return vgfx_pass_end(&handle_, raw(bands), bands.size()); }
    Status end_frame(Span<std::uint8_t> picture, vgfx_frame_report &report) noexcept {
        return vgfx_frame_end(&handle_, picture.data(), picture.size(), &report);
    }
    Status end_frame(vgfx_frame_report &report) noexcept { return vgfx_frame_end(&handle_, nullptr, 0, &report); }

    Status read_pixels(Id texture, Pixels format, Span<std::uint8_t> pixels, std::size_t stride) noexcept {
        return vgfx_read_pixels(&handle_, texture, static_cast<vgfx_pixels>(format), pixels.data(), pixels.size(), stride);
    }

    Status create_layout(Span<const vgfx_layout_part> parts, Id &made) noexcept { return vgfx_create_layout(&handle_, parts.data(), parts.size(), &made); }
    Status create_vertex_buffer(Id layout, Bytes bytes, Id &made) noexcept {
        return vgfx_create_vertex_buffer(&handle_, layout, bytes.data(), bytes.size(), &made);
    }
    Status create_index_buffer(Span<const std::uint16_t> indices, Id &made) noexcept {
        return vgfx_create_index_buffer(&handle_, indices.data(), 2 * indices.size(), &made);
    }
    Status create_texture(Sides sides, Format format, bool blit_destination, Bytes texels, Id &made) noexcept {
        return vgfx_create_texture(&handle_, sides.width, sides.height, static_cast<vgfx_format>(format), blit_destination, texels.data(), texels.size(), &made);
    }
    Status create_filled_texture(Sides sides, Format format, bool blit_destination, Color fill, Id &made) noexcept {
        return vgfx_create_filled_texture(&handle_, sides.width, sides.height, static_cast<vgfx_format>(format), blit_destination, fill.red, fill.green, fill.blue, fill.alpha, &made);
    }
    Status create_frame_buffer(Id color, Id depth, Id &made) noexcept { return vgfx_create_frame_buffer(&handle_, color, depth, &made); }
    Status create_program(Program program, Id &made) noexcept { return vgfx_create_program(&handle_, static_cast<vgfx_program>(program), &made); }
    Status create_uniform(std::string_view name, Uniform kind, Id &made) noexcept {
        return vgfx_create_uniform(&handle_, name.data(), name.size(), static_cast<vgfx_uniform>(kind), &made);
    }
    Status update_buffer(Id buffer, std::uint32_t offset, Bytes bytes) noexcept { return vgfx_update_buffer(&handle_, buffer, offset, bytes.data(), bytes.size()); }
    Status update_texture(Id texture, Rect r, Bytes texels) noexcept {
        return vgfx_update_texture(&handle_, texture, r.x, r.y, r.w, r.h, texels.data(), texels.size());
    }
    Status destroy(Id resource) noexcept { return vgfx_destroy(&handle_, resource); }

    Status set_view_rect(std::uint16_t view, Rect r) noexcept { return vgfx_set_view_rect(&handle_, view, r.x, r.y, r.w, r.h); }
    Status set_view_scissor(std::uint16_t view, Rect r) noexcept { return vgfx_set_view_scissor(&handle_, view, r.x, r.y, r.w, r.h); }
    Status set_view_clear(std::uint16_t view, std::uint8_t flags, Color color, std::uint32_t depth = VGFX_MAX_DEPTH, std::uint8_t stencil = 0) noexcept {
        return vgfx_set_view_clear(&handle_, view, flags, color.red, color.green, color.blue, color.alpha, depth, stencil);
    }
    Status set_view_mode(std::uint16_t view, ViewMode mode) noexcept { return vgfx_set_view_mode(&handle_, view, static_cast<vgfx_view_mode>(mode)); }
    Status set_view_transform(std::uint16_t view, const Transform &transform) noexcept { return vgfx_set_view_transform(&handle_, view, &transform); }
    Status set_view_target(std::uint16_t view, Id frame_buffer) noexcept { return vgfx_set_view_target(&handle_, view, frame_buffer); }
    Status set_view_order(Span<const std::uint16_t> views) noexcept { return vgfx_set_view_order(&handle_, views.data(), views.size()); }
    Status reset_view(std::uint16_t view) noexcept { return vgfx_reset_view(&handle_, view); }
    explicit operator bool() const noexcept { return handle_.at != nullptr; }
    vgfx_context *handle() noexcept { return &handle_; }

  private:
    static vgfx_band *raw(Span<Band> bands) noexcept { return bands.size() > 0 ? bands.data()->handle() : nullptr; }
    void close() noexcept {
        if (handle_.at && vgfx_shutdown(&handle_) != VGFX_OK) handle_.at = nullptr;
    }
    vgfx_context handle_;
};

} // namespace vgfx

#endif
