// Durbizhan: a clearance checker for animated shots. The face for C++, C++17 and later: a thin one over durbizhan.h,
// whose text says what each function is for, what its answer has, what a lent buffer holds after the call and how it is
// refused.
//
// What is lent is a View: a pointer and a length, an array, a std::vector, a std::array, whatever else has data() and
// size(), and for bytes a std::string or a std::string_view too; text in quotes is none, since it ends with a zero byte
// that is no symbol: "(WB"sv is. An empty view is fine, and {} is one.
// An answer is a Result: the answer, or the Refusal and no answer. Ask it first:
//
//     if (auto found = durbizhan::verdict(universe, rows, {}, mover, wall, window, out))
//         use(found.value());
//     else
//         report(found.refusal().number);
//
// value() of a refused call, and refusal() of an accepted one, throw std::bad_variant_access. Nothing else here throws
// but durbizhan::scene and durbizhan::lines where there is no memory: they alone allocate. Of durbizhan::lines a
// refusal is a line. There is no state: any number of threads may call at once.
#ifndef DURBIZHAN_HPP
#define DURBIZHAN_HPP

#include <array>
#include <cstddef>
#include <cstdint>
#include <iterator>
#include <optional>
#include <string>
#include <type_traits>
#include <utility>
#include <variant>
#include <vector>

#include "durbizhan.h"

namespace durbizhan {

// What is lent: so many elements from a pointer on. Where there are none the pointer is not null all the same.
template <class T>
class View {
    using Bare = std::remove_const_t<T>;

    // whether a pointer to an element of E may be handed on as one of T: the same but for const, or text for bytes
    template <class E>
    static constexpr bool is_text = std::is_same_v<Bare, std::uint8_t> &&
                                    (std::is_same_v<std::remove_const_t<E>, char> ||
                                     std::is_same_v<std::remove_const_t<E>, std::byte>);
    template <class E>
    static constexpr bool is_element = (std::is_same_v<std::remove_const_t<E>, Bare> || is_text<E>) &&
                                       (std::is_const_v<T> || !std::is_const_v<E>);
    // a container; one that is about to vanish lends nothing to write to, and an array of text nothing at all
    template <class C, class E = std::remove_pointer_t<decltype(std::data(std::declval<C &>()))>>
    static constexpr bool lends = is_element<E> && (std::is_const_v<T> || std::is_lvalue_reference_v<C>) &&
                                  !(is_text<E> && std::is_array_v<std::remove_reference_t<C>>);

public:
    View() noexcept : View(static_cast<T *>(nullptr), 0) {}

    View(T *data, std::size_t size) noexcept : data_(data == nullptr && size == 0 ? &none_ : data), size_(size) {}

    // an array, or anything with data() and size()
    template <class C, class = std::enable_if_t<!std::is_same_v<std::decay_t<C>, View> && lends<C>>>
    View(C &&lent) noexcept : View(from(std::data(lent)), std::size(lent))
    {
    }

    T *data() const noexcept { return data_; }
    std::size_t size() const noexcept { return size_; }
    T *begin() const noexcept { return data_; }
    T *end() const noexcept { return data_ + size_; }
    T &operator[](std::size_t place) const noexcept { return data_[place]; }

    // the elements at the front
    View<const Bare> front(std::size_t count) const noexcept { return View<const Bare>(data_, count); }

private:
    template <class E>
    static T *from(E *data) noexcept
    {
        if constexpr (is_text<E>)
            return reinterpret_cast<T *>(data);
        else
            return data;
    }

    inline static Bare none_{};

    T *data_;
    std::size_t size_;
};

using Rows = View<const std::int64_t>;
using Balls = View<const std::int64_t>;
using Words = View<const std::uint16_t>;
using Bytes = View<const std::uint8_t>;
using Room = View<std::uint8_t>;

// The numbers of refusals.
enum class Number : std::uint64_t {
    BadFile = DURBIZHAN_BAD_FILE,
    BadUniverse = DURBIZHAN_BAD_UNIVERSE,
    BadRows = DURBIZHAN_BAD_ROWS,
    BadTree = DURBIZHAN_BAD_TREE,
    OverfullTree = DURBIZHAN_OVERFULL_TREE,
    NoRoom = DURBIZHAN_NO_ROOM,
    BadExpression = DURBIZHAN_BAD_EXPRESSION,
    NotMerged = DURBIZHAN_NOT_MERGED,
    Outside = DURBIZHAN_OUTSIDE,
    BadProxy = DURBIZHAN_BAD_PROXY,
    BadKeys = DURBIZHAN_BAD_KEYS,
    BadStep = DURBIZHAN_BAD_STEP,
};

// Why a call was refused. With NoRoom comes what is needed: symbols, of a file bytes, of a report counts, and nodes
// where it is the work room of a pruned conversion that is lacking; else it is 0.
struct Refusal {
    Number number;
    std::uint64_t needed;
    bool of_work;
};

// The answer of a call, or why there is none.
template <class T>
class [[nodiscard]] Result {
public:
    Result(T value) : held_(std::in_place_index<0>, std::move(value)) {}
    Result(Refusal refusal) : held_(std::in_place_index<1>, refusal) {}

    // whether the call was accepted
    explicit operator bool() const noexcept { return held_.index() == 0; }

    // the answer; where the call was refused this throws std::bad_variant_access
    const T &value() const & { return std::get<0>(held_); }
    T &&value() && { return std::get<0>(std::move(held_)); }

    // the refusal; where the call was accepted this throws std::bad_variant_access
    const Refusal &refusal() const { return std::get<1>(held_); }

private:
    std::variant<T, Refusal> held_;
};

// The answer of a call that has none but that it is accepted.
using Accepted = std::monostate;

// Axes, the last of which counts frames; the bits of each of the others, and those of the frames.
struct Universe {
    std::uint64_t axes, bits, frame_bits;
};

// Frames first to last, both ends in.
struct Window {
    std::uint64_t first, last;
};

// Contact: the first and the last frame that has a black voxel, and how many of these there are.
struct Hit {
    std::uint64_t first, last, voxels;
};

// Clear is no hit.
using Verdict = std::optional<Hit>;

// The ends of a verdict: the first and the last frame that has a black voxel, both ends in; Clear is none.
using Ends = std::optional<Window>;

// A verdict, and how many symbols of its raw expression were written.
struct Clearance {
    Verdict verdict;
    std::size_t length;
};

// Voxels that are surely shared, at their centre, and possibly.
struct Contacts {
    std::uint64_t sure, centre, possible;
};

// The black voxels of a whole expression, and its verdict over a window.
struct Numbers {
    std::uint64_t volume;
    Verdict verdict;
};

// How many counts were set, and their sum.
struct Report {
    std::size_t frames;
    std::uint64_t total;
};

enum class Colour { White = DURBIZHAN_WHITE, Black = DURBIZHAN_BLACK };

// Where a part begins in its expression, and how many symbols it has.
struct Part {
    std::size_t start, length;
};

// How many symbols were written, and the most that merging holds back.
struct Merged {
    std::size_t length;
    std::uint64_t held;
};

// How many symbols were written, and the nodes looked at.
struct Pruned {
    std::size_t length;
    std::uint64_t looked;
};

// An expression that was written: its universe, and how many symbols it has.
struct Shape {
    Universe universe;
    std::size_t length;
};

// What a scene file holds.
struct Scene {
    std::uint64_t version;
    Universe universe;
    std::vector<std::int64_t> rows, balls;
    std::vector<std::uint16_t> first, second;
    Window window;
};

// Three numbers of a proxy.
using Triple = std::array<double, 3>;

// The words that name halfspace i and ball i.
constexpr std::uint16_t halfspace(std::uint8_t i) noexcept
{
    return static_cast<std::uint16_t>(DURBIZHAN_HALFSPACE(i));
}

constexpr std::uint16_t ball(std::uint8_t i) noexcept
{
    return static_cast<std::uint16_t>(DURBIZHAN_BALL(i));
}

namespace detail {

inline Refusal refused(std::uint64_t number, std::uint64_t needed = 0, bool of_work = false) noexcept
{
    return Refusal{static_cast<Number>(number), number == DURBIZHAN_NO_ROOM ? needed : 0, of_work};
}

inline Result<std::size_t> length_of(std::uint64_t number, std::uint64_t length)
{
    if (number != DURBIZHAN_ACCEPTED) return refused(number, length);
    return static_cast<std::size_t>(length);
}

inline Result<Pruned> pruned_of(std::uint64_t number, const std::uint64_t (&answer)[DURBIZHAN_PRUNED_ANSWER])
{
    const std::uint64_t length = answer[DURBIZHAN_PRUNED_LENGTH];
    if (number != DURBIZHAN_ACCEPTED) return refused(number, length, answer[DURBIZHAN_PRUNED_LACK] == 1);
    return Pruned{static_cast<std::size_t>(length), answer[DURBIZHAN_PRUNED_LOOKED]};
}

inline Verdict verdict_of(std::uint64_t hit, std::uint64_t first, std::uint64_t last, std::uint64_t voxels)
{
    if (hit == DURBIZHAN_CLEAR) return std::nullopt;
    return Hit{first, last, voxels};
}

inline Result<Clearance> clearance_of(std::uint64_t number, const std::uint64_t (&answer)[DURBIZHAN_VERDICT_ANSWER])
{
    const std::uint64_t length = answer[DURBIZHAN_VERDICT_LENGTH];
    if (number != DURBIZHAN_ACCEPTED) return refused(number, length);
    const Verdict verdict = verdict_of(answer[DURBIZHAN_VERDICT_HIT], answer[DURBIZHAN_VERDICT_FIRST],
                                       answer[DURBIZHAN_VERDICT_LAST], answer[DURBIZHAN_VERDICT_VOXELS]);
    return Clearance{verdict, static_cast<std::size_t>(length)};
}

template <class T>
std::vector<T> front(const std::vector<T> &numbers, std::uint64_t count)
{
    return std::vector<T>(numbers.begin(), numbers.begin() + static_cast<std::ptrdiff_t>(count));
}

}  // namespace detail

inline std::uint64_t leaves(Words words) noexcept
{
    return durbizhan_leaves(words.data(), words.size());
}

inline std::uint64_t balls(Words words) noexcept
{
    return durbizhan_balls(words.data(), words.size());
}

inline Result<std::uint64_t> room(Universe universe, std::uint64_t leaves, std::uint64_t balls)
{
    std::uint64_t answer[DURBIZHAN_ROOM_ANSWER];
    const std::uint64_t number =
        durbizhan_room(universe.axes, universe.bits, universe.frame_bits, leaves, balls, answer);
    if (number != DURBIZHAN_ACCEPTED) return detail::refused(number);
    return answer[DURBIZHAN_ROOM_SYMBOLS];
}

inline Result<std::size_t> raw_one(Universe universe, Rows rows, Balls balls, Words words, Room out)
{
    std::uint64_t answer[DURBIZHAN_CONVERSION_ANSWER];
    const std::uint64_t number = durbizhan_raw_one(
        universe.axes, universe.bits, universe.frame_bits, rows.data(), rows.size(), balls.data(), balls.size(),
        words.data(), words.size(), out.data(), out.size(), answer);
    return detail::length_of(number, answer[DURBIZHAN_CONVERSION_LENGTH]);
}

inline Result<std::size_t> raw_two(Universe universe, Rows rows, Balls balls, Words first, Words second,
                                   Room out)
{
    std::uint64_t answer[DURBIZHAN_CONVERSION_ANSWER];
    const std::uint64_t number = durbizhan_raw_two(
        universe.axes, universe.bits, universe.frame_bits, rows.data(), rows.size(), balls.data(), balls.size(),
        first.data(), first.size(), second.data(), second.size(), out.data(), out.size(), answer);
    return detail::length_of(number, answer[DURBIZHAN_CONVERSION_LENGTH]);
}

inline Result<std::size_t> merged_one(Universe universe, Rows rows, Balls balls, Words words, Room out)
{
    std::uint64_t answer[DURBIZHAN_CONVERSION_ANSWER];
    const std::uint64_t number = durbizhan_merged_one(
        universe.axes, universe.bits, universe.frame_bits, rows.data(), rows.size(), balls.data(), balls.size(),
        words.data(), words.size(), out.data(), out.size(), answer);
    return detail::length_of(number, answer[DURBIZHAN_CONVERSION_LENGTH]);
}

inline Result<std::size_t> merged_two(Universe universe, Rows rows, Balls balls, Words first, Words second,
                                      Room out)
{
    std::uint64_t answer[DURBIZHAN_CONVERSION_ANSWER];
    const std::uint64_t number = durbizhan_merged_two(
        universe.axes, universe.bits, universe.frame_bits, rows.data(), rows.size(), balls.data(), balls.size(),
        first.data(), first.size(), second.data(), second.size(), out.data(), out.size(), answer);
    return detail::length_of(number, answer[DURBIZHAN_CONVERSION_LENGTH]);
}

inline Result<Pruned> pruned_raw_one(Universe universe, Rows rows, Balls balls, Words words,
                                     View<std::int64_t> work, Room out)
{
    std::uint64_t answer[DURBIZHAN_PRUNED_ANSWER];
    const std::uint64_t number = durbizhan_pruned_raw_one(
        universe.axes, universe.bits, universe.frame_bits, rows.data(), rows.size(), balls.data(), balls.size(),
        words.data(), words.size(), work.data(), work.size(), out.data(), out.size(), answer);
    return detail::pruned_of(number, answer);
}

inline Result<Pruned> pruned_raw_two(Universe universe, Rows rows, Balls balls, Words first, Words second,
                                     View<std::int64_t> work, Room out)
{
    std::uint64_t answer[DURBIZHAN_PRUNED_ANSWER];
    const std::uint64_t number = durbizhan_pruned_raw_two(
        universe.axes, universe.bits, universe.frame_bits, rows.data(), rows.size(), balls.data(), balls.size(),
        first.data(), first.size(), second.data(), second.size(), work.data(), work.size(), out.data(), out.size(),
        answer);
    return detail::pruned_of(number, answer);
}

inline Result<Pruned> pruned_merged_one(Universe universe, Rows rows, Balls balls, Words words,
                                        View<std::int64_t> work, Room out)
{
    std::uint64_t answer[DURBIZHAN_PRUNED_ANSWER];
    const std::uint64_t number = durbizhan_pruned_merged_one(
        universe.axes, universe.bits, universe.frame_bits, rows.data(), rows.size(), balls.data(), balls.size(),
        words.data(), words.size(), work.data(), work.size(), out.data(), out.size(), answer);
    return detail::pruned_of(number, answer);
}

inline Result<Pruned> pruned_merged_two(Universe universe, Rows rows, Balls balls, Words first, Words second,
                                        View<std::int64_t> work, Room out)
{
    std::uint64_t answer[DURBIZHAN_PRUNED_ANSWER];
    const std::uint64_t number = durbizhan_pruned_merged_two(
        universe.axes, universe.bits, universe.frame_bits, rows.data(), rows.size(), balls.data(), balls.size(),
        first.data(), first.size(), second.data(), second.size(), work.data(), work.size(), out.data(), out.size(),
        answer);
    return detail::pruned_of(number, answer);
}

inline Result<Clearance> verdict(Universe universe, Rows rows, Balls balls, Words first, Words second,
                                 Window window, Room out)
{
    std::uint64_t answer[DURBIZHAN_VERDICT_ANSWER];
    const std::uint64_t number = durbizhan_verdict(
        universe.axes, universe.bits, universe.frame_bits, rows.data(), rows.size(), balls.data(), balls.size(),
        first.data(), first.size(), second.data(), second.size(), window.first, window.last, out.data(), out.size(),
        answer);
    return detail::clearance_of(number, answer);
}

inline Result<Verdict> verdict_at_once(Universe universe, Rows rows, Balls balls, Words first, Words second,
                                       Window window)
{
    std::uint64_t answer[DURBIZHAN_VERDICT_AT_ONCE_ANSWER];
    const std::uint64_t number = durbizhan_verdict_at_once(
        universe.axes, universe.bits, universe.frame_bits, rows.data(), rows.size(), balls.data(), balls.size(),
        first.data(), first.size(), second.data(), second.size(), window.first, window.last, answer);
    if (number != DURBIZHAN_ACCEPTED) return detail::refused(number);
    return detail::verdict_of(answer[DURBIZHAN_VERDICT_AT_ONCE_HIT], answer[DURBIZHAN_VERDICT_AT_ONCE_FIRST],
                              answer[DURBIZHAN_VERDICT_AT_ONCE_LAST], answer[DURBIZHAN_VERDICT_AT_ONCE_VOXELS]);
}

inline Result<Ends> ends_at_once(Universe universe, Rows rows, Balls balls, Words first, Words second, Window window)
{
    std::uint64_t answer[DURBIZHAN_ENDS_AT_ONCE_ANSWER];
    const std::uint64_t number = durbizhan_ends_at_once(
        universe.axes, universe.bits, universe.frame_bits, rows.data(), rows.size(), balls.data(), balls.size(),
        first.data(), first.size(), second.data(), second.size(), window.first, window.last, answer);
    if (number != DURBIZHAN_ACCEPTED) return detail::refused(number);
    if (answer[DURBIZHAN_ENDS_AT_ONCE_HIT] == DURBIZHAN_CLEAR) return Ends{};
    return Ends{{answer[DURBIZHAN_ENDS_AT_ONCE_FIRST], answer[DURBIZHAN_ENDS_AT_ONCE_LAST]}};
}

inline Result<Contacts> contacts(Universe universe, Rows rows, Balls balls, Words first, Words second,
                                 Window window)
{
    std::uint64_t answer[DURBIZHAN_CONTACTS_ANSWER];
    const std::uint64_t number = durbizhan_contacts(
        universe.axes, universe.bits, universe.frame_bits, rows.data(), rows.size(), balls.data(), balls.size(),
        first.data(), first.size(), second.data(), second.size(), window.first, window.last, answer);
    if (number != DURBIZHAN_ACCEPTED) return detail::refused(number);
    return Contacts{answer[DURBIZHAN_CONTACTS_SURE], answer[DURBIZHAN_CONTACTS_CENTRE],
                    answer[DURBIZHAN_CONTACTS_POSSIBLE]};
}

// The Box stands still: its corners give its size. Three numbers of `corners` belong to each of `moments`.
inline Result<Clearance> mover(Universe universe, const Triple &near_corner, const Triple &far_corner,
                               View<const std::uint64_t> moments, View<const double> corners, Rows rows,
                               Balls balls, Words words, Room out)
{
    std::uint64_t answer[DURBIZHAN_VERDICT_ANSWER];
    const std::uint64_t number = durbizhan_mover(
        universe.axes, universe.bits, universe.frame_bits, near_corner[0], near_corner[1], near_corner[2],
        far_corner[0], far_corner[1], far_corner[2], 0, 0, 0, moments.data(), moments.size(), corners.data(),
        corners.size(), rows.data(), rows.size(), balls.data(), balls.size(), words.data(), words.size(), out.data(),
        out.size(), answer);
    return detail::clearance_of(number, answer);
}

inline Result<Accepted> well_formed(Universe universe, Bytes expression)
{
    const std::uint64_t number = durbizhan_well_formed(universe.axes, universe.bits, universe.frame_bits,
                                                       expression.data(), expression.size());
    if (number != DURBIZHAN_ACCEPTED) return detail::refused(number);
    return Accepted{};
}

inline Result<Numbers> numbers(Universe universe, Bytes expression, Window window)
{
    std::uint64_t answer[DURBIZHAN_NUMBERS_ANSWER];
    const std::uint64_t number =
        durbizhan_numbers(universe.axes, universe.bits, universe.frame_bits, expression.data(), expression.size(),
                          window.first, window.last, answer);
    if (number != DURBIZHAN_ACCEPTED) return detail::refused(number);
    const Verdict verdict = detail::verdict_of(answer[DURBIZHAN_NUMBERS_HIT], answer[DURBIZHAN_NUMBERS_FIRST],
                                               answer[DURBIZHAN_NUMBERS_LAST], answer[DURBIZHAN_NUMBERS_VOXELS]);
    return Numbers{answer[DURBIZHAN_NUMBERS_VOLUME], verdict};
}

inline Result<Report> report(Universe universe, Bytes expressions, Window window, View<std::uint64_t> counts)
{
    std::uint64_t answer[DURBIZHAN_REPORT_ANSWER];
    const std::uint64_t number =
        durbizhan_report(universe.axes, universe.bits, universe.frame_bits, expressions.data(), expressions.size(),
                         window.first, window.last, counts.data(), counts.size(), answer);
    const std::uint64_t frames = answer[DURBIZHAN_REPORT_FRAMES];
    if (number != DURBIZHAN_ACCEPTED) return detail::refused(number, frames);
    return Report{static_cast<std::size_t>(frames), answer[DURBIZHAN_REPORT_TOTAL]};
}

inline Result<Colour> colour(Universe universe, Bytes expression, const std::array<std::uint64_t, 4> &voxel)
{
    std::uint64_t answer[DURBIZHAN_COLOUR_ANSWER];
    const std::uint64_t number =
        durbizhan_colour(universe.axes, universe.bits, universe.frame_bits, expression.data(), expression.size(),
                         voxel[0], voxel[1], voxel[2], voxel[3], answer);
    if (number != DURBIZHAN_ACCEPTED) return detail::refused(number);
    return static_cast<Colour>(answer[DURBIZHAN_COLOUR_FOUND]);
}

inline Result<Part> part(Universe universe, Bytes expression, Bytes path)
{
    std::uint64_t answer[DURBIZHAN_PART_ANSWER];
    const std::uint64_t number =
        durbizhan_part(universe.axes, universe.bits, universe.frame_bits, expression.data(), expression.size(),
                       path.data(), path.size(), answer);
    if (number != DURBIZHAN_ACCEPTED) return detail::refused(number);
    return Part{static_cast<std::size_t>(answer[DURBIZHAN_PART_START]),
                static_cast<std::size_t>(answer[DURBIZHAN_PART_LENGTH])};
}

inline Result<Shape> sweep(Universe universe, std::uint64_t axis, Bytes expression, Room out)
{
    std::uint64_t answer[DURBIZHAN_SWEEP_ANSWER];
    const std::uint64_t number =
        durbizhan_sweep(universe.axes, universe.bits, universe.frame_bits, axis, expression.data(), expression.size(),
                        out.data(), out.size(), answer);
    const std::uint64_t length = answer[DURBIZHAN_SWEEP_LENGTH];
    if (number != DURBIZHAN_ACCEPTED) return detail::refused(number, length);
    const Universe below{answer[DURBIZHAN_SWEEP_AXES], answer[DURBIZHAN_SWEEP_BITS],
                         answer[DURBIZHAN_SWEEP_FRAME_BITS]};
    return Shape{below, static_cast<std::size_t>(length)};
}

inline Result<std::size_t> octree_export(Universe universe, Bytes expression, Room out)
{
    std::uint64_t answer[DURBIZHAN_OCTREE_ANSWER];
    const std::uint64_t number =
        durbizhan_octree_export(universe.axes, universe.bits, universe.frame_bits, expression.data(),
                                expression.size(), out.data(), out.size(), answer);
    return detail::length_of(number, answer[DURBIZHAN_OCTREE_LENGTH]);
}

inline Result<std::size_t> octree_import(Universe universe, Bytes octree, Room out)
{
    std::uint64_t answer[DURBIZHAN_OCTREE_ANSWER];
    const std::uint64_t number =
        durbizhan_octree_import(universe.axes, universe.bits, universe.frame_bits, octree.data(), octree.size(),
                                out.data(), out.size(), answer);
    return detail::length_of(number, answer[DURBIZHAN_OCTREE_LENGTH]);
}

inline Result<Merged> merge(Universe universe, Bytes expression, Room out)
{
    std::uint64_t answer[DURBIZHAN_MERGE_ANSWER];
    const std::uint64_t number =
        durbizhan_merge(universe.axes, universe.bits, universe.frame_bits, expression.data(), expression.size(),
                        out.data(), out.size(), answer);
    const std::uint64_t length = answer[DURBIZHAN_MERGE_LENGTH];
    if (number != DURBIZHAN_ACCEPTED) return detail::refused(number, length);
    return Merged{static_cast<std::size_t>(length), answer[DURBIZHAN_MERGE_HELD]};
}

inline Result<Scene> scene(Bytes bytes)
{
    std::vector<std::int64_t> rows(DURBIZHAN_MOST_NUMBERS), balls(DURBIZHAN_MOST_BALL_NUMBERS);
    std::vector<std::uint16_t> first(DURBIZHAN_MOST_WORDS), second(DURBIZHAN_MOST_WORDS);
    std::uint64_t answer[DURBIZHAN_SCENE_ANSWER];
    const std::uint64_t number = durbizhan_scene(bytes.data(), bytes.size(), rows.data(), balls.data(), first.data(),
                                                 second.data(), answer);
    if (number != DURBIZHAN_ACCEPTED) return detail::refused(number);
    return Scene{
        answer[DURBIZHAN_SCENE_VERSION],
        {answer[DURBIZHAN_SCENE_AXES], answer[DURBIZHAN_SCENE_BITS], answer[DURBIZHAN_SCENE_FRAME_BITS]},
        detail::front(rows, DURBIZHAN_ROW_LENGTH * answer[DURBIZHAN_SCENE_ROWS]),
        detail::front(balls, DURBIZHAN_BALL_LENGTH * answer[DURBIZHAN_SCENE_BALLS]),
        detail::front(first, answer[DURBIZHAN_SCENE_FIRST_WORDS]),
        detail::front(second, answer[DURBIZHAN_SCENE_SECOND_WORDS]),
        {answer[DURBIZHAN_SCENE_FIRST_FRAME], answer[DURBIZHAN_SCENE_LAST_FRAME]},
    };
}

// READ THE LINE: a refusal is one.
inline std::string lines(Bytes scene)
{
    std::uint8_t out[DURBIZHAN_MOST_LINES_BYTES];
    const std::uint64_t count = durbizhan_lines(scene.data(), scene.size(), out);
    return std::string(out, out + count);
}

inline Result<Shape> shape_read(Bytes bytes, Room out)
{
    std::uint64_t answer[DURBIZHAN_SHAPE_READ_ANSWER];
    const std::uint64_t number = durbizhan_shape_read(bytes.data(), bytes.size(), out.data(), out.size(), answer);
    const std::uint64_t length = answer[DURBIZHAN_SHAPE_READ_LENGTH];
    if (number != DURBIZHAN_ACCEPTED) return detail::refused(number, length);
    const Universe universe{answer[DURBIZHAN_SHAPE_READ_AXES], answer[DURBIZHAN_SHAPE_READ_BITS],
                            answer[DURBIZHAN_SHAPE_READ_FRAME_BITS]};
    return Shape{universe, static_cast<std::size_t>(length)};
}

inline Result<std::size_t> shape_write(Universe universe, Bytes expression, Room out)
{
    std::uint64_t answer[DURBIZHAN_SHAPE_WRITE_ANSWER];
    const std::uint64_t number =
        durbizhan_shape_write(universe.axes, universe.bits, universe.frame_bits, expression.data(), expression.size(),
                              out.data(), out.size(), answer);
    return detail::length_of(number, answer[DURBIZHAN_SHAPE_WRITE_LENGTH]);
}

inline Result<std::array<std::int64_t, DURBIZHAN_BOX_NUMBERS>> box(const Triple &near_corner, const Triple &far_corner,
                                                                   const Triple &displacement)
{
    std::array<std::int64_t, DURBIZHAN_BOX_NUMBERS> rows;
    const std::uint64_t number = durbizhan_box(
        near_corner[0], near_corner[1], near_corner[2], far_corner[0], far_corner[1], far_corner[2], displacement[0],
        displacement[1], displacement[2], rows.data());
    if (number != DURBIZHAN_ACCEPTED) return detail::refused(number);
    return rows;
}

inline Result<std::array<std::int64_t, DURBIZHAN_ROW_LENGTH>> cut(const Triple &normal, double offset,
                                                                  const Triple &displacement)
{
    std::array<std::int64_t, DURBIZHAN_ROW_LENGTH> row;
    const std::uint64_t number = durbizhan_cut(normal[0], normal[1], normal[2], offset, displacement[0],
                                               displacement[1], displacement[2], row.data());
    if (number != DURBIZHAN_ACCEPTED) return detail::refused(number);
    return row;
}

}  // namespace durbizhan

#endif
