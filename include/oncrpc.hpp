// oncrpc for C++17: the calls of oncrpc.h by classes that give back what they hold, with views in place of a pointer
// and a count, and with each status by its name. What a call promises stands in oncrpc.h, and is proved of the function
// that it makes. Nothing is proved of this file: it lends that function the bytes, and names what comes back.
//
// RESULTS. A call that may fail answers an Answer<T>. That is T, and a failure is thrown as an Error. Where exceptions
// are off, or ONCRPC_NO_EXCEPTIONS is defined before this file is read, it is Expected<T>: a T or an Error, and nothing
// is thrown. The names of both are apart for the linker, so that a program may have files of either sort.
//
// MEMORY. What a call makes is a std::vector or a std::string that it hands to the caller, or that the caller lends it
// to be filled, and whose memory then serves again. Where one of these finds no memory, it does what it does elsewhere:
// std::bad_alloc is thrown, or without exceptions the program ends. What the library itself asks for in vain is
// Status::no_memory.
//
// VIEWS. Bytes and std::string_view may be empty, and lead to NULL. What is read from bytes, a call, a reply or a part,
// has views into them, and serves as long as they stay.
//
// HANDLES. Declarations, Registry, Records and Session own a handle. They are moved and not copied. One that was moved
// from, or made without its read or start, holds none, and its calls say so. POINTERS, THREADS and STACK of oncrpc.h
// hold here.
#ifndef ONCRPC_HPP
#define ONCRPC_HPP

#if __cplusplus < 201703L
#error "oncrpc.hpp wants C++17"
#endif

#include <algorithm>
#include <array>
#include <cstddef>
#include <cstdint>
#include <cstdlib>
#include <exception>
#include <iterator>
#include <optional>
#include <string>
#include <string_view>
#include <type_traits>
#include <utility>
#include <vector>

#include "oncrpc.h"

#if !defined(__cpp_exceptions) && !defined(ONCRPC_NO_EXCEPTIONS)
#define ONCRPC_NO_EXCEPTIONS
#endif

namespace oncrpc {
#ifdef ONCRPC_NO_EXCEPTIONS
inline namespace returning {
#else
inline namespace throwing {
#endif

// ---- What is answered

/// What a call answers; oncrpc.h says of each call which of them it may be.
enum class Status : std::uint32_t {
    ok = ONCRPC_OK,
    more_follows = ONCRPC_MORE_FOLLOWS,
    refused = ONCRPC_REFUSED,
    undeclared = ONCRPC_UNDECLARED,
    no_kind = ONCRPC_NO_KIND,
    bad_limits = ONCRPC_BAD_LIMITS,
    no_memory = ONCRPC_NO_MEMORY,
    no_declarations = ONCRPC_NO_DECLARATIONS,
    no_room = ONCRPC_NO_ROOM,
    not_a_call = ONCRPC_NOT_A_CALL,
    other_version = ONCRPC_OTHER_VERSION,
    bad_credential = ONCRPC_BAD_CREDENTIAL,
    bad_verifier = ONCRPC_BAD_VERIFIER,
    cut = ONCRPC_CUT,
    not_a_reply = ONCRPC_NOT_A_REPLY,
    bad_state = ONCRPC_BAD_STATE,
    bytes_follow = ONCRPC_BYTES_FOLLOW,
    not_auth_sys = ONCRPC_NOT_AUTH_SYS,
    no_registry = ONCRPC_NO_REGISTRY,
    silence = ONCRPC_SILENCE,
    no_transport = ONCRPC_NO_TRANSPORT,
    unchanged = ONCRPC_UNCHANGED,
    no_reader = ONCRPC_NO_READER,
    more_wanted = ONCRPC_MORE_WANTED,
    no_record = ONCRPC_NO_RECORD,
    bad_item = ONCRPC_BAD_ITEM,
    not_an_address = ONCRPC_NOT_AN_ADDRESS,
    no_such_part = ONCRPC_NO_SUCH_PART,
    no_number = ONCRPC_NO_NUMBER,
    no_member = ONCRPC_NO_MEMBER,
    bad_json = ONCRPC_BAD_JSON,
    no_session = ONCRPC_NO_SESSION,
    output_waits = ONCRPC_OUTPUT_WAITS,
    no_caller = ONCRPC_NO_CALLER,
    no_part = ONCRPC_NO_PART,
    no_cursor = ONCRPC_NO_CURSOR,
    astray = ONCRPC_ASTRAY,
};

/// Why bytes are refused, and from wrong_item on why items are.
enum class Reason : std::uint32_t {
    none = 0,
    bad_bool = ONCRPC_BAD_BOOL,
    bad_numbered = ONCRPC_BAD_NUMBERED,
    bad_case = ONCRPC_BAD_CASE,
    too_long = ONCRPC_TOO_LONG,
    bad_padding = ONCRPC_BAD_PADDING,
    too_deep = ONCRPC_TOO_DEEP,
    too_large = ONCRPC_TOO_LARGE,
    truncated = ONCRPC_TRUNCATED,
    wrong_item = ONCRPC_WRONG_ITEM,
    not_in_range = ONCRPC_NOT_IN_RANGE,
    past_end = ONCRPC_PAST_END,
    unfinished = ONCRPC_UNFINISHED,
    outside = ONCRPC_OUTSIDE,
};

/// Why a JSON text spells no value.
enum class JsonReason : std::uint32_t {
    none = 0,
    not_json = ONCRPC_JSON_NOT_JSON,
    unknown_member = ONCRPC_JSON_UNKNOWN_MEMBER,
    missing_member = ONCRPC_JSON_MISSING_MEMBER,
    member_twice = ONCRPC_JSON_MEMBER_TWICE,
    wrong_type = ONCRPC_JSON_WRONG_TYPE,
    out_of_range = ONCRPC_JSON_OUT_OF_RANGE,
    not_whole = ONCRPC_JSON_NOT_WHOLE,
    unknown_name = ONCRPC_JSON_UNKNOWN_NAME,
    bad_hex = ONCRPC_JSON_BAD_HEX,
    wrong_length = ONCRPC_JSON_WRONG_LENGTH,
    no_arm = ONCRPC_JSON_NO_ARM,
    too_deep = ONCRPC_JSON_TOO_DEEP,
    too_large = ONCRPC_JSON_TOO_LARGE,
};

/// Which error a text of declarations has.
enum class TextFault : std::uint32_t {
    none = 0,
    bad_character = ONCRPC_BAD_CHARACTER,
    bad_number = ONCRPC_BAD_NUMBER,
    unexpected = ONCRPC_UNEXPECTED,
    floating_kind = ONCRPC_FLOATING_KIND,
    name_twice = ONCRPC_NAME_TWICE,
    name_unknown = ONCRPC_NAME_UNKNOWN,
    not_a_size = ONCRPC_NOT_A_SIZE,
    out_of_range = ONCRPC_OUT_OF_RANGE,
    typedef_loop = ONCRPC_TYPEDEF_LOOP,
    bad_schema = ONCRPC_BAD_SCHEMA,
    text_too_long = ONCRPC_TEXT_TOO_LONG,
    nested_too_deep = ONCRPC_NESTED_TOO_DEEP,
};

/// A status, a reason, one against JSON and an error of a text in words, which stay for ever and end with a zero.
inline const char *text(Status status) noexcept { return oncrpc_status_text(static_cast<std::uint32_t>(status)); }
inline const char *text(Reason reason) noexcept { return oncrpc_reason_text(static_cast<std::uint32_t>(reason)); }
inline const char *text(JsonReason reason) noexcept { return oncrpc_json_text(static_cast<std::uint32_t>(reason)); }
inline const char *text(TextFault fault) noexcept { return oncrpc_fault_text(static_cast<std::uint32_t>(fault)); }

/// What a call answers in place of its result. A field that its status does not speak of is 0.
class Error final : public std::exception {
  public:
    explicit Error(Status status, const oncrpc_outcome &outcome = {}, std::uint32_t xid = 0,
                   std::uint32_t rpc_version = 0) noexcept
        : status_(status), outcome_(outcome), xid_(xid), rpc_version_(rpc_version) {}

    Status status() const noexcept { return status_; }

    /// Of Status::refused and bad_item: why.
    Reason reason() const noexcept {
        return static_cast<Reason>(status_ == Status::refused || status_ == Status::bad_item ? outcome_.why : 0);
    }

    /// Of Status::bad_json: why.
    JsonReason json_reason() const noexcept {
        return static_cast<JsonReason>(status_ == Status::bad_json ? outcome_.why : 0);
    }

    /// Of Status::refused and bad_json: the count of bytes before the place. Of Status::bad_item: that of items.
    std::size_t at() const noexcept { return outcome_.at; }

    /// Of Status::undeclared: which error, at which line and column, from 1, and the number of a schema's fault. Of
    /// Status::bad_json the line and the column of the place.
    TextFault fault() const noexcept {
        return static_cast<TextFault>(status_ == Status::undeclared ? outcome_.why : 0);
    }
    std::size_t line() const noexcept { return outcome_.line; }
    std::size_t column() const noexcept { return outcome_.column; }
    std::uint32_t inner() const noexcept { return outcome_.inner; }

    /// Of Status::other_version, bad_credential and bad_verifier of a call that was read: its xid, and its version of
    /// RPC, so that it can be answered.
    std::uint32_t xid() const noexcept { return xid_; }
    std::uint32_t rpc_version() const noexcept { return rpc_version_; }

    /// The reason, or the error of a text, in words, else the status.
    const char *what() const noexcept override {
        switch (status_) {
        case Status::refused:
        case Status::bad_item: return text(reason());
        case Status::undeclared: return text(fault());
        case Status::bad_json: return text(json_reason());
        default: return text(status_);
        }
    }

  private:
    Status status_;
    oncrpc_outcome outcome_;
    std::uint32_t xid_;
    std::uint32_t rpc_version_;
};

/// A result, or the Error in its place. To look at the one that is not there ends the program.
template <class T> class [[nodiscard]] Expected {
  public:
    Expected(T &&value) : value_(std::move(value)), error_(Status::ok) {}
    Expected(const Error &error) : error_(error) {}

    bool has_value() const noexcept { return value_.has_value(); }
    explicit operator bool() const noexcept { return has_value(); }

    T &operator*() & noexcept { return *there(); }
    const T &operator*() const & noexcept { return *const_cast<Expected *>(this)->there(); }
    T &&operator*() && noexcept { return std::move(*there()); }
    T *operator->() noexcept { return there(); }
    const T *operator->() const noexcept { return const_cast<Expected *>(this)->there(); }

    const Error &error() const noexcept {
        if (value_)
            std::abort();
        return error_;
    }

  private:
    T *there() noexcept {
        if (!value_)
            std::abort();
        return &*value_;
    }

    std::optional<T> value_;
    Error error_;
};

/// That a call was done, or the Error in place of that.
template <> class [[nodiscard]] Expected<void> {
  public:
    Expected() : error_(Status::ok) {}
    Expected(const Error &error) : error_(error) {}

    bool has_value() const noexcept { return error_.status() == Status::ok; }
    explicit operator bool() const noexcept { return has_value(); }

    const Error &error() const noexcept {
        if (has_value())
            std::abort();
        return error_;
    }

  private:
    Error error_;
};

#ifdef ONCRPC_NO_EXCEPTIONS
template <class T> using Answer = Expected<T>;
#else
template <class T> using Answer = T;
#endif

namespace detail {

template <class T> Answer<T> fails(const Error &error) {
#ifdef ONCRPC_NO_EXCEPTIONS
    return error;
#else
    throw error;
#endif
}

/// A handle of oncrpc.h, which is given back once.
template <class Handle, void (*give_back)(Handle *)> class Owned {
  public:
    Owned() noexcept = default;
    Owned(Owned &&other) noexcept : handle_(std::exchange(other.handle_, Handle ONCRPC_NONE)) {}
    Owned &operator=(Owned &&other) noexcept {
        if (this != &other) {
            give_back(&handle_);
            handle_ = std::exchange(other.handle_, Handle ONCRPC_NONE);
        }
        return *this;
    }
    ~Owned() { give_back(&handle_); }

    Handle *get() noexcept { return &handle_; }

  private:
    Handle handle_ = ONCRPC_NONE;
};

template <class Byte>
constexpr bool is_byte = std::is_same_v<Byte, char> || std::is_same_v<Byte, unsigned char> ||
                         std::is_same_v<Byte, std::byte>;

/// Goes over what a list makes by its places.
template <class List, class Value> class Iterator {
  public:
    using iterator_category = std::input_iterator_tag;
    using value_type = Value;
    using difference_type = std::ptrdiff_t;
    using pointer = void;
    using reference = Value;

    Iterator(const List *list, std::size_t at) noexcept : list_(list), at_(at) {}
    Value operator*() const noexcept { return (*list_)[at_]; }
    Iterator &operator++() noexcept { return ++at_, *this; }
    Iterator operator++(int) noexcept { return Iterator(list_, at_++); }
    friend bool operator==(Iterator left, Iterator right) noexcept { return left.at_ == right.at_; }
    friend bool operator!=(Iterator left, Iterator right) noexcept { return left.at_ != right.at_; }

  private:
    const List *list_;
    std::size_t at_;
};

/// What a container's data() leads to.
template <class Container>
using item_of = std::remove_cv_t<std::remove_pointer_t<decltype(std::declval<const Container &>().data())>>;

} // namespace detail

// ---- Bytes

/// Bytes that are read where they lie.
class Bytes {
  public:
    constexpr Bytes() noexcept = default;
    constexpr Bytes(const std::uint8_t *data, std::size_t count) noexcept : data_(data), count_(count) {}

    template <std::size_t count>
    constexpr Bytes(const std::uint8_t (&data)[count]) noexcept : data_(data), count_(count) {}

    /// Of a std::vector, array, span, string or string_view of bytes or characters.
    template <class Container, class = std::enable_if_t<detail::is_byte<detail::item_of<Container>>>>
    Bytes(const Container &from) noexcept
        : data_(reinterpret_cast<const std::uint8_t *>(from.data())), count_(from.size()) {}

    /// A literal would end at its first zero, or have one more than is meant: std::string_view says how many it has.
    Bytes(const char *) = delete;

    constexpr const std::uint8_t *data() const noexcept { return data_; }
    constexpr std::size_t size() const noexcept { return count_; }
    constexpr bool empty() const noexcept { return count_ == 0; }
    constexpr const std::uint8_t *begin() const noexcept { return data_; }
    constexpr const std::uint8_t *end() const noexcept { return data_ + count_; }
    constexpr std::uint8_t operator[](std::size_t at) const noexcept { return data_[at]; }

    /// The `count` bytes behind the first `at`; fewer where there are not so many.
    constexpr Bytes part(std::size_t at, std::size_t count = SIZE_MAX) const noexcept {
        const std::size_t first = std::min(at, count_);
        return Bytes(data_ + first, std::min(count, count_ - first));
    }

    /// The same as characters.
    std::string_view text() const noexcept { return {reinterpret_cast<const char *>(data_), count_}; }

    friend bool operator==(Bytes left, Bytes right) noexcept {
        return std::equal(left.begin(), left.end(), right.begin(), right.end());
    }
    friend bool operator!=(Bytes left, Bytes right) noexcept { return !(left == right); }

  private:
    const std::uint8_t *data_ = nullptr;
    std::size_t count_ = 0;
};

/// Bytes that a call makes.
using Buffer = std::vector<std::uint8_t>;

namespace detail {

inline const std::uint8_t *lent(std::string_view text) noexcept {
    return reinterpret_cast<const std::uint8_t *>(text.data());
}

} // namespace detail

// ---- Values and their declarations

/// How deep a value may be, from 1, and how many bytes it may have, from 4 and a multiple of four.
struct Limits {
    std::uint32_t depth = ONCRPC_MOST_DEPTH;
    std::uint32_t bytes = ONCRPC_MOST_BYTES;
};

/// A value at the front of the bytes: how many it has, and whether at least one more follows.
struct [[nodiscard]] Checked {
    std::size_t used = 0;
    bool more_follows = false;
};

/// The same, and its lines as `oncrpc show` prints them, or its JSON.
struct [[nodiscard]] Shown {
    Checked checked;
    std::string lines;
};

/// What the bytes of a part are.
enum class Role : std::uint32_t {
    number = ONCRPC_ROLE_NUMBER,
    flag = ONCRPC_ROLE_FLAG,
    length = ONCRPC_ROLE_LENGTH,
    content = ONCRPC_ROLE_CONTENT,
    group = ONCRPC_ROLE_GROUP,
};

/// The type of a part's kind.
enum class XdrType : std::uint32_t {
    int_ = ONCRPC_TYPE_INT,
    unsigned_ = ONCRPC_TYPE_UNSIGNED,
    hyper = ONCRPC_TYPE_HYPER,
    unsigned_hyper = ONCRPC_TYPE_UNSIGNED_HYPER,
    bool_ = ONCRPC_TYPE_BOOL,
    enum_ = ONCRPC_TYPE_ENUM,
    fixed_opaque = ONCRPC_TYPE_FIXED_OPAQUE,
    opaque = ONCRPC_TYPE_OPAQUE,
    string = ONCRPC_TYPE_STRING,
    fixed_array = ONCRPC_TYPE_FIXED_ARRAY,
    array = ONCRPC_TYPE_ARRAY,
    struct_ = ONCRPC_TYPE_STRUCT,
    union_ = ONCRPC_TYPE_UNION,
    optional = ONCRPC_TYPE_OPTIONAL,
    void_ = ONCRPC_TYPE_VOID,
};

/// A part of a value (oncrpc_value_part says what each field is).
struct Part {
    std::size_t at = 0;    ///< how many bytes of the input stand before it
    Bytes bytes;           ///< those of the node itself, in the input
    std::string_view name; ///< of the field or the arm, in the Parts; of a Cursor's until its next call
    std::uint32_t depth = 0;
    std::uint32_t kind = 0;
    XdrType xdr_type = XdrType::void_;
    Role role = Role::group;
};

/// The parts of a value in the order of its bytes, a node before those inside it.
class [[nodiscard]] Parts {
  public:
    using Iterator = detail::Iterator<Parts, Part>;

    /// How many bytes the value has, and whether more follow.
    Checked checked() const noexcept { return checked_; }

    std::size_t size() const noexcept { return parts_.size(); }
    bool empty() const noexcept { return parts_.empty(); }
    Iterator begin() const noexcept { return Iterator(this, 0); }
    Iterator end() const noexcept { return Iterator(this, size()); }

    Part operator[](std::size_t index) const noexcept {
        const oncrpc_value_part &part = parts_[index];
        return {part.at,
                input_.part(part.at, part.count),
                std::string_view(names_.data() + part.name_at, part.name_count),
                part.depth,
                part.kind,
                static_cast<XdrType>(part.xdr_type),
                static_cast<Role>(part.role)};
    }

  private:
    friend class Declarations;

    Bytes input_;
    std::vector<oncrpc_value_part> parts_;
    std::vector<char> names_;
    Checked checked_;
};

/// The parts of a value one by one, in the order of Parts, in memory for a frame of each open node and one name. The
/// declarations and the input outlive it, and stay where they are.
class [[nodiscard]] Cursor {
  public:
    /// How many bytes the value has, and whether more follow.
    Checked checked() const noexcept { return checked_; }

    /// The next part, or nothing behind the last. Its name stays until the next call.
    [[nodiscard]] Answer<std::optional<Part>> next() {
        oncrpc_value_part part{};
        Status status = give(part);
        while (status == Status::no_room) {
            name_.resize(part.name_count);
            status = give(part);
        }
        if (status == Status::no_part)
            return std::optional<Part>();
        if (status != Status::ok)
            return detail::fails<std::optional<Part>>(Error(status));
        return std::optional(Part{part.at, input_.part(part.at, part.count),
                                  std::string_view(name_.data(), part.name_count), part.depth, part.kind,
                                  static_cast<XdrType>(part.xdr_type), static_cast<Role>(part.role)});
    }

    /// Passes over the parts that come next, as long as they are deeper than `depth`.
    Answer<void> skip(std::uint32_t depth) {
        const auto status = static_cast<Status>(oncrpc_declarations_parts_skip(
            declarations_, handle_.get(), input_.data(), input_.size(), depth));
        return status == Status::ok ? Answer<void>() : detail::fails<void>(Error(status));
    }

  private:
    friend class Declarations;

    Cursor(oncrpc_declarations *declarations, Bytes input) : declarations_(declarations), input_(input), name_(64) {}

    Status give(oncrpc_value_part &part) {
        return static_cast<Status>(
            oncrpc_declarations_parts_next(declarations_, handle_.get(), input_.data(), input_.size(), &part,
                                           reinterpret_cast<std::uint8_t *>(name_.data()), name_.size()));
    }

    detail::Owned<oncrpc_parts, oncrpc_parts_free> handle_;
    oncrpc_declarations *declarations_;
    Bytes input_;
    std::vector<char> name_;
    Checked checked_;
};

/// The number of a part. One of any type may be looked for in either field: it is in both, where it goes into both.
struct Number {
    std::int64_t signed_number = 0; ///< where it is at most INT64_MAX; else 0
    std::uint64_t number = 0;       ///< where it is not negative; else 0
};

/// A kind of the declarations (oncrpc_kind says what each field is).
struct Kind {
    XdrType xdr_type = XdrType::void_;
    std::size_t members = 0;
    std::uint32_t size = 0;
    std::uint32_t item = 0;
};

/// A member of an enum, a field of a struct, an arm of a union, or a type (oncrpc_member says what each field is).
struct Member {
    std::string name;
    std::int64_t number = 0;
    std::uint32_t kind = 0;
};

/// The items of a value that is written, in the order of its bytes. A struct, an array of fixed size and a void have
/// none of their own; content brings its length and its padding.
class Items {
  public:
    /// An integer, a boolean, the number of an enumeration, a discriminant.
    template <class Number, class = std::enable_if_t<std::is_integral_v<Number>>> Items &number(Number number) {
        oncrpc_item item{};
        item.form = std::is_signed_v<Number> ? ONCRPC_ITEM_SIGNED : ONCRPC_ITEM_UNSIGNED;
        if constexpr (std::is_signed_v<Number>)
            item.signed_number = number;
        else
            item.number = number;
        items_.push_back(item);
        return *this;
    }

    /// Whether an optional item is there, whose items then follow.
    Items &flag(bool is_there) {
        oncrpc_item item{};
        item.form = ONCRPC_ITEM_FLAG;
        item.number = is_there;
        items_.push_back(item);
        return *this;
    }

    /// How many items of an array of variable size follow.
    Items &count(std::size_t count) {
        oncrpc_item item{};
        item.form = ONCRPC_ITEM_COUNT;
        item.count = count;
        items_.push_back(item);
        return *this;
    }

    /// The bytes of an opaque or a string, which are copied.
    Items &content(Bytes bytes) {
        oncrpc_item item{};
        item.form = ONCRPC_ITEM_CONTENT;
        item.at = data_.size();
        item.count = bytes.size();
        data_.insert(data_.end(), bytes.begin(), bytes.end());
        items_.push_back(item);
        return *this;
    }

    /// None again, whose memory serves once more.
    void clear() noexcept {
        items_.clear();
        data_.clear();
    }

  private:
    friend class Declarations;

    std::vector<oncrpc_item> items_;
    Buffer data_;
};

namespace detail {

inline Answer<Checked> checked(Status status, const oncrpc_outcome &outcome) {
    if (status != Status::ok && status != Status::more_follows)
        return fails<Checked>(Error(status, outcome));
    return Checked{outcome.at, status == Status::more_follows};
}

} // namespace detail

/// Declarations that were read, or none.
class Declarations {
  public:
    Declarations() noexcept = default;

    /// Reads declarations in the XDR language.
    [[nodiscard]] static Answer<Declarations> read(std::string_view text) {
        Declarations made;
        oncrpc_outcome outcome{};
        const auto status = static_cast<Status>(
            oncrpc_declarations_read(detail::lent(text), text.size(), made.handle_.get(), &outcome));
        if (status != Status::ok)
            return detail::fails<Declarations>(Error(status, outcome));
        return made;
    }

    /// Reads declarations in rpcgen's dialect, where these names are defined, with a space between two. Status::no_kind
    /// is that of a name which is none: letters, digits and _, no digit first, and no value.
    [[nodiscard]] static Answer<Declarations> read_dialect(std::string_view text, std::string_view names = {}) {
        Declarations made;
        oncrpc_outcome outcome{};
        const auto status = static_cast<Status>(oncrpc_declarations_read_dialect(
            detail::lent(text), text.size(), detail::lent(names), names.size(), made.handle_.get(), &outcome));
        if (status != Status::ok)
            return detail::fails<Declarations>(Error(status, outcome));
        return made;
    }

    /// Tells whether a value of the kind begins the input.
    Answer<Checked> check(std::string_view name, Bytes input, Limits limits = {}) {
        oncrpc_outcome outcome{};
        const auto status = static_cast<Status>(
            oncrpc_declarations_check(handle_.get(), detail::lent(name), name.size(), limits.depth, limits.bytes,
                                      input.data(), input.size(), &outcome));
        return detail::checked(status, outcome);
    }

    /// The lines of the value that begins the input.
    Answer<Shown> show(std::string_view name, Bytes input, Limits limits = {}) {
        Shown shown;
        oncrpc_outcome outcome{};
        std::size_t written = 0;
        Status status = show_into(name, input, limits, shown.lines, written, outcome);
        while (status == Status::no_room) {
            shown.lines.resize(outcome.at);
            status = show_into(name, input, limits, shown.lines, written, outcome);
        }
        if (status != Status::ok && status != Status::more_follows)
            return detail::fails<Shown>(Error(status, outcome));
        shown.lines.resize(written);
        shown.checked = {outcome.at, status == Status::more_follows};
        return shown;
    }

    /// The value that begins the input as JSON, with a line for each item and each member or without spaces. It takes
    /// stack for each level of the value.
    Answer<Shown> to_json(std::string_view name, Bytes input, bool is_indented = false, Limits limits = {}) {
        Shown shown;
        oncrpc_outcome outcome{};
        std::size_t written = 0;
        Status status = json_into(name, input, is_indented, limits, shown.lines, written, outcome);
        while (status == Status::no_room) {
            shown.lines.resize(outcome.at);
            status = json_into(name, input, is_indented, limits, shown.lines, written, outcome);
        }
        if (status != Status::ok && status != Status::more_follows)
            return detail::fails<Shown>(Error(status, outcome));
        shown.lines.resize(written);
        shown.checked = {outcome.at, status == Status::more_follows};
        return shown;
    }

    /// The encoding of the value that the JSON text spells. It takes stack for each level of the value.
    [[nodiscard]] Answer<Buffer> from_json(std::string_view name, std::string_view text, Limits limits = {}) {
        Buffer made;
        oncrpc_outcome outcome{};
        std::size_t written = 0;
        Status status = spelled_into(name, text, limits, made, written, outcome);
        while (status == Status::no_room) {
            made.resize(outcome.at);
            status = spelled_into(name, text, limits, made, written, outcome);
        }
        if (status != Status::ok)
            return detail::fails<Buffer>(Error(status, outcome));
        made.resize(written);
        return made;
    }

    /// Where the parts of the value that begins the input lie. A part takes 48 bytes: bound the input, or the limits.
    Answer<Parts> parts(std::string_view name, Bytes input, Limits limits = {}) {
        Parts found;
        oncrpc_parts_outcome outcome{};
        Status status = parts_into(name, input, limits, found, outcome);
        while (status == Status::no_room) {
            found.parts_.resize(outcome.parts);
            found.names_.resize(outcome.names);
            status = parts_into(name, input, limits, found, outcome);
        }
        if (status != Status::ok && status != Status::more_follows)
            return detail::fails<Parts>(Error(status, {outcome.at, 0, 0, outcome.why, 0}));
        found.parts_.resize(outcome.parts);
        found.names_.resize(outcome.names);
        found.input_ = input;
        found.checked_ = {outcome.at, status == Status::more_follows};
        return found;
    }

    /// A cursor before the first part of the value that begins the input, which is judged here.
    Answer<Cursor> cursor(std::string_view name, Bytes input, Limits limits = {}) {
        Cursor made(handle_.get(), input);
        oncrpc_outcome outcome{};
        const auto status = static_cast<Status>(oncrpc_declarations_parts_start(
            handle_.get(), detail::lent(name), name.size(), limits.depth, limits.bytes, input.data(), input.size(),
            made.handle_.get(), &outcome));
        if (status != Status::ok && status != Status::more_follows)
            return detail::fails<Cursor>(Error(status, outcome));
        made.checked_ = {outcome.at, status == Status::more_follows};
        return made;
    }

    /// The part that the path names, of the value that begins the input: `what.dir.data`, `list[3].name`. Its name is
    /// not told.
    [[nodiscard]] Answer<Part> find(std::string_view name, Bytes input, std::string_view path, Limits limits = {}) {
        oncrpc_value_part part{};
        oncrpc_outcome outcome{};
        const auto status = static_cast<Status>(oncrpc_declarations_find(
            handle_.get(), detail::lent(name), name.size(), limits.depth, limits.bytes, input.data(), input.size(),
            detail::lent(path), path.size(), &part, &outcome));
        if (status != Status::ok)
            return detail::fails<Part>(Error(status, outcome));
        return Part{part.at,    input.part(part.at, part.count),      {}, part.depth,
                    part.kind, static_cast<XdrType>(part.xdr_type), static_cast<Role>(part.role)};
    }

    /// The number of a part that was found by these declarations.
    [[nodiscard]] Answer<Number> number(const Part &part) {
        oncrpc_value_part lent{};
        lent.count = part.bytes.size();
        lent.kind = part.kind;
        lent.role = static_cast<std::uint32_t>(part.role);
        oncrpc_number told{};
        const auto status = static_cast<Status>(
            oncrpc_part_number(handle_.get(), part.bytes.data(), part.bytes.size(), &lent, &told));
        if (status != Status::ok)
            return detail::fails<Number>(Error(status));
        return Number{told.signed_number, told.number};
    }

    /// Which kind has the name: its number, as of a part.
    [[nodiscard]] Answer<std::uint32_t> named(std::string_view name) {
        std::uint32_t kind = 0;
        const auto status = static_cast<Status>(
            oncrpc_declarations_named(handle_.get(), detail::lent(name), name.size(), &kind));
        if (status != Status::ok)
            return detail::fails<std::uint32_t>(Error(status));
        return kind;
    }

    /// What the kind of this number is.
    [[nodiscard]] Answer<Kind> kind(std::uint32_t kind) {
        oncrpc_kind told{};
        const auto status = static_cast<Status>(oncrpc_declarations_kind(handle_.get(), kind, &told));
        if (status != Status::ok)
            return detail::fails<Kind>(Error(status));
        return Kind{static_cast<XdrType>(told.xdr_type), told.members, told.size, told.item};
    }

    /// The member of an enum, or the field of a struct, that `index` others are before.
    [[nodiscard]] Answer<Member> member(std::uint32_t kind, std::size_t index) {
        return member_by([&](std::uint8_t *buffer, std::size_t count, oncrpc_member *member) {
            return oncrpc_declarations_member(handle_.get(), kind, index, buffer, count, member);
        });
    }

    /// The first member of an enum with this number, or the arm of a union under it.
    [[nodiscard]] Answer<Member> picked(std::uint32_t kind, std::int64_t number) {
        return member_by([&](std::uint8_t *buffer, std::size_t count, oncrpc_member *member) {
            return oncrpc_declarations_picked(handle_.get(), kind, number, buffer, count, member);
        });
    }

    /// The types that the text declares, in its order: the kind of each with its name.
    [[nodiscard]] Answer<std::vector<Member>> types() {
        std::vector<Member> all;
        Status status = Status::ok;
        while (status == Status::ok) {
            Member made;
            status = tell_member(made, [&](std::uint8_t *buffer, std::size_t count, oncrpc_member *member) {
                return oncrpc_declarations_type(handle_.get(), all.size(), buffer, count, member);
            });
            if (status == Status::ok)
                all.push_back(std::move(made));
        }
        if (status != Status::no_member)
            return detail::fails<std::vector<Member>>(Error(status));
        return all;
    }

    /// The encoding of the value that has these items.
    [[nodiscard]] Answer<Buffer> write(std::string_view name, const Items &items, Limits limits = {}) {
        Buffer made;
        oncrpc_outcome outcome{};
        std::size_t written = 0;
        Status status = write_into(name, items, limits, made, written, outcome);
        while (status == Status::no_room) {
            made.resize(outcome.at);
            status = write_into(name, items, limits, made, written, outcome);
        }
        if (status != Status::ok)
            return detail::fails<Buffer>(Error(status, outcome));
        return made;
    }

    /// The handle, for a call of oncrpc.h. It stays this object's.
    oncrpc_declarations *handle() noexcept { return handle_.get(); }

  private:
    template <class Tell> Answer<Member> member_by(Tell tell) {
        Member made;
        const auto status = tell_member(made, tell);
        if (status != Status::ok)
            return detail::fails<Member>(Error(status));
        return made;
    }

    template <class Tell> static Status tell_member(Member &made, Tell tell) {
        oncrpc_member member{};
        auto status = static_cast<Status>(tell(nullptr, 0, &member));
        if (status == Status::no_room) {
            made.name.resize(member.name_count);
            status = static_cast<Status>(
                tell(reinterpret_cast<std::uint8_t *>(made.name.data()), made.name.size(), &member));
        }
        made.number = member.number;
        made.kind = member.kind;
        return status;
    }

    Status show_into(std::string_view name, Bytes input, Limits limits, std::string &lines, std::size_t &written,
                     oncrpc_outcome &outcome) {
        return static_cast<Status>(oncrpc_declarations_show(
            handle_.get(), detail::lent(name), name.size(), limits.depth, limits.bytes, input.data(), input.size(),
            reinterpret_cast<std::uint8_t *>(lines.data()), lines.size(), &written, &outcome));
    }

    Status json_into(std::string_view name, Bytes input, bool is_indented, Limits limits, std::string &lines,
                     std::size_t &written, oncrpc_outcome &outcome) {
        return static_cast<Status>(oncrpc_declarations_to_json(
            handle_.get(), detail::lent(name), name.size(), limits.depth, limits.bytes, input.data(), input.size(),
            is_indented, reinterpret_cast<std::uint8_t *>(lines.data()), lines.size(), &written, &outcome));
    }

    Status spelled_into(std::string_view name, std::string_view text, Limits limits, Buffer &made, std::size_t &written,
                        oncrpc_outcome &outcome) {
        return static_cast<Status>(oncrpc_declarations_from_json(
            handle_.get(), detail::lent(name), name.size(), limits.depth, limits.bytes, detail::lent(text), text.size(),
            made.data(), made.size(), &written, &outcome));
    }

    Status write_into(std::string_view name, const Items &items, Limits limits, Buffer &made, std::size_t &written,
                      oncrpc_outcome &outcome) {
        return static_cast<Status>(oncrpc_declarations_write(
            handle_.get(), detail::lent(name), name.size(), limits.depth, limits.bytes, items.items_.data(),
            items.items_.size(), items.data_.data(), items.data_.size(), made.data(), made.size(), &written, &outcome));
    }

    Status parts_into(std::string_view name, Bytes input, Limits limits, Parts &found, oncrpc_parts_outcome &outcome) {
        return static_cast<Status>(oncrpc_declarations_parts(
            handle_.get(), detail::lent(name), name.size(), limits.depth, limits.bytes, input.data(), input.size(),
            found.parts_.data(), found.parts_.size(), reinterpret_cast<std::uint8_t *>(found.names_.data()),
            found.names_.size(), &outcome));
    }

    detail::Owned<oncrpc_declarations, oncrpc_declarations_free> handle_;
};

/// Declarations::check with a text that is read for this one call.
inline Answer<Checked> check(std::string_view text, std::string_view name, Bytes input, Limits limits = {}) {
    oncrpc_outcome outcome{};
    const auto status =
        static_cast<Status>(oncrpc_check(detail::lent(text), text.size(), detail::lent(name), name.size(), limits.depth,
                                         limits.bytes, input.data(), input.size(), &outcome));
    return detail::checked(status, outcome);
}

// ---- Messages

/// A credential or a verifier: its flavor, and its body of at most ONCRPC_MOST_BODY bytes, without the padding.
struct Auth {
    std::uint32_t flavor = 0;
    Bytes body;
};

namespace detail {

/// What a writer puts into a buffer of the size that it asks for when it has none.
template <class Write> Answer<Buffer> written(Write write) {
    Buffer message;
    std::size_t count = 0;
    auto status = static_cast<Status>(write(message.data(), message.size(), &count));
    while (status == Status::no_room) {
        message.resize(count);
        status = static_cast<Status>(write(message.data(), message.size(), &count));
    }
    if (status != Status::ok)
        return fails<Buffer>(Error(status));
    message.resize(count);
    return message;
}

inline Bytes lent(Bytes message, const oncrpc_part &part) noexcept { return message.part(part.at, part.count); }

} // namespace detail

/// A call of version 2 of RPC.
struct Call {
    std::uint32_t xid = 0;
    std::uint32_t program = 0;
    std::uint32_t version = 0;
    std::uint32_t procedure = 0;
    Auth credential;
    Auth verifier;
    Bytes arguments;

    /// Reads a call, and takes no memory.
    [[nodiscard]] static Answer<Call> read(Bytes message) {
        oncrpc_call call{};
        const auto status = static_cast<Status>(oncrpc_call_read(message.data(), message.size(), &call));
        if (status != Status::ok)
            return detail::fails<Call>(Error(status, {}, call.xid, call.rpc_version));
        return Call{call.xid,
                    call.program,
                    call.version,
                    call.procedure,
                    {call.credential_flavor, detail::lent(message, call.credential)},
                    {call.verifier_flavor, detail::lent(message, call.verifier)},
                    detail::lent(message, call.arguments)};
    }

    /// The bytes of the call.
    [[nodiscard]] Answer<Buffer> write() const {
        oncrpc_call call{};
        call.xid = xid;
        call.program = program;
        call.version = version;
        call.procedure = procedure;
        call.credential_flavor = credential.flavor;
        call.verifier_flavor = verifier.flavor;
        return detail::written([&](std::uint8_t *buffer, std::size_t size, std::size_t *count) {
            return oncrpc_call_write(&call, credential.body.data(), credential.body.size(), verifier.body.data(),
                                     verifier.body.size(), arguments.data(), arguments.size(), buffer, size, count);
        });
    }
};

/// What an accepted call came to, or why one was denied.
enum class State : std::uint32_t {
    success = ONCRPC_SUCCESS,
    prog_unavail = ONCRPC_PROG_UNAVAIL,
    prog_mismatch = ONCRPC_PROG_MISMATCH,
    proc_unavail = ONCRPC_PROC_UNAVAIL,
    garbage_args = ONCRPC_GARBAGE_ARGS,
    system_err = ONCRPC_SYSTEM_ERR,
    rpc_mismatch = ONCRPC_RPC_MISMATCH,
    auth_error = ONCRPC_AUTH_ERROR,
};

/// A reply. What its state does not speak of is 0, and not written.
struct Reply {
    std::uint32_t xid = 0;
    State state = State::success;
    Auth verifier;               ///< of an accepted reply
    Bytes results;               ///< of State::success
    std::uint32_t low = 0;       ///< of State::prog_mismatch and rpc_mismatch, the versions from this one
    std::uint32_t high = 0;      ///< to this one
    std::uint32_t auth_stat = 0; ///< of State::auth_error

    /// Reads a reply, all of the bytes.
    [[nodiscard]] static Answer<Reply> read(Bytes message) {
        oncrpc_reply reply{};
        const auto status = static_cast<Status>(oncrpc_reply_read(message.data(), message.size(), &reply));
        if (status != Status::ok)
            return detail::fails<Reply>(Error(status));
        return Reply{reply.xid,
                     static_cast<State>(reply.state),
                     {reply.verifier_flavor, detail::lent(message, reply.verifier)},
                     detail::lent(message, reply.results),
                     reply.low,
                     reply.high,
                     reply.auth_stat};
    }

    /// The bytes of the reply.
    [[nodiscard]] Answer<Buffer> write() const {
        oncrpc_reply reply{};
        reply.xid = xid;
        reply.state = static_cast<std::uint32_t>(state);
        reply.low = low;
        reply.high = high;
        reply.auth_stat = auth_stat;
        reply.verifier_flavor = verifier.flavor;
        return detail::written([&](std::uint8_t *buffer, std::size_t size, std::size_t *count) {
            return oncrpc_reply_write(&reply, verifier.body.data(), verifier.body.size(), results.data(),
                                      results.size(), buffer, size, count);
        });
    }
};

/// The body of a credential of the flavor 1. It is what the caller says, and proves nothing.
struct AuthSys {
    std::uint32_t stamp = 0;
    std::string_view machine; ///< at most 255 bytes
    std::uint32_t uid = 0;
    std::uint32_t gid = 0;
    std::vector<std::uint32_t> gids; ///< at most 16

    /// Reads such a body, all of the bytes.
    [[nodiscard]] static Answer<AuthSys> read(Bytes body) {
        oncrpc_auth_sys auth{};
        const auto status = static_cast<Status>(oncrpc_auth_sys_read(body.data(), body.size(), &auth));
        if (status != Status::ok)
            return detail::fails<AuthSys>(Error(status));
        return AuthSys{auth.stamp, detail::lent(body, auth.machine).text(), auth.uid, auth.gid,
                       std::vector<std::uint32_t>(auth.gids, auth.gids + auth.gid_count)};
    }

    /// The bytes of the body.
    [[nodiscard]] Answer<Buffer> write() const {
        oncrpc_auth_sys auth{};
        if (gids.size() > std::size(auth.gids))
            return detail::fails<Buffer>(Error(Status::not_auth_sys));
        auth.stamp = stamp;
        auth.uid = uid;
        auth.gid = gid;
        auth.gid_count = static_cast<std::uint32_t>(gids.size());
        std::copy(gids.begin(), gids.end(), auth.gids);
        return detail::written([&](std::uint8_t *buffer, std::size_t size, std::size_t *count) {
            return oncrpc_auth_sys_write(&auth, detail::lent(machine), machine.size(), buffer, size, count);
        });
    }
};

// ---- The registry

/// What a record came over: `local` is a Unix socket of the host, for Registry::answer_from and Session::start.
enum class Transport { tcp, udp, local };

namespace detail {
inline std::string_view netid(Transport over) noexcept {
    return over == Transport::tcp ? "tcp" : over == Transport::udp ? "udp" : "local";
}
} // namespace detail

/// Who sends a record.
enum class Peer : std::uint32_t {
    remote = ONCRPC_PEER_REMOTE,
    local = ONCRPC_PEER_LOCAL,
    local_user = ONCRPC_PEER_LOCAL_USER,
};

/// What the program that has the socket knows of a call beside its bytes: by default someone at another host, who is
/// not trusted.
struct Caller {
    Peer peer = Peer::remote;
    std::uint32_t uid = 0; // of Peer::local_user
    std::optional<std::array<std::uint8_t, 4>> host{};
    bool trusts_remote = false;

    /// The same for a call of oncrpc.h.
    oncrpc_caller told() const noexcept {
        oncrpc_caller made{};
        made.peer = static_cast<std::uint32_t>(peer);
        made.uid = uid;
        made.has_host = host.has_value();
        if (host)
            std::copy(host->begin(), host->end(), made.host);
        made.trusts_remote = trusts_remote;
        return made;
    }
};

/// A row of a registry, whose texts stand in the Rows.
struct Row {
    std::uint32_t program = 0;
    std::uint32_t version = 0;
    std::string_view netid;
    std::string_view address;
    std::string_view owner;
};

/// The rows of a registry, in the order in which they were added.
class [[nodiscard]] Rows {
  public:
    using Iterator = detail::Iterator<Rows, Row>;

    std::size_t size() const noexcept { return rows_.size(); }
    bool empty() const noexcept { return rows_.empty(); }
    Iterator begin() const noexcept { return Iterator(this, 0); }
    Iterator end() const noexcept { return Iterator(this, size()); }

    Row operator[](std::size_t index) const noexcept {
        const oncrpc_registry_row &row = rows_[index];
        const Bytes texts(texts_);
        return {row.program, row.version, detail::lent(texts, row.netid).text(),
                detail::lent(texts, row.address).text(), detail::lent(texts, row.owner).text()};
    }

  private:
    friend class Registry;

    std::vector<oncrpc_registry_row> rows_;
    Buffer texts_;
};

/// A host and a port over IPv4, which as text are a universal address.
struct Address {
    std::array<std::uint8_t, 4> host{};
    std::uint16_t port = 0;

    [[nodiscard]] static Answer<Address> read(std::string_view text) {
        Address address;
        const auto status = static_cast<Status>(
            oncrpc_uaddr_read(text.data(), text.size(), address.host.data(), &address.port));
        if (status != Status::ok)
            return detail::fails<Address>(Error(status));
        return address;
    }

    [[nodiscard]] Answer<std::string> write() const {
        std::array<char, 23> room;
        std::size_t count = 0;
        const auto status = static_cast<Status>(
            oncrpc_uaddr_write(host.data(), port, reinterpret_cast<std::uint8_t *>(room.data()), room.size(), &count));
        if (status != Status::ok)
            return detail::fails<std::string>(Error(status));
        return std::string(room.data(), count);
    }
};

/// A registry, or none. Who may change its rows is said at oncrpc_registry_answer.
class Registry {
  public:
    Registry() noexcept = default;

    /// A registry with its own rows, at this port. The seed is bytes that the peers cannot know.
    [[nodiscard]] static Answer<Registry> start(std::uint16_t port, Bytes seed) {
        Registry made;
        oncrpc_outcome outcome{};
        const auto status = static_cast<Status>(
            oncrpc_registry_start(made.handle_.get(), port, seed.data(), seed.size(), &outcome));
        if (status != Status::ok)
            return detail::fails<Registry>(Error(status, outcome));
        return made;
    }

    /// Answers a record. `reply` is filled anew; false where there is none, and nothing is to be sent. Where its memory
    /// is refused by an exception, the reply waits for Registry::reply, and what was asked for is done.
    [[nodiscard]] Answer<bool> answer(Transport over, Bytes record, Buffer &reply) {
        const std::string_view netid = detail::netid(over);
        oncrpc_outcome outcome{};
        const auto status = static_cast<Status>(
            oncrpc_registry_answer(handle_.get(), detail::lent(netid), netid.size(), record.data(), record.size(),
                                   reply.data(), reply.size(), &outcome));
        return placed(status, outcome, reply);
    }

    /// The same by who sent the record, as oncrpc_registry_answer_from says.
    [[nodiscard]] Answer<bool> answer_from(const Caller &caller, Transport over, Bytes record, Buffer &reply) {
        const std::string_view netid = detail::netid(over);
        const oncrpc_caller told = caller.told();
        oncrpc_outcome outcome{};
        const auto status = static_cast<Status>(
            oncrpc_registry_answer_from(handle_.get(), &told, detail::lent(netid), netid.size(), record.data(),
                                        record.size(), reply.data(), reply.size(), &outcome));
        return placed(status, outcome, reply);
    }

    /// The reply that waits; false where none does.
    [[nodiscard]] Answer<bool> reply(Buffer &reply) {
        oncrpc_outcome outcome{};
        const auto status =
            static_cast<Status>(oncrpc_registry_reply(handle_.get(), reply.data(), reply.size(), &outcome));
        return placed(status, outcome, reply);
    }

    /// Adds a row at the end; false where oncrpc_registry_set says that it is not added.
    [[nodiscard]] Answer<bool> set(std::uint32_t program, std::uint32_t version, std::string_view netid,
                                   std::string_view address, std::string_view owner) {
        oncrpc_outcome outcome{};
        return changed(oncrpc_registry_set(handle_.get(), program, version, detail::lent(netid), netid.size(),
                                           detail::lent(address), address.size(), detail::lent(owner), owner.size(),
                                           &outcome));
    }

    /// Removes rows; false where there is none that the owner may remove.
    [[nodiscard]] Answer<bool> unset(std::uint32_t program, std::uint32_t version, std::string_view netid,
                                     std::string_view owner) {
        oncrpc_outcome outcome{};
        return changed(oncrpc_registry_unset(handle_.get(), program, version, detail::lent(netid), netid.size(),
                                             detail::lent(owner), owner.size(), &outcome));
    }

    /// All rows.
    Answer<Rows> rows() {
        Rows found;
        oncrpc_rows_outcome outcome{};
        Status status = rows_into(found, outcome);
        while (status == Status::no_room) {
            found.rows_.resize(outcome.rows);
            found.texts_.resize(outcome.bytes);
            status = rows_into(found, outcome);
        }
        if (status != Status::ok)
            return detail::fails<Rows>(Error(status));
        return found;
    }

    /// The handle, for a call of oncrpc.h. It stays this object's.
    oncrpc_registry *handle() noexcept { return handle_.get(); }

  private:
    /// Whether a reply stands in the buffer after this status. One that waits for a larger buffer gets it.
    Answer<bool> placed(Status status, oncrpc_outcome outcome, Buffer &reply) {
        while (status == Status::no_room) {
            reply.resize(outcome.at);
            status = static_cast<Status>(oncrpc_registry_reply(handle_.get(), reply.data(), reply.size(), &outcome));
        }
        reply.resize(outcome.at);
        if (status != Status::ok && status != Status::silence)
            return detail::fails<bool>(Error(status));
        return status == Status::ok;
    }

    Status rows_into(Rows &found, oncrpc_rows_outcome &outcome) {
        return static_cast<Status>(oncrpc_registry_rows(handle_.get(), found.rows_.data(), found.rows_.size(),
                                                        found.texts_.data(), found.texts_.size(), &outcome));
    }

    static Answer<bool> changed(std::uint32_t answer) {
        const auto status = static_cast<Status>(answer);
        if (status != Status::ok && status != Status::unchanged)
            return detail::fails<bool>(Error(status));
        return status == Status::ok;
    }

    detail::Owned<oncrpc_registry, oncrpc_registry_free> handle_;
};

// ---- Connections to a registry

/// What a session did with a piece. Status::ok: the first `used` bytes were taken, and the record that they end was
/// answered. more_wanted: all were taken. output_waits: none was, and output is to be written first.
struct Fed {
    Status status;
    std::size_t used;
};

/// One connection to a registry, or none.
class Session {
  public:
    Session() noexcept = default;

    /// A session before the first byte of a connection of this caller, over Transport::tcp or local. While more than
    /// `bound` bytes of its output wait, it takes nothing.
    [[nodiscard]] static Answer<Session> start(Transport over, const Caller &caller, std::uint32_t bound) {
        Session made;
        const std::string_view netid = detail::netid(over);
        const oncrpc_caller told = caller.told();
        oncrpc_outcome outcome{};
        const auto status = static_cast<Status>(oncrpc_session_start(
            made.handle_.get(), detail::lent(netid), netid.size(), &told, bound, &outcome));
        if (status != Status::ok)
            return detail::fails<Session>(Error(status, outcome));
        return made;
    }

    /// Takes bytes of the piece up to the end of a record, which the registry answers. By Status::refused and no_memory
    /// it fails from then on, and the connection is to be closed, once what waits was written.
    [[nodiscard]] Answer<Fed> feed(Registry &registry, Bytes piece) {
        oncrpc_outcome outcome{};
        const auto status = static_cast<Status>(
            oncrpc_session_feed(handle_.get(), registry.handle(), piece.data(), piece.size(), &outcome));
        if (status != Status::ok && status != Status::more_wanted && status != Status::output_waits)
            return detail::fails<Fed>(Error(status, outcome));
        return Fed{status, status == Status::more_wanted ? piece.size() : outcome.at};
    }

    /// Puts the first bytes of the output into `buffer`, which is made as short as they are where fewer wait than go
    /// into it. They wait on, until Session::took tells that they were written.
    Answer<void> output(Buffer &buffer) {
        oncrpc_outcome outcome{};
        const auto status =
            static_cast<Status>(oncrpc_session_output(handle_.get(), buffer.data(), buffer.size(), &outcome));
        buffer.resize(outcome.at);
        if (status != Status::ok && status != Status::more_follows)
            return detail::fails<void>(Error(status, outcome));
        return Answer<void>();
    }

    /// Tells that the first `count` bytes of the output were written, and says how many wait then.
    Answer<std::size_t> took(std::size_t count) {
        oncrpc_outcome outcome{};
        const auto status = static_cast<Status>(oncrpc_session_took(handle_.get(), count, &outcome));
        if (status != Status::ok)
            return detail::fails<std::size_t>(Error(status, outcome));
        return std::size_t{outcome.at};
    }

    /// The handle, for a call of oncrpc.h. It stays this object's.
    oncrpc_session *handle() noexcept { return handle_.get(); }

  private:
    detail::Owned<oncrpc_session, oncrpc_session_free> handle_;
};

// ---- Records in fragments

/// A reader of one stream of records, or none.
class Records {
  public:
    Records() noexcept = default;

    /// A reader before the first byte of a stream whose records may have `limit` bytes, at most ONCRPC_MOST_RECORD.
    [[nodiscard]] static Answer<Records> start(std::uint32_t limit) {
        Records made;
        oncrpc_outcome outcome{};
        const auto status = static_cast<Status>(oncrpc_records_start(made.handle_.get(), limit, &outcome));
        if (status != Status::ok)
            return detail::fails<Records>(Error(status, outcome));
        return made;
    }

    /// Takes bytes of the piece up to the end of a record, which then waits for Records::take, and says how many. The
    /// others are to be fed again. Nothing where all were taken, and no record is whole.
    [[nodiscard]] Answer<std::optional<std::size_t>> feed(Bytes piece) {
        oncrpc_outcome outcome{};
        const auto status =
            static_cast<Status>(oncrpc_records_feed(handle_.get(), piece.data(), piece.size(), &outcome));
        if (status != Status::ok && status != Status::more_wanted)
            return detail::fails<std::optional<std::size_t>>(Error(status, outcome));
        return status == Status::ok ? std::optional(outcome.at) : std::nullopt;
    }

    /// The record that waits. `record` is filled anew; false where none waits. Where its memory is refused by an
    /// exception, the record waits on.
    [[nodiscard]] Answer<bool> take(Buffer &record) {
        oncrpc_outcome outcome{};
        auto status = static_cast<Status>(oncrpc_records_take(handle_.get(), record.data(), record.size(), &outcome));
        while (status == Status::no_room) {
            record.resize(outcome.at);
            status = static_cast<Status>(oncrpc_records_take(handle_.get(), record.data(), record.size(), &outcome));
        }
        record.resize(outcome.at);
        if (status != Status::ok && status != Status::no_record)
            return detail::fails<bool>(Error(status, outcome));
        return status == Status::ok;
    }

    /// Fails where the stream may not end behind the bytes that were taken.
    Answer<void> end() {
        oncrpc_outcome outcome{};
        const auto status = static_cast<Status>(oncrpc_records_end(handle_.get(), &outcome));
        return status == Status::ok ? Answer<void>() : detail::fails<void>(Error(status, outcome));
    }

    /// The handle, for a call of oncrpc.h. It stays this object's.
    oncrpc_records *handle() noexcept { return handle_.get(); }

  private:
    detail::Owned<oncrpc_records, oncrpc_records_free> handle_;
};

/// The header of a fragment of so many bytes, which is its record's last or not.
inline Answer<std::array<std::uint8_t, 4>> record_header(std::size_t count, bool is_last = true) {
    std::array<std::uint8_t, 4> header{};
    const auto status = static_cast<Status>(oncrpc_record_header(count, is_last, header.data()));
    if (status != Status::ok)
        return detail::fails<std::array<std::uint8_t, 4>>(Error(status));
    return header;
}

/// The ONCRPC_VERSION_NUMBER of the library.
inline std::uint32_t version() noexcept { return oncrpc_version(); }

/// Puts each record of the input into `marked` as one fragment, its last, where a record may have `limit` bytes. Where
/// it fails by Status::refused, those before the refusal stand there.
inline Answer<void> normalise(Bytes input, std::uint32_t limit, Buffer &marked) {
    oncrpc_outcome outcome{};
    std::size_t written = 0;
    marked.resize(input.size()); // A record has at least the header that is written for it.
    const auto status = static_cast<Status>(
        oncrpc_normalise(input.data(), input.size(), limit, marked.data(), marked.size(), &written, &outcome));
    marked.resize(written);
    return status == Status::ok ? Answer<void>() : detail::fails<void>(Error(status, outcome));
}

} // namespace returning or throwing
} // namespace oncrpc

#endif
