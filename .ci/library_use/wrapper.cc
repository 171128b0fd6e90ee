// Each call of oncrpc.hpp, with exceptions or, where the compiler is told so, without them: each result and each status
// by its name. Compiled once in either way, and linked into one program by wrappers.cc.
#include <array>
#include <cstdio>
#include <string>
#include <type_traits>
#include <utility>
#include <vector>

#include "oncrpc.hpp"

using namespace oncrpc;
using namespace std::literals;

#ifdef ONCRPC_NO_EXCEPTIONS
#define WRONG_OF_THIS wrong_by_returning
template <class Call> auto got(Call call) { return call(); }
#else
#define WRONG_OF_THIS wrong_by_throwing
template <class Call> auto got(Call call) -> Expected<decltype(call())> {
    try {
        if constexpr (std::is_void_v<decltype(call())>) {
            call();
            return {};
        } else {
            return call();
        }
    } catch (const Error &error) {
        return error;
    }
}
#endif

#define GOT(...) got([&]() -> decltype(__VA_ARGS__) { return __VA_ARGS__; })
#define JUDGE(...) judge((__VA_ARGS__), __LINE__)

unsigned WRONG_OF_THIS();

namespace {

unsigned wrong = 0;

void judge(bool is_right, int line) {
    if (!is_right) {
        std::printf("%s:%d: wrong\n", __FILE__, line);
        wrong++;
    }
}

Buffer words(std::initializer_list<std::uint32_t> from) {
    Buffer made;
    for (std::uint32_t word : from)
        for (int shift : {24, 16, 8, 0})
            made.push_back(static_cast<std::uint8_t>(word >> shift));
    return made;
}

template <class T>
bool fails(const Expected<T> &answer, Status status, Reason reason = Reason::none, std::size_t at = 0) {
    if (answer)
        return false;
    return answer.error().status() == status && answer.error().reason() == reason && answer.error().at() == at;
}

// After RFC 4506 section 7, with the value that the RFC gives.
constexpr std::string_view file_text = "const MAXUSERNAME = 32; const MAXFILELEN = 65535; const MAXNAMELEN = 255;"
                                       "enum filekind { TEXT = 0, DATA = 1, EXEC = 2 };"
                                       "union filetype switch (filekind kind) {"
                                       "case TEXT: void; case DATA: string creator<MAXNAMELEN>;"
                                       "case EXEC: string interpretor<MAXNAMELEN>; };"
                                       "struct file { string filename<MAXNAMELEN>; filetype type;"
                                       "string owner<MAXUSERNAME>; opaque data<MAXFILELEN>; };";
constexpr std::string_view file_bytes = "\0\0\0\11sillyprog\0\0\0\0\0\0\2\0\0\0\4lisp\0\0\0\4john\0\0\0\6(quit)\0\0"sv;
constexpr std::string_view file_lines = "struct\n  filename: \"sillyprog\"\n  type: case EXEC = 2\n"
                                        "    interpretor: \"lisp\"\n  owner: \"john\"\n  data: 0x287175697429\n";

void check_values() {
    auto read = GOT(Declarations::read(file_text));
    JUDGE(read.has_value());
    Declarations &declarations = *read;
    const std::string longer = std::string(file_bytes) + "?";
    auto whole = GOT(declarations.check("file", file_bytes));
    JUDGE(whole && whole->used == 48 && !whole->more_follows);
    whole = GOT(declarations.check("file", longer));
    JUDGE(whole && whole->used == 48 && whole->more_follows);
    JUDGE(fails(GOT(declarations.check("file", file_bytes.substr(0, 47))), Status::refused, Reason::truncated, 47));
    JUDGE(fails(GOT(declarations.check("file", file_bytes, {2, 64})), Status::refused, Reason::too_deep, 20));
    JUDGE(fails(GOT(declarations.check("file", file_bytes, {0, 64})), Status::bad_limits));
    JUDGE(fails(GOT(declarations.check("folder", file_bytes)), Status::no_kind));
    JUDGE(fails(GOT(check(file_text, "filekind", words({3}))), Status::refused, Reason::bad_numbered));
    auto shown = GOT(declarations.show("file", longer));
    JUDGE(shown && shown->lines == file_lines && shown->checked.used == 48 && shown->checked.more_follows);
    JUDGE(fails(GOT(declarations.show("file", file_bytes.substr(0, 5))), Status::refused, Reason::truncated, 5));
    JUDGE(fails(GOT(declarations.parts("bool", words({2}))), Status::refused, Reason::bad_bool));
    JUDGE(declarations.handle()->live);
}

void check_parts() {
    auto declarations = std::move(*GOT(Declarations::read(file_text)));
    auto found = GOT(declarations.parts("file", file_bytes));
    JUDGE(found && found->size() == 10 && !found->empty() && found->checked().used == 48);
    const Parts parts = std::move(*found);
    std::string said;
    for (const Part &part : parts)
        if (part.role == Role::content)
            said += std::string(part.name) + "=" + std::string(part.bytes.text()) + "@" + std::to_string(part.at) + " ";
    JUDGE(said == "filename=sillyprog@4 interpretor=lisp@24 owner=john@32 data=(quit)@40 ");
    JUDGE(parts[0].role == Role::group && parts[0].xdr_type == XdrType::struct_ && parts[0].name.empty());
    JUDGE(parts[3].xdr_type == XdrType::union_ && parts[3].bytes == words({2}) && parts[3].depth == 2);
    JUDGE(parts[2].kind != parts[9].kind && parts[9].xdr_type == XdrType::opaque && parts[9].bytes[0] == '(');
}

// One part of the file of the RFC by its path, numbers of parts, kinds and their members.
void check_paths() {
    auto declarations = std::move(*GOT(Declarations::read(file_text)));
    auto found = GOT(declarations.find("file", file_bytes, "type.interpretor"));
    JUDGE(found && found->at == 24 && found->bytes.text() == "lisp" && found->depth == 3 && found->name.empty());
    JUDGE(found && found->role == Role::content && found->xdr_type == XdrType::string);
    JUDGE(found && fails(GOT(declarations.number(*found)), Status::no_number));
    JUDGE(fails(GOT(declarations.find("file", file_bytes, "type.creator")), Status::no_such_part));
    JUDGE(fails(GOT(declarations.find("folder", file_bytes, "")), Status::no_kind));
    JUDGE(fails(GOT(declarations.find("bool", file_bytes, "")), Status::refused, Reason::bad_bool));
    found = GOT(declarations.find("file", file_bytes, "type"));
    JUDGE(found && GOT(declarations.number(*found))->signed_number == 2);
    const auto kind = GOT(declarations.kind(found->kind));
    JUDGE(kind && kind->xdr_type == XdrType::union_ && kind->item == *GOT(declarations.named("filekind")));
    const auto member = GOT(declarations.picked(kind->item, 2));
    JUDGE(member && member->name == "EXEC" && member->number == 2 && member->kind == kind->item);
    const auto place = *GOT(declarations.named("file"));
    const auto file = GOT(declarations.kind(place));
    JUDGE(file && file->xdr_type == XdrType::struct_ && file->members == 4 && !file->size && !file->item);
    const auto data = GOT(declarations.member(place, 3));
    JUDGE(data && data->name == "data" && GOT(declarations.kind(data->kind))->size == 65535);
    JUDGE(fails(GOT(declarations.member(kind->item, 3)), Status::no_member));
    JUDGE(fails(GOT(declarations.kind(1024)), Status::no_kind));
    JUDGE(fails(GOT(declarations.named("folder")), Status::no_kind));
    const auto types = GOT(declarations.types());
    JUDGE(types && types->size() == 3 && (*types)[0].name == "filekind" && (*types)[0].kind == kind->item);
    JUDGE((*types)[1].name == "filetype" && (*types)[2].name == "file" && (*types)[2].kind == place);
    JUDGE(fails(GOT(Declarations().types()), Status::no_declarations));
    const auto least = words({0x80000000, 0});
    found = GOT(declarations.find("hyper", least, ""));
    JUDGE(found && GOT(declarations.number(*found))->signed_number == INT64_MIN);
    found = GOT(declarations.find("unsigned-hyper", least, ""));
    JUDGE(found && GOT(declarations.number(*found))->number == std::uint64_t{1} << 63);
}

// The parts of the file of the RFC one by one, and those that are passed over.
void check_cursor() {
    auto declarations = std::move(*GOT(Declarations::read(file_text)));
    auto cursor = std::move(*GOT(declarations.cursor("file", file_bytes)));
    JUDGE(cursor.checked().used == 48 && !cursor.checked().more_follows);
    std::string said;
    auto part = *GOT(cursor.next());
    while (part) {
        if (part->role == Role::content)
            said += std::string(part->name) + "=" + std::string(part->bytes.text()) + "@" +
                    std::to_string(part->at) + " ";
        part = *GOT(cursor.next());
    }
    JUDGE(said == "filename=sillyprog@4 interpretor=lisp@24 owner=john@32 data=(quit)@40 ");
    JUDGE(!*GOT(cursor.next()));
    cursor = std::move(*GOT(declarations.cursor("file", file_bytes)));
    JUDGE((*GOT(cursor.next()))->xdr_type == XdrType::struct_);
    JUDGE(GOT(cursor.skip(1)).has_value() && !*GOT(cursor.next()));
    JUDGE(fails(GOT(declarations.cursor("folder", file_bytes)), Status::no_kind));
    JUDGE(fails(GOT(declarations.cursor("bool", file_bytes)), Status::refused, Reason::bad_bool));
}

// A name of more bytes than a cursor has room for at first, and a word behind the value.
void check_long_name() {
    const std::string name(65, 'n');
    const Buffer input = words({1, 2, 3});
    auto declarations = std::move(*GOT(Declarations::read("struct wide { int " + name + "; int b; };")));
    auto cursor = std::move(*GOT(declarations.cursor("wide", input)));
    JUDGE(cursor.checked().used == 8 && cursor.checked().more_follows);
    JUDGE((*GOT(cursor.next()))->depth == 1);
    const auto part = *GOT(cursor.next());
    JUDGE(part->name == name && part->depth == 2 && part->xdr_type == XdrType::int_);
    JUDGE((*GOT(cursor.next()))->name == "b" && !*GOT(cursor.next()));
}

// The file of the RFC as JSON (docs/FORMATS.md), and a text in rpcgen's dialect.
void check_json_and_dialect() {
    auto declarations = std::move(*GOT(Declarations::read(file_text)));
    const auto told = GOT(declarations.to_json("filetype", file_bytes.substr(16, 12)));
    JUDGE(told && told->lines == R"({"case":"EXEC","interpretor":"lisp"})" && told->checked.used == 12);
    const auto lines = GOT(declarations.to_json("filetype", file_bytes.substr(16), true));
    JUDGE(lines && lines->lines == "{\n  \"case\": \"EXEC\",\n  \"interpretor\": \"lisp\"\n}"
          && lines->checked.used == 12 && lines->checked.more_follows);
    JUDGE(fails(GOT(declarations.to_json("file", file_bytes.substr(0, 47))), Status::refused, Reason::truncated, 47));
    JUDGE(fails(GOT(declarations.to_json("file", file_bytes, false, {2, 64})), Status::refused, Reason::too_deep, 20));
    JUDGE(fails(GOT(declarations.to_json("file", file_bytes, false, {9, 44})), Status::refused, Reason::too_large, 44));
    const auto made = GOT(declarations.from_json("filetype", "{\"interpretor\": \"lisp\",\n\"case\": 2}"));
    JUDGE(made && Bytes(*made) == Bytes(file_bytes.substr(16, 12)));
    const auto refused = GOT(declarations.from_json("filetype", "{\"interpretor\": \"lisp\",\n\"case\": 3}"));
    JUDGE(!refused && refused.error().status() == Status::bad_json && refused.error().at() == 32
          && refused.error().json_reason() == JsonReason::out_of_range && refused.error().line() == 2
          && refused.error().column() == 9 && refused.error().reason() == Reason::none
          && refused.error().what() == text(JsonReason::out_of_range));
    const auto deep = GOT(declarations.from_json("filetype", "{\"interpretor\": \"lisp\",\n\"case\": 2}", {1, 64}));
    JUDGE(!deep && deep.error().json_reason() == JsonReason::too_deep && deep.error().at() == 34);
    const auto large = GOT(declarations.from_json("filetype", "{\"interpretor\": \"lisp\",\n\"case\": 2}", {9, 8}));
    JUDGE(!large && large.error().json_reason() == JsonReason::too_large && large.error().at() == 34);
    JUDGE(fails(GOT(declarations.from_json("folder", "{}")), Status::no_kind));
    constexpr auto text = "%#include <x.h>\n#ifdef RPC_HDR\ntypedef int here;\n#endif\ntypedef string name<>;";
    auto read = GOT(Declarations::read_dialect(text, "RPC_XDR RPC_HDR"));
    JUDGE(read && GOT(read->check("here", words({1}))).has_value());
    read = GOT(Declarations::read_dialect(text));
    JUDGE(read && fails(GOT(read->check("here", words({1}))), Status::no_kind));
    JUDGE(fails(GOT(Declarations::read_dialect("#endif")), Status::undeclared));
    JUDGE(fails(GOT(Declarations::read_dialect(text, "RPC_HDR=1")), Status::no_kind));
}

// The file of the RFC from its items, and items that are no value's.
void check_items() {
    auto declarations = std::move(*GOT(Declarations::read(file_text)));
    Items items;
    items.content("sillyprog"sv).number(2).content("lisp"sv).content("john"sv).content("(quit)"sv);
    auto bytes = GOT(declarations.write("file", items));
    JUDGE(bytes && Bytes(*bytes).text() == file_bytes);
    JUDGE(fails(GOT(declarations.write("file", items, {2, 64})), Status::bad_item, Reason::too_deep, 1));
    JUDGE(fails(GOT(declarations.write("file", items.number(0))), Status::bad_item, Reason::past_end, 5));
    items.clear();
    JUDGE(fails(GOT(declarations.write("file", items)), Status::bad_item, Reason::unfinished));
    JUDGE(GOT(declarations.write("file", items)).error().what() == "the value is not whole"sv);
    constexpr auto text = "struct all { hyper h; unsigned hyper u; bool b; int *m; int l<>; };";
    auto numbers = std::move(*GOT(Declarations::read(text)));
    items.number(std::int64_t{-2}).number(~std::uint64_t{0}).number(true).flag(true).number(-1).count(1).number(5u);
    bytes = GOT(numbers.write("all", items));
    JUDGE(bytes && *bytes == words({~0u, ~1u, ~0u, ~0u, 1, 1, ~0u, 1, 5}));
    items.clear();
    JUDGE(fails(GOT(numbers.write("int", items.number(1u << 31))), Status::bad_item, Reason::not_in_range));
    JUDGE(fails(GOT(Declarations().write("int", items)), Status::no_declarations));
}

void check_texts() {
    auto twice = GOT(Declarations::read("struct a { int b; int b; };"));
    JUDGE(fails(twice, Status::undeclared, Reason::none, 0));
    JUDGE(twice.error().fault() == TextFault::name_twice && twice.error().line() == 1);
    JUDGE(twice.error().column() == 23 && twice.error().inner() == 0);
    JUDGE(twice.error().what() == std::string_view(oncrpc_fault_text(ONCRPC_NAME_TWICE)));
    auto loop = GOT(Declarations::read("struct a { a b; };"));
    JUDGE(!loop && loop.error().fault() == TextFault::bad_schema && loop.error().inner() == 7);
    JUDGE(Error(Status::no_room).what() == std::string_view(oncrpc_status_text(ONCRPC_NO_ROOM)));
    JUDGE(text(Reason::too_deep) == std::string_view(oncrpc_reason_text(ONCRPC_TOO_DEEP)));
}

void check_handles() {
    static_assert(!std::is_copy_constructible_v<Declarations> && !std::is_copy_assignable_v<Records>);
    static_assert(std::is_nothrow_move_constructible_v<Registry> && std::is_nothrow_move_assignable_v<Registry>);
    static_assert(std::is_nothrow_move_constructible_v<Session> && !std::is_copy_constructible_v<Session>);
    Declarations none;
    JUDGE(fails(GOT(none.check("int", {})), Status::no_declarations));
    JUDGE(fails(GOT(none.show("int", {})), Status::no_declarations));
    JUDGE(fails(GOT(none.parts("int", {})), Status::no_declarations));
    auto first = std::move(*GOT(Declarations::read("struct a { int b; };")));
    auto second = std::move(*GOT(Declarations::read("struct c { int d; };")));
    first = std::move(second);
    JUDGE(fails(GOT(second.check("c", words({0}))), Status::no_declarations));
    JUDGE(fails(GOT(first.check("a", words({0}))), Status::no_kind) && GOT(first.check("c", words({0}))).has_value());
    Declarations &same = first;
    first = std::move(same);
    JUDGE(GOT(first.check("c", words({0}))).has_value());
    Buffer buffer;
    JUDGE(fails(GOT(Registry().answer(Transport::tcp, {}, buffer)), Status::no_registry));
    JUDGE(fails(GOT(Registry().reply(buffer)), Status::no_registry));
    JUDGE(fails(GOT(Registry().unset(1, 1, "", "")), Status::no_registry));
    JUDGE(fails(GOT(Records().feed({})), Status::no_reader) && fails(GOT(Records().end()), Status::no_reader));
}

// RFC 5531 sections 8 and 9, by words.
void check_messages() {
    Call call{7, 100000, 2, 3, {1, {}}, {}, {}};
    const auto body = std::move(*GOT((AuthSys{1, "box", 1000, 100, {100, 4}}.write())));
    JUDGE(body == words({1, 3, 0x626f7800, 1000, 100, 2, 100, 4}));
    const auto arguments = words({9});
    call.credential.body = body;
    call.arguments = arguments;
    auto bytes = std::move(*GOT(call.write()));
    JUDGE(bytes == words({7, 0, 2, 100000, 2, 3, 1, 32, 1, 3, 0x626f7800, 1000, 100, 2, 100, 4, 0, 0, 9}));
    auto same = GOT(Call::read(bytes));
    JUDGE(same && same->xid == 7 && same->program == 100000 && same->version == 2 && same->procedure == 3);
    JUDGE(same->credential.flavor == 1 && same->credential.body == body && same->verifier.body.empty());
    JUDGE(same->arguments == arguments);
    auto auth = GOT(AuthSys::read(same->credential.body));
    JUDGE(auth && auth->machine == "box" && auth->uid == 1000 && auth->gids == std::vector<std::uint32_t>({100, 4}));
    JUDGE(fails(GOT(AuthSys::read(words({1}))), Status::not_auth_sys));
    JUDGE(fails(GOT((AuthSys{0, "", 0, 0, std::vector<std::uint32_t>(17)}.write())), Status::not_auth_sys));
    bytes[11] = 3;
    auto other = GOT(Call::read(bytes));
    JUDGE(fails(other, Status::other_version) && other.error().xid() == 7 && other.error().rpc_version() == 3);
    const Buffer long_body(401);
    call.credential.body = long_body;
    JUDGE(fails(GOT(call.write()), Status::bad_credential));
}

void check_replies() {
    const auto results = words({2049});
    auto bytes = GOT((Reply{7, State::success, {}, results}.write()));
    JUDGE(bytes && *bytes == words({7, 1, 0, 0, 0, 0, 2049}));
    auto same = GOT(Reply::read(*bytes));
    JUDGE(same && same->xid == 7 && same->state == State::success && same->results == results);
    bytes = GOT((Reply{7, State::prog_mismatch, {}, {}, 2, 4}.write()));
    JUDGE(bytes && *bytes == words({7, 1, 0, 0, 0, 2, 2, 4}));
    same = GOT(Reply::read(*bytes));
    JUDGE(same && same->state == State::prog_mismatch && same->low == 2 && same->high == 4);
    bytes = GOT((Reply{7, State::auth_error, {}, {}, 0, 0, 5}.write()));
    JUDGE(bytes && *bytes == words({7, 1, 1, 1, 5}));
    same = GOT(Reply::read(*bytes));
    JUDGE(same && same->state == State::auth_error && same->auth_stat == 5);
    JUDGE(fails(GOT(Reply::read(words({7}))), Status::cut));
    JUDGE(fails(GOT(Reply::read(words({7, 2, 0}))), Status::not_a_reply));
    JUDGE(fails(GOT((Reply{7, static_cast<State>(8), {}, {}}.write())), Status::bad_state));
}

// Two records of RFC 5531 section 11 in pieces, the second cut.
void check_streams() {
    auto records = std::move(*GOT(Records::start(3)));
    Buffer record(1);
    JUDGE(*GOT(records.feed("\0\0\0\2ab"sv)) == std::nullopt && *GOT(records.take(record)) == false && record.empty());
    JUDGE(*GOT(records.feed("\200\0\0\1cd"sv)) == std::optional<std::size_t>(5));
    JUDGE(GOT(records.end()).has_value());
    JUDGE(*GOT(records.take(record)) && Bytes(record).text() == "abc");
    JUDGE(*GOT(records.feed("\200"sv)) == std::nullopt);
    JUDGE(fails(GOT(records.end()), Status::refused, Reason::truncated, 12));
    JUDGE(fails(GOT(Records::start(ONCRPC_MOST_RECORD + 1)), Status::bad_limits));
    Buffer marked;
    const auto normal = "\200\0\0\3abc"sv;
    JUDGE(GOT(normalise("\0\0\0\2ab\200\0\0\1c"sv, 3, marked)).has_value() && Bytes(marked).text() == normal);
    auto cut = GOT(normalise("\0\0\0\2ab\200\0\0\1c\0"sv, 3, marked));
    JUDGE(fails(cut, Status::refused, Reason::truncated, 12) && Bytes(marked).text() == normal);
    JUDGE(fails(GOT(normalise({}, ONCRPC_MOST_RECORD + 1, marked)), Status::bad_limits) && marked.empty());
}

// RFC 1833 section 3: GETPORT, whose reply does not go into a buffer without bytes.
void check_registry() {
    auto registry = std::move(*GOT(Registry::start(111, "no peer knows it"sv)));
    JUDGE(*GOT(registry.set(300, 7, "tcp", "1.2.3.4.8.1", "1000")));
    JUDGE(!*GOT(registry.set(300, 7, "tcp", "1.2.3.4.8.1", "1000")));
    const auto asked = words({9, 0, 2, 100000, 2, 3, 0, 0, 0, 0, 300, 7, 6, 0});
    Buffer reply;
    JUDGE(*GOT(registry.answer(Transport::tcp, asked, reply)) && reply == words({9, 1, 0, 0, 0, 0, 2049}));
    JUDGE(*GOT(registry.answer(Transport::udp, asked, reply)) && reply.size() == 28);
    JUDGE(!*GOT(registry.reply(reply)) && reply.empty());
    JUDGE(!*GOT(registry.answer(Transport::udp, {}, reply)) && reply.empty());
    // GETADDR, whose answer is the address over the transport of the call: none over UDP.
    const auto address = words({9, 0, 2, 100000, 4, 3, 0, 0, 0, 0, 300, 7, 0, 0, 0});
    JUDGE(*GOT(registry.answer(Transport::tcp, address, reply)) && reply.size() == 40);
    JUDGE(*GOT(registry.answer(Transport::udp, address, reply)) && reply == words({9, 1, 0, 0, 0, 0, 0}));
    std::string rows;
    auto found = GOT(registry.rows());
    JUDGE(found && found->size() == 7 && !found->empty() && (*found)[6].program == 300);
    for (const Row &row : *found)
        rows += std::string(row.netid) + std::to_string(row.version) + std::string(row.address.substr(0, 2)) + " ";
    JUDGE(rows == "tcp20. udp20. tcp30. udp30. tcp40. udp40. tcp71. " && (*found)[6].owner == "1000");
    JUDGE(!*GOT(registry.unset(300, 7, "tcp", "1001")) && *GOT(registry.unset(300, 7, "", "superuser")));
    JUDGE(fails(GOT(Registry().rows()), Status::no_registry));
}

// RFC 5665 section 5.2.3.3, and the header of RFC 5531 section 11.
void check_addresses() {
    auto address = GOT(Address::read("127.0.0.1.8.1"));
    JUDGE(address && address->host == std::array<std::uint8_t, 4>{127, 0, 0, 1} && address->port == 2049);
    auto same = GOT(address->write());
    JUDGE(same && *same == "127.0.0.1.8.1");
    JUDGE(fails(GOT(Address::read("127.0.0.1.8.256")), Status::not_an_address));
    auto header = GOT(record_header(3));
    JUDGE(header && *header == std::array<std::uint8_t, 4>{128, 0, 0, 3});
    JUDGE((*GOT(record_header(2, false)) == std::array<std::uint8_t, 4>{0, 0, 0, 2}));
    JUDGE(fails(GOT(record_header(std::size_t{1} << 31)), Status::bad_limits) && version() == ONCRPC_VERSION_NUMBER);
}

// A connection in two pieces, and by who calls: a change from afar is AUTH_TOOWEAK, and one of a user is that user's.
void check_sessions() {
    const auto set = words({9, 0, 2, 100000, 2, 1, 0, 0, 0, 0, 300, 7, 6, 2049});
    const Caller afar, user{Peer::local_user, 1000, {}, false}, trusted{Peer::remote, 0, {{10, 9, 8, 7}}, true};
    auto registry = std::move(*GOT(Registry::start(111, "no peer knows it"sv)));
    Buffer reply, output(5);
    JUDGE(*GOT(registry.answer_from(afar, Transport::udp, set, reply)) && reply == words({9, 1, 1, 1, 5}));
    JUDGE(*GOT(registry.answer_from(user, Transport::udp, set, reply)) && reply == words({9, 1, 0, 0, 0, 0, 1}));
    JUDGE(*GOT(registry.answer_from(trusted, Transport::tcp, set, reply)) && reply == words({9, 1, 0, 0, 0, 0, 0}));
    JUDGE((*GOT(registry.rows()))[6].owner == "1000");
    const auto asked = words({9, 0, 2, 100000, 3, 3, 0, 0, 0, 0, 300, 7, 0, 0, 0});
    const auto told = words({9, 1, 0, 0, 0, 0, 12, 0x31302E39, 0x2E382E37, 0x2E382E31}); // 10.9.8.7.8.1
    JUDGE(*GOT(registry.answer_from(trusted, Transport::tcp, asked, reply)) && reply == told);
    JUDGE(fails(GOT(registry.answer_from({static_cast<Peer>(3), 0, {}, false}, Transport::tcp, set, reply)),
                Status::no_caller));
    auto session = std::move(*GOT(Session::start(Transport::local, user, 0)));
    auto record = words({0x80000038});
    record.insert(record.end(), set.begin(), set.end());
    auto fed = GOT(session.feed(registry, Bytes(record).part(0, 30)));
    JUDGE(fed && fed->status == Status::more_wanted && fed->used == 30);
    fed = GOT(session.feed(registry, Bytes(record).part(30)));
    JUDGE(fed && fed->status == Status::ok && fed->used == 30);
    fed = GOT(session.feed(registry, record));
    JUDGE(fed && fed->status == Status::output_waits && fed->used == 0);
    JUDGE(GOT(session.output(output)).has_value() && output == Buffer({128, 0, 0, 28, 0}));
    JUDGE(*GOT(session.took(4)) == 28 && fails(GOT(session.took(29)), Status::bad_limits));
    output.resize(64);
    JUDGE(GOT(session.output(output)).has_value() && output == words({9, 1, 0, 0, 0, 0, 1}));
    JUDGE(*GOT(session.took(28)) == 0);
    JUDGE(fails(GOT(session.feed(registry, words({0x80010001}))), Status::refused, Reason::too_long, 60));
    const auto moved = std::move(session);
    JUDGE(fails(GOT(session.feed(registry, record)), Status::no_session));
    JUDGE(fails(GOT(Session().output(output)), Status::no_session) && output.empty());
    JUDGE(fails(GOT(Session::start(Transport::tcp, {static_cast<Peer>(4), 0, {}, false}, 0)), Status::no_caller));
    JUDGE(fails(GOT(Session::start(Transport::udp, user, 0)), Status::no_transport));
    JUDGE(fails(GOT(registry.answer(Transport::local, set, reply)), Status::no_transport));
}

// Views without bytes, each with NULL.
void check_nothing() {
    auto declarations = std::move(*GOT(Declarations::read({})));
    JUDGE(fails(GOT(declarations.check({}, {})), Status::no_kind));
    JUDGE(fails(GOT(declarations.check("opaque", {})), Status::refused, Reason::truncated));
    JUDGE(fails(GOT(declarations.show("opaque", {})), Status::refused, Reason::truncated));
    JUDGE(fails(GOT(declarations.parts({}, {})), Status::no_kind));
    JUDGE(fails(GOT(check({}, {}, {})), Status::no_kind));
    JUDGE(fails(GOT(Call::read({})), Status::not_a_call) && fails(GOT(Reply::read({})), Status::cut));
    JUDGE(fails(GOT(declarations.write({}, Items())), Status::no_kind));
    JUDGE(fails(GOT(Address::read({})), Status::not_an_address));
    JUDGE(fails(GOT(AuthSys::read({})), Status::not_auth_sys) && GOT(AuthSys().write())->size() == 20);
    JUDGE(GOT(Call().write())->size() == 40 && GOT(Reply().write())->size() == 24);
    auto registry = std::move(*GOT(Registry::start(111, {})));
    JUDGE(!*GOT(registry.set(1, 1, {}, {}, {})) && !*GOT(registry.unset(1, 1, {}, {})));
    auto records = std::move(*GOT(Records::start(0)));
    Buffer record;
    JUDGE(!*GOT(records.feed({})) && !*GOT(records.take(record)));
    JUDGE(*GOT(records.feed(words({0x80000000}))) == std::optional<std::size_t>(4) && *GOT(records.take(record)));
    JUDGE(GOT(normalise({}, 0, record)).has_value() && record.empty());
    JUDGE(Bytes() == Bytes(record) && Bytes().part(3).text().empty() && Bytes(words({1})).part(4, 9).empty());
}

// What bytes are made of: each leads to the same three.
void check_bytes() {
    const std::uint8_t plain[] = {1, 2, 3};
    const std::array<std::byte, 3> array{std::byte{1}, std::byte{2}, std::byte{3}};
    const std::string string = "\1\2\3";
    const Bytes all(plain);
    JUDGE(all == Bytes(plain, 3) && all == Bytes(array) && all == Bytes(string));
    JUDGE(all == Bytes(Buffer{1, 2, 3}) && all != Bytes(plain, 2) && all.part(1) == Bytes(plain + 1, 2));
    JUDGE(all.part(1, 1)[0] == 2 && all.part(2, 9).size() == 1 && all.part(9).empty());
    static_assert(!std::is_constructible_v<Bytes, const char (&)[4]>);
    static_assert(!std::is_constructible_v<Bytes, std::vector<int>>);
}

} // namespace

unsigned WRONG_OF_THIS() {
    check_values();
    check_parts();
    check_paths();
    check_cursor();
    check_long_name();
    check_json_and_dialect();
    check_items();
    check_texts();
    check_handles();
    check_messages();
    check_replies();
    check_streams();
    check_registry();
    check_sessions();
    check_addresses();
    check_nothing();
    check_bytes();
    return wrong;
}
