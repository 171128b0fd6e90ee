/* Records: at once, and as a stream in pieces. */
#include "calls.h"

static void check_records(void) {
    static const uint8_t input[] = {0, 0, 0, 1, 'a', 0x80, 0, 0, 2, 'b', 'c', 0x80, 0, 0, 0};
    static const uint8_t form[] = {0x80, 0, 0, 3, 'a', 'b', 'c', 0x80, 0, 0, 0, '.'};
    uint8_t room[12];
    size_t written = 9;
    oncrpc_outcome outcome;
    memset(room, '.', sizeof room);
    uint32_t status = oncrpc_normalise(input, sizeof input, 3, room, sizeof room, &written, &outcome);
    judge(status == ONCRPC_OK && tells(&outcome, 11, 0) && written == 11 && !memcmp(room, form, 12), status);
    status = oncrpc_normalise(input, 14, 3, room, sizeof room, &written, &outcome);
    judge(status == ONCRPC_REFUSED && tells(&outcome, 14, ONCRPC_TRUNCATED) && written == 7, status);
    status = oncrpc_normalise(input, sizeof input, 2, room, sizeof room, &written, &outcome);
    judge(status == ONCRPC_REFUSED && tells(&outcome, 5, ONCRPC_TOO_LONG) && written == 0, status);
    status = oncrpc_normalise(input, sizeof input, 3, room, 10, &written, &outcome);
    judge(status == ONCRPC_NO_ROOM && tells(&outcome, 11, 0) && written == 0, status);
    status = oncrpc_normalise(input, sizeof input, ONCRPC_MOST_RECORD + 1, room, 10, &written, &outcome);
    judge(status == ONCRPC_BAD_LIMITS && tells(&outcome, 0, 0) && written == 0, status);
}

/* A stream of three records, "abc" in two fragments, one of no bytes, and "de" in one fragment, or its first bytes, and
 * what its end is told. */
static const uint8_t stream[] = {
    0, 0, 0, 1, 'a', 0x80, 0, 0, 2, 'b', 'c', 0x80, 0, 0, 0, 0x80, 0, 0, 2, 'd', 'e'};
static const char *contents[] = {"abc", "", "de"};
static const struct { size_t count, taken; uint32_t limit, status, why; size_t at; } streams[] = {
    {21, 3, 3, ONCRPC_OK, 0, 0},
    {15, 2, 3, ONCRPC_OK, 0, 0},
    {11, 1, 3, ONCRPC_OK, 0, 0},
    {0, 0, 0, ONCRPC_OK, 0, 0},
    {20, 2, 3, ONCRPC_REFUSED, ONCRPC_TRUNCATED, 20},
    {14, 1, 3, ONCRPC_REFUSED, ONCRPC_TRUNCATED, 14},
    {10, 0, 3, ONCRPC_REFUSED, ONCRPC_TRUNCATED, 10},
    {1, 0, 3, ONCRPC_REFUSED, ONCRPC_TRUNCATED, 1},
    {21, 0, 2, ONCRPC_REFUSED, ONCRPC_TOO_LONG, 5},
    {21, 0, 0, ONCRPC_REFUSED, ONCRPC_TOO_LONG, 0},
};

/* The record that waits stays where the room is too small, and goes into one that is not, once. No byte is taken while
 * it waits. */
static void take_next(oncrpc_records *held, const char *content) {
    uint8_t room[8] = ".......";
    size_t count = strlen(content);
    oncrpc_outcome outcome = {9, 9, 9, 9, 9};
    uint32_t status;
    if (count) {
        status = oncrpc_records_take(held, room, count - 1, &outcome);
        judge(status == ONCRPC_NO_ROOM && tells(&outcome, count, 0) && room[0] == '.', status);
    }
    status = oncrpc_records_feed(held, stream, sizeof stream, &outcome);
    judge(status == ONCRPC_OK && tells(&outcome, 0, 0), status);
    status = oncrpc_records_end(held, &outcome);
    judge(status == ONCRPC_OK && tells(&outcome, 0, 0), status);
    status = oncrpc_records_take(held, room, sizeof room, &outcome);
    judge(status == ONCRPC_OK && tells(&outcome, count, 0) && !memcmp(room, content, count) && room[count] == '.',
        status);
    status = oncrpc_records_take(held, room, sizeof room, &outcome);
    judge(status == ONCRPC_NO_RECORD && tells(&outcome, 0, 0), status);
}

/* Feeds a stream in pieces of so many bytes, and tells how many records were taken; where it is refused, the rest is
 * refused as well. */
static size_t feed_stream(oncrpc_records *held, size_t count, size_t piece) {
    size_t at = 0, taken = 0;
    uint32_t before = ONCRPC_OK;
    while (at < count) {
        size_t size = count - at < piece ? count - at : piece;
        oncrpc_outcome outcome = {9, 9, 9, 9, 9};
        uint32_t status = oncrpc_records_feed(held, stream + at, size, &outcome);
        int is_failure = status == ONCRPC_REFUSED || status == ONCRPC_NO_MEMORY;
        if (status == ONCRPC_OK) {
            judge(outcome.at && outcome.at <= size && tells(&outcome, outcome.at, 0) && taken < 3, status);
            size = outcome.at;
            take_next(held, contents[taken < 3 ? taken : 0]);
            taken++;
        } else {
            judge(is_failure || (status == ONCRPC_MORE_WANTED && tells(&outcome, 0, 0)), status);
        }
        if (before != ONCRPC_OK) {
            judge(status == before, status);
        }
        before = is_failure ? status : before;
        at += size;
    }
    return taken;
}

static void check_stream(size_t i, size_t piece) {
    oncrpc_records held = ONCRPC_NONE;
    oncrpc_outcome outcome = {9, 9, 9, 9, 9};
    uint32_t status = oncrpc_records_start(&held, streams[i].limit, &outcome);
    judge(status == ONCRPC_OK && tells(&outcome, 0, 0), status);
    if (status == ONCRPC_OK) {
        size_t taken = feed_stream(&held, streams[i].count, piece);
        status = oncrpc_records_end(&held, &outcome);
        judge(status == streams[i].status && tells(&outcome, streams[i].at, streams[i].why)
            && taken == streams[i].taken, status);
        uint32_t again = oncrpc_records_feed(&held, stream, 0, &outcome);
        judge(again == (status == ONCRPC_OK ? (uint32_t)ONCRPC_MORE_WANTED : status)
            && tells(&outcome, streams[i].at, streams[i].why), again);
    }
    oncrpc_records_free(&held);
    oncrpc_records_free(&held);
    status = oncrpc_records_feed(&held, stream, sizeof stream, &outcome);
    judge(status == ONCRPC_NO_READER && tells(&outcome, 0, 0), status);
}

static void check_all_streams(void) {
    uint8_t room[1] = ".";
    oncrpc_records held = ONCRPC_NONE;
    oncrpc_outcome outcome = {9, 9, 9, 9, 9};
    for (size_t i = 0; i < sizeof streams / sizeof *streams; i++) {
        for (size_t piece = 1; piece <= sizeof stream; piece += piece < 3 ? 1 : 4) {
            check_stream(i, piece);
        }
    }
    uint32_t status = oncrpc_records_start(&held, ONCRPC_MOST_RECORD + 1, &outcome);
    judge(status == ONCRPC_BAD_LIMITS && tells(&outcome, 0, 0), status);
    status = oncrpc_records_take(&held, room, 1, &outcome);
    judge(status == ONCRPC_NO_READER && tells(&outcome, 0, 0) && room[0] == '.', status);
    status = oncrpc_records_end(&held, &outcome);
    judge(status == ONCRPC_NO_READER && tells(&outcome, 0, 0), status);
    for (int again = 0; again < 2; again++) {
        status = oncrpc_records_start(&held, ONCRPC_MOST_RECORD, &outcome);
        judge(status == ONCRPC_OK && tells(&outcome, 0, 0), status);
        if (status == ONCRPC_OK) {
            status = oncrpc_records_feed(&held, stream, 11, &outcome);
            judge(status == ONCRPC_OK && tells(&outcome, 11, 0), status);
        }
    }
    oncrpc_records_free(&held);
}

/* The headers of fragments (RFC 5531 section 11); a reader takes what was sent behind one. */
static void check_headers(void) {
    static const struct { size_t count; bool is_last; const char *header; } headers[] = {
        {0, true, "\x80\0\0\0"},
        {0, false, "\0\0\0\0"},
        {3, true, "\x80\0\0\3"},
        {65536, false, "\0\1\0\0"},
        {0x01020304, true, "\x81\2\3\4"},
        {ONCRPC_MOST_RECORD, true, "\xff\xff\xff\xff"},
        {ONCRPC_MOST_RECORD, false, "\x7f\xff\xff\xff"},
    };
    uint8_t header[5] = "....";
    for (size_t i = 0; i < sizeof headers / sizeof *headers; i++) {
        uint32_t status = oncrpc_record_header(headers[i].count, headers[i].is_last, header);
        judge(status == ONCRPC_OK && !memcmp(header, headers[i].header, 4) && !header[4], status);
    }
    memset(header, '.', 4);
    uint32_t status = oncrpc_record_header((size_t)ONCRPC_MOST_RECORD + 1, true, header);
    judge(status == ONCRPC_BAD_LIMITS && !memcmp(header, "....", 4), status);
    status = oncrpc_record_header(((size_t)1 << 32) + 1, false, header);
    judge(status == ONCRPC_BAD_LIMITS && !memcmp(header, "....", 4), status);
}

void check_streams(void) {
    check_records();
    check_all_streams();
    check_headers();
}
