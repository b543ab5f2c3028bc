/* Checks the messages of standard input as a C programmer would by hand: whether each is one by the D-Bus Specification, with no
 * place and no reason, and no message in pieces. It is what bench/instructions.sh and bench/speed.py measure `check` beside; it is
 * not proved, and no part of the product. */
#include "peer.h"
#include <stdbool.h>
#include <stdint.h>
#include <string.h>

typedef const uint8_t *Bytes;

enum { DEPTH = 64, ARRAY = 1 << 26, MESSAGE = 1 << 27 };

static const uint8_t ALIGNMENT[256] = {
    ['y'] = 1, ['b'] = 4, ['n'] = 2, ['q'] = 2, ['i'] = 4, ['u'] = 4, ['x'] = 8, ['t'] = 8, ['d'] = 8,
    ['h'] = 4, ['s'] = 4, ['o'] = 4, ['g'] = 1, ['v'] = 1, ['a'] = 4, ['('] = 8, ['{'] = 8,
};
/* How many bytes a number has of which every value is one. */
static const uint8_t WIDTH[256] = {
    ['y'] = 1, ['n'] = 2, ['q'] = 2, ['i'] = 4, ['u'] = 4, ['x'] = 8, ['t'] = 8, ['d'] = 8, ['h'] = 4,
};

enum { LETTER = 1, DIGIT = 2, HYPHEN = 4 };
static uint8_t class_of[256];

static void fill_classes(void) {
    for (int c = 'a'; c <= 'z'; c++)
        class_of[c] = class_of[c - 'a' + 'A'] = LETTER;
    for (int c = '0'; c <= '9'; c++)
        class_of[c] = DIGIT;
    class_of['_'] = LETTER;
    class_of['-'] = HYPHEN;
}

static uint32_t word_at(Bytes bytes, bool big) {
    uint32_t word;
    memcpy(&word, bytes, 4);
    return big ? __builtin_bswap32(word) : word;
}

/* Text in UTF-8 without a zero byte, eight ASCII bytes at once. */
static bool is_text(Bytes at, size_t size) {
    const uint64_t high = 0x8080808080808080u, ones = 0x0101010101010101u;
    Bytes end = at + size;
    while (at < end) {
        uint64_t word;
        if (end - at >= 8 && (memcpy(&word, at, 8), !((word | ((word - ones) & ~word)) & high))) {
            at += 8;
            continue;
        }
        uint8_t first = *at;
        if (first < 0x80) {
            if (first == 0)
                return false;
            at++;
            continue;
        }
        int more = first >= 0xc2 && first <= 0xdf ? 1 : first >= 0xe0 && first <= 0xef ? 2 : first >= 0xf0 && first <= 0xf4 ? 3 : 0;
        if (more == 0 || end - at <= more)
            return false;
        uint8_t low = first == 0xe0 ? 0xa0 : first == 0xf0 ? 0x90 : 0x80, most = first == 0xed ? 0x9f : first == 0xf4 ? 0x8f : 0xbf;
        if (at[1] < low || at[1] > most)
            return false;
        for (int i = 2; i <= more; i++)
            if ((at[i] & 0xc0) != 0x80)
                return false;
        at += more + 1;
    }
    return true;
}

static bool is_path(Bytes text, size_t size) {
    if (size == 0 || text[0] != '/')
        return false;
    for (size_t i = 1; i < size; i++) {
        if (text[i] == '/' ? text[i - 1] == '/' : !(class_of[text[i]] & (LETTER | DIGIT)))
            return false;
    }
    return size == 1 || text[size - 1] != '/';
}

/* Elements with dots between them. */
static bool is_name(Bytes text, size_t size, int classes, bool digit_first, size_t least) {
    size_t elements = 1;
    bool first = true;
    if (size > 255)
        return false;
    for (size_t i = 0; i < size; i++) {
        if (text[i] == '.') {
            if (first || least == 1)
                return false;
            first = true;
            elements++;
        } else {
            int own = class_of[text[i]];
            if (!(own & classes) || (first && own == DIGIT && !digit_first))
                return false;
            first = false;
        }
    }
    return !first && elements >= least;
}

static bool is_bus_name(Bytes text, size_t size) {
    const int all = LETTER | DIGIT | HYPHEN;
    if (size > 255)
        return false;
    return size > 0 && text[0] == ':' ? is_name(text + 1, size - 1, all, true, 2) : is_name(text, size, all, false, 2);
}

/* One complete type, from *at on. */
static bool is_type(Bytes *at, Bytes end, int arrays, int structs, bool in_array) {
    if (*at == end)
        return false;
    uint8_t code = *(*at)++;
    if (code == 'a')
        return arrays < 32 && is_type(at, end, arrays + 1, structs, true);
    if (code == '(') {
        if (structs == 32 || *at == end || **at == ')')
            return false;
        while (*at < end && **at != ')')
            if (!is_type(at, end, arrays, structs + 1, false))
                return false;
        return (*at)++ < end;
    }
    if (code == '{') {
        if (!in_array || *at == end || !ALIGNMENT[**at] || strchr("va({", **at))
            return false;
        (*at)++;
        return is_type(at, end, arrays, structs, false) && *at < end && *(*at)++ == '}';
    }
    return ALIGNMENT[code] != 0;
}

static bool is_signature(Bytes text, size_t size, bool single) {
    Bytes at = text, end = text + size;
    size_t types = 0;
    while (at < end) {
        if (!is_type(&at, end, 0, 0, false))
            return false;
        types++;
    }
    return !single || types == 1;
}

/* The end of a type that is known to be one. */
static Bytes type_end(Bytes type) {
    int open = 0;
    while (*type == 'a')
        type++;
    do {
        open += *type == '(' || *type == '{';
        open -= *type == ')' || *type == '}';
        type++;
    } while (open > 0);
    return type;
}

static bool pad(Bytes bytes, size_t *at, size_t end, size_t alignment) {
    size_t start = (*at + alignment - 1) & ~(alignment - 1);
    if (start > end)
        return false;
    while (*at < start)
        if (bytes[(*at)++])
            return false;
    return true;
}

/* A text of `size` bytes and the zero after it are there. */
static bool is_there(Bytes bytes, size_t at, size_t end, size_t size) {
    return size < end - at && bytes[at + size] == 0;
}

static bool values(Bytes bytes, size_t *at, size_t end, Bytes type, Bytes types_end, int depth, bool big);

static bool array(Bytes bytes, size_t *at, size_t end, Bytes element, Bytes *after, int depth, bool big) {
    if (depth == DEPTH || end - *at < 4)
        return false;
    size_t size = word_at(bytes + *at, big);
    *at += 4;
    *after = type_end(element);
    if (size > ARRAY || !pad(bytes, at, end, ALIGNMENT[*element]) || size > end - *at)
        return false;
    end = *at + size;
    if (WIDTH[*element]) {
        *at = end;
        return size % WIDTH[*element] == 0;
    }
    while (*at < end)
        if (!values(bytes, at, end, element, *after, depth + 1, big))
            return false;
    return true;
}

static bool variant(Bytes bytes, size_t *at, size_t end, int depth, bool big) {
    if (depth == DEPTH || *at == end)
        return false;
    size_t size = bytes[(*at)++];
    if (!is_there(bytes, *at, end, size) || !is_signature(bytes + *at, size, true))
        return false;
    Bytes type = bytes + *at;
    *at += size + 1;
    return values(bytes, at, end, type, type + size, depth + 1, big);
}

static bool long_text(Bytes bytes, size_t *at, size_t end, bool path, bool big) {
    if (end - *at < 4)
        return false;
    size_t size = word_at(bytes + *at, big);
    *at += 4;
    if (!is_there(bytes, *at, end, size))
        return false;
    Bytes text = bytes + *at;
    *at += size + 1;
    return path ? is_path(text, size) : is_text(text, size);
}

static bool short_text(Bytes bytes, size_t *at, size_t end) {
    if (*at == end)
        return false;
    size_t size = bytes[(*at)++];
    Bytes text = bytes + *at;
    if (!is_there(bytes, *at, end, size))
        return false;
    *at += size + 1;
    return is_signature(text, size, false);
}

static bool boolean(Bytes bytes, size_t *at, size_t end, bool big) {
    if (end - *at < 4 || word_at(bytes + *at, big) > 1)
        return false;
    *at += 4;
    return true;
}

/* A value of each type. */
static bool values(Bytes bytes, size_t *at, size_t end, Bytes type, Bytes types_end, int depth, bool big) {
    while (type < types_end) {
        uint8_t code = *type;
        bool good = pad(bytes, at, end, ALIGNMENT[code]);
        Bytes after = type + 1;
        if (!good)
            return false;
        if (WIDTH[code]) {
            good = end - *at >= WIDTH[code];
            *at += WIDTH[code];
        } else if (code == 's' || code == 'o') {
            good = long_text(bytes, at, end, code == 'o', big);
        } else if (code == 'v') {
            good = variant(bytes, at, end, depth, big);
        } else if (code == 'a') {
            good = array(bytes, at, end, type + 1, &after, depth, big);
        } else if (code == 'b') {
            good = boolean(bytes, at, end, big);
        } else if (code == 'g') {
            good = short_text(bytes, at, end);
        } else {
            after = type_end(type);
            good = (code == '{' || depth < DEPTH) && values(bytes, at, end, type + 1, after - 1, depth + (code == '('), big);
        }
        if (!good)
            return false;
        type = after;
    }
    return true;
}

enum { PATH = 1, INTERFACE, MEMBER, ERROR_NAME, REPLY_SERIAL, DESTINATION, SENDER, SIGNATURE, UNIX_FDS };
static const char FIELD_TYPE[10] = {0, 'o', 's', 's', 's', 'u', 's', 's', 'g', 'u'};
/* The fields that a message of each type has, a bit for each. */
static const unsigned REQUIRED[5] = {
    0,
    1 << PATH | 1 << MEMBER,
    1 << REPLY_SERIAL,
    1 << ERROR_NAME | 1 << REPLY_SERIAL,
    1 << PATH | 1 << INTERFACE | 1 << MEMBER,
};

struct fields {
    unsigned seen;
    Bytes types;
    size_t types_size;
};

static bool is_field_text(unsigned code, Bytes text, size_t size) {
    switch (code) {
    case PATH:
        return is_path(text, size);
    case INTERFACE:
    case ERROR_NAME:
        return is_name(text, size, LETTER | DIGIT, false, 2);
    case MEMBER:
        return is_name(text, size, LETTER | DIGIT, false, 1);
    case SIGNATURE:
        return is_signature(text, size, false);
    default:
        return is_bus_name(text, size);
    }
}

/* A known field, after its code. */
static bool known_field(Bytes bytes, size_t *at, size_t end, unsigned code, struct fields *fields, bool big) {
    if (end - *at < 4 || fields->seen >> code & 1 || bytes[*at] != 1 || bytes[*at + 1] != FIELD_TYPE[code] || bytes[*at + 2])
        return false;
    fields->seen |= 1u << code;
    *at += 3;
    if (FIELD_TYPE[code] == 'u') {
        *at += 4;
        return *at <= end && (code != REPLY_SERIAL || word_at(bytes + *at - 4, big) != 0);
    }
    size_t width = code == SIGNATURE ? 1 : 4;
    if (end - *at < width)
        return false;
    size_t size = code == SIGNATURE ? bytes[*at] : word_at(bytes + *at, big);
    *at += width;
    Bytes text = bytes + *at;
    if (!is_there(bytes, *at, end, size))
        return false;
    *at += size + 1;
    if (code == SIGNATURE) {
        fields->types = text;
        fields->types_size = size;
    }
    return is_field_text(code, text, size);
}

static bool is_message(Bytes bytes, size_t size, bool big) {
    struct fields fields = {0, bytes, 0};
    size_t at = 16, end = 16 + word_at(bytes + 12, big);
    if (bytes[1] == 0 || bytes[3] != 1 || word_at(bytes + 8, big) == 0)
        return false;
    while (at < end) {
        if (!pad(bytes, &at, end, 8) || at == end)
            return false;
        unsigned code = bytes[at++];
        if (code == 0)
            return false;
        if (!(code <= UNIX_FDS ? known_field(bytes, &at, end, code, &fields, big) : variant(bytes, &at, end, 2, big)))
            return false;
    }
    if (bytes[1] < 5 && (fields.seen & REQUIRED[bytes[1]]) != REQUIRED[bytes[1]])
        return false;
    return pad(bytes, &at, size, 8) && values(bytes, &at, size, fields.types, fields.types + fields.types_size, 0, big) && at == size;
}

/* The length of the message that the bytes begin with, or 0. */
static size_t first_message(unsigned char *bytes, size_t size) {
    if (size < 16 || (bytes[0] != 'l' && bytes[0] != 'B'))
        return 0;
    bool big = bytes[0] == 'B';
    size_t fields = word_at(bytes + 12, big), length = 16 + ((fields + 7) & ~(size_t)7) + word_at(bytes + 4, big);
    if (fields > ARRAY || length > MESSAGE || length > size)
        return 0;
    return (big ? is_message(bytes, length, true) : is_message(bytes, length, false)) ? length : 0;
}

int main(void) {
    fill_classes();
    return read_messages(first_message);
}
