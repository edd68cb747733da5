/* Random calls of every function of the header, on valid trees, damaged trees and random bytes. All that a call returns and writes goes into a hash; the same
 * seed must print the same lines on every processor.
 *
 *     random_calls SEED ROUNDS [shown ROUND | stack]
 *
 * prints the hash after each round, then how often each function returned each number. `shown ROUND` also prints a line for each call of that round. `stack`
 * builds trees of eight levels and prints, in place of hashes, the most stack in bytes that each function used.
 *
 * Random arguments are drawn into variables first, since C does not specify in which order the arguments of a call are evaluated. */
#include "os.h"

#include "blocktree.h"

#define TEXT 4096u
#define TREE 524288u
#define UNTOUCHED 0xa5a5a5a5u

static uint8_t text[TEXT], tree[TREE], damaged[TREE], other[TREE], written[TREE], buffer[TEXT + 64], guide[8192];
static uint32_t table[4 * TEXT + 64], text_len, tree_len, damaged_len, other_len, shown_round = ~0u;
static uint64_t guide_len, calls;
static int in_shown_round, measuring;

/* The stack that a call uses. Before the call the stack below this frame is filled with a pattern; afterwards the deepest byte that changed is looked for. The
 * first UNFILLED bytes belong to the frames of these two functions and count as used. */
#define FILLED 16000
#define UNFILLED 64
static uint32_t answer, stack_used;
static volatile uint8_t *stack_top; /* of the fill: the two functions need not have frames of one size */
#ifdef __wasm__
/* blocktree.wasm has a stack of its own, the first 16,384 bytes of the memory, which grows downwards; address 0 is left out */
#define STACK_TOP ((volatile uint8_t *)16384)
#else
#define STACK_TOP ((volatile uint8_t *)__builtin_frame_address(0))
#endif
static __attribute__((noinline)) void fill_stack(void)
{
    if (!measuring) return;
    stack_top = STACK_TOP;
    for (long i = UNFILLED; i < FILLED; i++) stack_top[-i] = 0xa5;
}
static __attribute__((noinline)) uint32_t read_stack(uint32_t number)
{
    answer = number;
    if (!measuring) return number;
    long i = FILLED;
    while (--i > UNFILLED && stack_top[-i] == 0xa5) {}
    stack_used = (uint32_t)i;
    return number;
}
#define CALL(call) (fill_stack(), read_stack(call))

/* Texts: rows of keys with copies of earlier parts, two digits, random bytes; short ones and empty ones often. */
static uint32_t put(uint32_t at, const char *bytes)
{
    while (*bytes && at < text_len) text[at++] = (uint8_t)*bytes++;
    return at;
}

static uint32_t put_row(uint32_t at, uint32_t longest_code, uint32_t cuts, const char *end)
{
    for (uint32_t i = 1 + below(longest_code); i && at < text_len; i--) text[at++] = (uint8_t)('A' + below(4));
    at = put(at, " ");
    for (uint32_t i = cuts; i && at < text_len; i--) text[at++] = (uint8_t)('1' + below(5));
    return put(at, end);
}

static void make_text(void)
{
    static const char *const ends[] = {"\n", "\n", "\r\n", "\n\n"};
    const char *end = ends[below(4)];
    const uint32_t kind = below(8), size = below(16);
    uint32_t at = 0;
    text_len = size == 0 ? 0 : size == 1 ? below(12) : size < 12 ? below(700) : below(TEXT);
    if (measuring) text_len = TEXT - below(1024); /* so that blocks of every level point */
    while (at < text_len) {
        if (kind == 0) {
            text[at++] = (uint8_t)rnd();
        } else if (kind == 1) {
            text[at++] = (uint8_t)('0' + below(2));
        } else if (at > 20 && below(3) == 0) {
            uint32_t from = below(at - 10);
            for (uint32_t i = 1 + below(300); i && at < text_len; i--) text[at++] = text[from++];
        } else {
            const uint32_t cuts = kind == 3 ? 1 + below(12) : 5;
            at = put_row(at, kind == 2 ? 14 : 6, cuts, end);
        }
    }
}

/* Numbers at which something may break, and some that lie in the text. */
static uint32_t extreme(void)
{
    switch (below(6)) {
    case 0: return below(4);
    case 1: return rnd();
    case 2: return 0xffffffffu - below(3);
    case 3: return 0x7fffffffu + below(3);
    default: return below(text_len + 3);
    }
}
static uint32_t row_number(void) { return below(4) ? below(80) : extreme(); }
static uint32_t any_byte(void)
{
    if (below(12) == 0) return 256 + below(9);
    if (below(6) == 0) return rnd() & 255;
    return below(4) ? 10 : '0' + below(20);
}
static uint32_t any_width(void) { return below(3) ? 1 + below(9) : extreme(); }
static uint32_t any_room(void) { return below(3) ? TEXT : below(64); }

/* Damage. */
static void put_word(uint32_t at, uint32_t word)
{
    for (uint32_t i = 0; i < 4; i++) damaged[at + i] = (uint8_t)(word >> (8 * i));
}
static uint32_t damaged_place(void)
{
    const int in_header = below(6) == 0 || damaged_len <= 100;
    return in_header ? below(damaged_len) : 100 + below(damaged_len - 100);
}
static void damage_once(void)
{
    const uint32_t kind = below(8), at = damaged_place(), from = damaged_place(), bit = below(8), byte = rnd() & 255;
    const uint32_t word = below(2) ? extreme() : below(16), cut = below(damaged_len + 1);
    const uint32_t aligned = at / 4 * 4;
    if (damaged_len == 0) return;
    switch (kind) {
    case 0: damaged[at] ^= (uint8_t)(1u << bit); break;
    case 1: damaged[at] = (uint8_t)byte; break;
    case 2:
    case 3: if (aligned + 4 <= damaged_len) put_word(aligned, word); break;
    case 4: damaged[at]++; break;
    case 5: if (bit == 0) damaged_len = cut; break;
    case 6: damaged[at] = damaged[from]; break;
    default: damaged[at]--; break;
    }
}
static void damage(void)
{
    damaged_len = tree_len;
    for (uint32_t i = 0; i < tree_len; i++) damaged[i] = tree[i];
    for (uint32_t i = 1 + below(4); i; i--) damage_once();
    if (below(40) == 0) {
        damaged_len = below(400);
        for (uint32_t i = 0; i < damaged_len; i++) damaged[i] = (uint8_t)rnd();
    }
}

/* A guide: the one made last, or other bytes. */
static const uint8_t *lent_guide(const uint8_t *lent, uint64_t length, uint64_t *lent_len)
{
    const int made = below(3) != 0;
    *lent_len = made ? guide_len : length < 512 ? length : 512;
    return made ? guide : lent;
}

/* One function for each call: draws its arguments, calls it, hashes what it wrote, returns its number. */
typedef uint32_t question(const uint8_t *lent, uint64_t length);
static uint32_t first, second, third;
static uint64_t large;
static void reset_figures(void)
{
    first = second = third = UNTOUCHED;
    large = UNTOUCHED;
}

static uint32_t ask_version(const uint8_t *lent, uint64_t length)
{
    (void)lent, (void)length;
    mix(CALL(bt_version()));
    return answer == BT_VERSION ? 0 : 25;
}
static uint32_t ask_enough(const uint8_t *lent, uint64_t length)
{
    const uint32_t n = extreme(), m = below(8) ? 1 + below(256) : extreme(), r = below(8) ? 2 + below(15) : extreme();
    const uint32_t h = below(8) ? 1 + below(8) : extreme(), k = below(8) ? below(5) : extreme();
    (void)lent, (void)length;
    return CALL(bt_size_bound(n, m, r, h, k, &large));
}
static uint32_t ask_scan_words(const uint8_t *lent, uint64_t length)
{
    const uint32_t n = extreme(), m = below(4) ? 1 + below(256) : extreme();
    (void)lent, (void)length;
    fill_stack();
    large = bt_scan_words(n, m);
    return read_stack(0);
}
static uint32_t ask_check(const uint8_t *lent, uint64_t length) { return CALL(bt_check(lent, length)); }
static uint32_t ask_info(const uint8_t *lent, uint64_t length)
{
    static uint64_t figures[BT_FIGURES + 1];
    for (uint32_t i = 0; i <= BT_FIGURES; i++) figures[i] = UNTOUCHED;
    CALL(bt_info(lent, length, figures));
    for (uint32_t i = 0; i <= BT_FIGURES; i++) mix(figures[i]);
    return answer;
}
static uint32_t ask_byte(const uint8_t *lent, uint64_t length)
{
    const uint32_t place = extreme();
    return CALL(bt_byte(lent, length, place, &first, &second));
}
static uint32_t ask_run(const uint8_t *lent, uint64_t length)
{
    const uint32_t place = extreme();
    return CALL(bt_run_range(lent, length, place, &large, &second));
}
static uint32_t ask_span(const uint8_t *lent, uint64_t length)
{
    const uint32_t many = below(2) ? below(40) : extreme(), place = extreme(), room = any_room();
    return CALL(bt_span(lent, length, place, many, buffer, room, &first));
}
static uint32_t ask_count(const uint8_t *lent, uint64_t length)
{
    const uint32_t byte = any_byte(), i = extreme();
    return CALL(bt_count(lent, length, byte, i, &large, &second));
}
static uint32_t ask_find(const uint8_t *lent, uint64_t length)
{
    const uint32_t byte = any_byte(), j = below(3) ? 1 + below(40) : extreme();
    return CALL(bt_find(lent, length, byte, j, &first, &second));
}
static uint32_t ask_row(const uint8_t *lent, uint64_t length)
{
    const uint32_t q = row_number(), room = any_room();
    return CALL(bt_row(lent, length, q, buffer, room, &first));
}
static uint32_t ask_row_length(const uint8_t *lent, uint64_t length)
{
    const uint32_t q = row_number();
    return CALL(bt_row_length(lent, length, q, &first));
}
static uint32_t ask_row_count(const uint8_t *lent, uint64_t length) { return CALL(bt_row_count(lent, length, &large)); }

/* A pattern of the text, sometimes with other bytes after it. Returns its length. */
static uint8_t pattern[260];
static uint32_t draw_pattern(void)
{
    const uint32_t kind = below(10), longest = below(8) ? 6 : 60, drawn = 1 + below(longest), from = below(text_len + 1);
    const uint32_t n = kind == 0 ? 0 : kind == 1 ? 257 : drawn;
    for (uint32_t i = 0; i < n; i++) pattern[i] = from + i < text_len ? text[from + i] : (uint8_t)rnd();
    return n;
}
static uint32_t ask_places(const uint8_t *lent, uint64_t length)
{
    const uint32_t n = draw_pattern(), words = below(3) ? TEXT : below(8);
    CALL(bt_places(lent, length, pattern, n, table, words, &first));
    for (uint32_t i = 0; i < TEXT + 8; i++) mix(table[i]);
    return answer;
}
static uint32_t ask_places_words(const uint8_t *lent, uint64_t length)
{
    const uint32_t n = below(300);
    return CALL(bt_places_words(lent, length, n, &first));
}
static uint32_t ask_next_match(const uint8_t *lent, uint64_t length)
{
    static uint8_t ranges[24];
    const uint32_t cuts = below(12) == 0 ? below(12) : 5, odd = below(20) == 0, n = 2 * cuts - (cuts && odd);
    for (uint32_t i = 0; i < n; i++) ranges[i] = (uint8_t)(i % 2 ? 3 + below(7) : below(4));
    if (n && below(20) == 0) ranges[below(n)] = 0xff;
    first = below(2) ? 0 : below(60);
    return CALL(bt_next_match(lent, length, ranges, n, &first, &second));
}
static uint32_t ask_next_with_prefix(const uint8_t *lent, uint64_t length)
{
    const uint32_t n = draw_pattern();
    first = below(2) ? 0 : below(60);
    return CALL(bt_next_with_prefix(lent, length, pattern, n, &first, &second));
}
static uint32_t ask_next_with_prefix_guided(const uint8_t *lent, uint64_t length)
{
    uint64_t beside_len;
    const uint8_t *beside = lent_guide(lent, length, &beside_len);
    const uint32_t n = draw_pattern();
    first = below(2) ? 0 : below(60);
    return CALL(bt_next_with_prefix_guided(lent, length, beside, beside_len, pattern, n, &first, &second));
}
static uint32_t ask_to_columns(const uint8_t *lent, uint64_t length)
{
    const uint32_t width = any_width(), room = below(8) ? TEXT : below(TEXT);
    (void)lent, (void)length;
    return CALL(bt_to_columns(text, text_len, width, buffer, room));
}
static uint32_t ask_from_columns(const uint8_t *lent, uint64_t length)
{
    const uint32_t width = any_width(), room = below(8) ? TEXT : below(TEXT);
    (void)lent, (void)length;
    return CALL(bt_from_columns(text, text_len, width, buffer, room));
}
static uint32_t ask_column_row(const uint8_t *lent, uint64_t length)
{
    const uint32_t width = any_width(), a = below(3) ? below(50) : extreme(), room = any_room();
    return CALL(bt_row_by_columns(lent, length, width, a, buffer, room));
}
static uint32_t ask_digest(const uint8_t *lent, uint64_t length)
{
    const uint32_t room = below(4) ? 40 : below(40);
    return CALL(bt_digest(lent, length, buffer, room));
}
static uint32_t ask_digest_text(const uint8_t *lent, uint64_t length)
{
    const uint32_t room = below(4) ? 40 : below(40), n = below(text_len + 1);
    (void)lent, (void)length;
    return CALL(bt_digest_text(text, n, buffer, room));
}
static uint32_t ask_guide_words(const uint8_t *lent, uint64_t length) { return CALL(bt_guide_words(lent, length, &large)); }
static uint32_t ask_make_guide(const uint8_t *lent, uint64_t length)
{
    const uint32_t room = below(3) ? TEXT : below(300);
    CALL(bt_make_guide(lent, length, buffer, room, &large));
    if (answer) return answer;
    guide_len = 4 * large;
    for (uint32_t i = 0; i < guide_len; i++) guide[i] = buffer[i];
    if (guide_len && below(4) == 0) guide[below((uint32_t)guide_len)] ^= 1;
    return answer;
}
static uint32_t ask_check_guide(const uint8_t *lent, uint64_t length)
{
    uint64_t beside_len;
    const uint8_t *beside = lent_guide(lent, length, &beside_len);
    return CALL(bt_check_guide(lent, length, beside, beside_len));
}
static uint32_t ask_find_guided(const uint8_t *lent, uint64_t length)
{
    uint64_t beside_len;
    const uint8_t *beside = lent_guide(lent, length, &beside_len);
    const uint32_t byte = any_byte(), j = below(4) ? 1 + below(90) : extreme();
    return CALL(bt_find_guided(lent, length, beside, beside_len, byte, j, &first, &second, &third));
}
static uint32_t ask_row_guided(const uint8_t *lent, uint64_t length)
{
    uint64_t beside_len;
    const uint8_t *beside = lent_guide(lent, length, &beside_len);
    const uint32_t q = row_number(), room = any_room();
    return CALL(bt_row_guided(lent, length, beside, beside_len, q, buffer, room, &first));
}
static uint32_t query_compare(const uint8_t *lent, uint64_t length)
{
    const int turned = below(2) != 0;
    return turned ? CALL(bt_compare(other, other_len, lent, length, &first, &second, &third))
                  : CALL(bt_compare(lent, length, other, other_len, &first, &second, &third));
}
static uint32_t ask_without_edges(const uint8_t *lent, uint64_t length)
{
    const uint32_t shorter = below(4) == 0 ? below((uint32_t)length + 1) : 0;
    for (uint32_t i = 0; i < length; i++) written[i] = 0x5a;
    CALL(bt_without_edges(lent, length, written, length - shorter, &large));
    mix_bytes(written, (uint32_t)length);
    return answer;
}
static uint32_t ask_list(const uint8_t *lent, uint64_t length)
{
    const uint32_t room = below(3) ? 400 : below(60);
    return CALL(bt_list(lent, length, buffer, room, &first));
}

/* Days: mostly dates, at the ends of months often. */
static uint8_t days[3][10];
static void draw_day(uint8_t *day)
{
    const uint32_t february = below(6) == 0, century = below(30) == 0 ? below(100) : 20, year = below(100);
    const uint32_t month = 1 + below(below(8) ? 12 : 14), any_day = 1 + below(below(8) ? 28 : 32), end = 28 + below(3);
    const uint32_t parts[] = {century, year, february ? 2 : month, february ? end : any_day};
    for (uint32_t i = 0; i < 4; i++) {
        day[2 * i] = (uint8_t)('0' + parts[i] / 10);
        day[2 * i + 1] = (uint8_t)('0' + parts[i] % 10);
    }
    day[8] = day[9] = '0';
    if (below(30) == 0) day[below(8)] = 'x';
}
static uint32_t draw_days(void)
{
    for (uint32_t i = 0; i < 3; i++) draw_day(days[i]);
    return below(12) ? 8 : below(10);
}
static uint32_t ask_open_on(const uint8_t *lent, uint64_t length)
{
    const uint32_t n = draw_days();
    (void)lent, (void)length;
    return CALL(bt_open_on(days[0], 8, days[1], n, days[2], 8, &first));
}
static uint32_t ask_days_left(const uint8_t *lent, uint64_t length)
{
    const uint32_t n = draw_days();
    int32_t left = 99;
    (void)lent, (void)length;
    CALL(bt_days_left(days[0], n, days[1], 8, &left));
    mix((uint64_t)(int64_t)left);
    return answer;
}
static uint32_t ask_renew(const uint8_t *lent, uint64_t length)
{
    const uint32_t n = draw_days();
    (void)lent, (void)length;
    CALL(bt_renew(days[0], n));
    mix_bytes(days[0], 10);
    return answer;
}

/* The arguments of both builders, drawn for each build. */
static uint8_t counted[8];
static uint32_t leaf, arity, levels, many_counted, room, work_words;
static uint32_t ask_build(const uint8_t *lent, uint64_t length)
{
    (void)lent, (void)length;
    return CALL(bt_build(text, text_len, leaf, arity, levels, counted, many_counted, tree, room, &first));
}
static uint32_t ask_build_scanned(const uint8_t *lent, uint64_t length)
{
    (void)lent, (void)length;
    for (uint32_t i = 0; i < sizeof table / 4; i++) table[i] = i * 2654435761u;
    CALL(bt_build_scanned(text, text_len, leaf, arity, levels, counted, many_counted, table, work_words, tree, room, &first, &second));
    mix(table[work_words]);
    return answer;
}

/* Every function of the header; test-targets compares the names. The builders come first and are called once a round, the others at random. */
static const struct {
    const char *name;
    question *ask;
} functions[] = {
    {"bt_build", ask_build}, {"bt_build_scanned", ask_build_scanned}, {"bt_scan_words", ask_scan_words}, {"bt_size_bound", ask_enough},
    {"bt_version", ask_version}, {"bt_without_edges", ask_without_edges}, {"bt_check", ask_check}, {"bt_info", ask_info}, {"bt_byte", ask_byte},
    {"bt_run_range", ask_run}, {"bt_span", ask_span}, {"bt_count", ask_count}, {"bt_find", ask_find}, {"bt_row", ask_row},
    {"bt_row_length", ask_row_length}, {"bt_row_count", ask_row_count}, {"bt_places", ask_places}, {"bt_places_words", ask_places_words},
    {"bt_next_match", ask_next_match}, {"bt_next_with_prefix", ask_next_with_prefix},
    {"bt_next_with_prefix_guided", ask_next_with_prefix_guided}, {"bt_to_columns", ask_to_columns}, {"bt_from_columns", ask_from_columns},
    {"bt_row_by_columns", ask_column_row}, {"bt_digest", ask_digest}, {"bt_digest_text", ask_digest_text}, {"bt_guide_words", ask_guide_words},
    {"bt_make_guide", ask_make_guide}, {"bt_check_guide", ask_check_guide}, {"bt_find_guided", ask_find_guided},
    {"bt_row_guided", ask_row_guided}, {"bt_compare", query_compare}, {"bt_list", ask_list}, {"bt_open_on", ask_open_on},
    {"bt_days_left", ask_days_left}, {"bt_renew", ask_renew},
};
enum { FUNCTIONS = sizeof functions / sizeof *functions, BUILDERS = 2, NUMBERS = 26 };
static uint32_t returned[FUNCTIONS][NUMBERS], most_stack[FUNCTIONS];

static void call(uint32_t function, const uint8_t *lent, uint64_t length)
{
    reset_figures();
    const uint32_t number = functions[function].ask(lent, length);
    calls++;
    mix(number), mix(first), mix(second), mix(third), mix(large);
    mix_bytes(buffer, sizeof buffer);
    returned[function][number < NUMBERS ? number : NUMBERS - 1]++;
    if (stack_used > most_stack[function]) most_stack[function] = stack_used;
    if (!in_shown_round) return;
    say(functions[function].name), say(" "), say_number(number), say(" "), say_number(hash), say("\n");
}

static void draw_settings(void)
{
    leaf = 1 + below(24), arity = 2 + below(5), levels = 1 + below(4), many_counted = below(5), room = TREE;
    if (below(16) == 0) leaf = below(2) ? below(258) : rnd();
    if (below(16) == 0) arity = below(2) ? below(18) : rnd();
    if (below(16) == 0) levels = below(2) ? below(10) : rnd();
    if (measuring) leaf = 1 + below(4), arity = 2, levels = 8, many_counted = 4;
    counted[0] = (uint8_t)(below(8) ? 10 : below(40));
    for (uint32_t i = 1; i < many_counted; i++) counted[i] = (uint8_t)(counted[i - 1] + 1 + below(40));
    if (below(16) == 0) {
        many_counted = below(6);
        for (uint32_t i = 0; i < many_counted; i++) counted[i] = (uint8_t)rnd();
    }
    if (below(8) == 0) room = below(4096);
    const uint64_t words = bt_scan_words(text_len, leaf);
    work_words = words < sizeof table / 4 ? (uint32_t)words : 0;
    if (work_words && below(10) == 0) work_words--;
}

static void play_round(void)
{
    make_text();
    draw_settings();
    call(below(BUILDERS), text, 0);
    tree_len = first ? first : below(300);
    mix_bytes(tree, tree_len + 16 < TREE ? tree_len + 16 : TREE);
    for (uint32_t i = 0; i < 24; i++) call(BUILDERS + below(FUNCTIONS - BUILDERS), tree, tree_len);
    for (uint32_t k = 0; k < 4; k++) {
        damage();
        for (uint32_t i = 0; i < 24; i++) call(BUILDERS + below(FUNCTIONS - BUILDERS), damaged, damaged_len);
    }
    const int good = below(3) != 0;
    other_len = good ? tree_len : damaged_len;
    for (uint32_t i = 0; i < other_len; i++) other[i] = good ? tree[i] : damaged[i];
}

static void say_totals(void)
{
    say("calls "), say_number(calls), say("\n");
    for (uint32_t f = 0; f < FUNCTIONS; f++) {
        say(functions[f].name);
        for (uint32_t i = 0; i < NUMBERS; i++) {
            if (returned[f][i] && !measuring) say(" "), say_number(i), say(":"), say_number(returned[f][i]);
        }
        if (measuring) say(" "), say_number(most_stack[f]);
        say("\n");
    }
}

int run(int words, char **word)
{
    if (words < 3) return 2;
    random_state += number_of(word[1]) * 1000003ull;
    measuring = words > 3 && equal(word[3], "stack");
    if (words > 4) shown_round = number_of(word[4]);
    for (uint32_t round = 0; round < number_of(word[2]); round++) {
        in_shown_round = round == shown_round;
        play_round();
        if (!measuring) say_number(round), say(" "), say_number(hash), say("\n");
    }
    say_totals();
    return 0;
}
