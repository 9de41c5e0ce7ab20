/* The worked cases of document 01, driven from C through the header. */
#include "chorvadhim.h"

#include <stdio.h>
#include <string.h>

enum { ROOM = 64, PATTERN = 0xa5 };

static unsigned passed, failed;

static void expect(int right, const char *what)
{
    if (right) {
        passed++;
    } else {
        failed++;
        printf("wrong: %s\n", what);
    }
}

static const uint8_t *bytes(const char *text)
{
    return (const uint8_t *)text;
}

/* Every byte of the buffer from a start on is as it was. */
static int kept_from(const uint8_t *buffer, size_t start)
{
    for (size_t i = start; i < ROOM; i++) {
        if (buffer[i] != PATTERN) return 0;
    }
    return 1;
}

/* The answer word is that of an accepted form, which stands in the buffer; the rest of the buffer is as it was. */
static int is_form(uint64_t word, const uint8_t *buffer, const char *form, unsigned t_count, unsigned h_count)
{
    size_t length = strlen(form);
    return chorvadhim_refusal(word) == 0 && chorvadhim_length(word) == length && chorvadhim_t_count(word) == t_count
        && chorvadhim_h_count(word) == h_count && memcmp(buffer, form, length) == 0 && kept_from(buffer, length);
}

static int is_refusal(uint64_t word, unsigned number, uint32_t place)
{
    return word == (number | (uint64_t)place << 8) && chorvadhim_refusal(word) == number && chorvadhim_place(word) == place;
}

static void string_case(const char *text, const char *form, unsigned t_count, unsigned h_count)
{
    uint8_t buffer[ROOM];
    memset(buffer, PATTERN, ROOM);
    uint64_t word = chorvadhim_string_to_form(bytes(text), strlen(text), buffer, ROOM);
    expect(is_form(word, buffer, form, t_count, h_count), text);
}

static void strings(void)
{
    string_case("", "", 0, 0);
    string_case("TTTTTTTT", "", 0, 0);
    string_case("HH", "", 0, 0);
    string_case("WWWWWWWW", "", 0, 0);
    string_case("TT", "S", 0, 0);
    string_case("Z", "SS", 0, 0);
    string_case("Y", "XSSWW", 0, 0);
    string_case("HSHSHS", "W", 0, 0);
    string_case("XT", "TXSWWWWWWW", 1, 0);
    string_case("TXT", "XW", 0, 0);
    string_case("TXTX", "W", 0, 0);
    string_case("HTT", "HS", 0, 0);
    string_case("STH", "TSH", 1, 0);
    string_case("ZH", "HX", 0, 0);
    string_case("XH", "HSS", 0, 0);
    string_case("HTTHT", "SHTX", 1, 1);
    string_case("THSHSHTH", "HW", 0, 0);
    string_case("HTHT", "HTHT", 2, 2);
    string_case("THT", "THT", 2, 1);
    string_case("TTTT", "SS", 0, 0);
}

static void refused_strings(void)
{
    static uint8_t text[CHORVADHIM_STRING_LIMIT + 1];
    uint8_t buffer[ROOM];
    memset(text, 'T', sizeof text);
    memset(buffer, PATTERN, ROOM);
    uint64_t word = chorvadhim_string_to_form(text, CHORVADHIM_STRING_LIMIT, buffer, ROOM);
    expect(is_form(word, buffer, "", 0, 0), "4,096 letters");
    text[0] = 'Q';
    word = chorvadhim_string_to_form(text, sizeof text, buffer, ROOM);
    expect(is_refusal(word, 2, CHORVADHIM_STRING_LIMIT), "4,097 letters, a bad one at 0");
    expect(is_refusal(chorvadhim_string_to_form(bytes("HQ"), 2, buffer, ROOM), 1, 1), "HQ");
    expect(is_refusal(chorvadhim_string_to_form(bytes("XT"), 2, buffer, 9), 3, 10), "XT into 9 bytes");
    expect(kept_from(buffer, 0), "a refusal changes no lent byte");
}

static void matrix_case(uint32_t exponent, const int64_t *entries, const char *form, const char *what)
{
    uint8_t buffer[ROOM];
    memset(buffer, PATTERN, ROOM);
    uint64_t word = chorvadhim_matrix_to_form(exponent, entries, buffer, ROOM);
    expect(is_form(word, buffer, form, 0, 0), what);
}

static void refused_matrix(uint32_t exponent, int64_t first, unsigned number, const char *what)
{
    int64_t entries[CHORVADHIM_COEFFICIENTS] = { [0] = first, [4] = 1, [8] = 1, [12] = -1 };
    uint8_t buffer[ROOM];
    memset(buffer, PATTERN, ROOM);
    uint64_t word = chorvadhim_matrix_to_form(exponent, entries, buffer, ROOM);
    expect(is_refusal(word, number, 0) && kept_from(buffer, 0), what);
}

static void matrices(void)
{
    const int64_t twice[CHORVADHIM_COEFFICIENTS] = { [0] = 2, [12] = 2 };
    const int64_t roots[CHORVADHIM_COEFFICIENTS] = { [1] = 1, [3] = -1, [13] = 1, [15] = -1 };
    matrix_case(2, twice, "", "k = 2, entries 2, 0, 0, 2");
    matrix_case(1, roots, "", "k = 1, entries (0,1,0,-1), 0, 0, (0,1,0,-1)");
    refused_matrix(0, 1, 6, "k = 0, entries 1, 1, 1, -1");
    refused_matrix(41, 1, 4, "k = 41");
    refused_matrix(0, CHORVADHIM_COEFFICIENT_LIMIT, 6, "coefficient 1,048,576");
    refused_matrix(0, CHORVADHIM_COEFFICIENT_LIMIT + 1, 5, "coefficient 1,048,577");
}

#define FRAME_OF_H \
    "01" \
    "00000001000000000000000000000000" \
    "00000001000000000000000000000000" \
    "00000001000000000000000000000000" \
    "ffffffff000000000000000000000000" \
    "00000003"

static void frames(void)
{
    const int64_t h[CHORVADHIM_COEFFICIENTS] = { [0] = 1, [4] = 1, [8] = 1, [12] = -1 };
    int64_t read[CHORVADHIM_COEFFICIENTS];
    uint8_t buffer[CHORVADHIM_FRAME_LENGTH];
    char text[] = FRAME_OF_H;
    uint64_t word = chorvadhim_matrix_to_frame(1, h, buffer, sizeof buffer);
    expect(word == 0 && memcmp(buffer, text, sizeof buffer) == 0, "the frame of H, written");
    word = chorvadhim_frame_to_matrix(bytes(text), sizeof buffer, read);
    expect(word == 1 << 8 && chorvadhim_exponent(word) == 1 && memcmp(read, h, sizeof h) == 0, "the frame of H, read");
    word = chorvadhim_frame_to_form(bytes(text), sizeof buffer, buffer, sizeof buffer);
    expect(word == 1 << 8 && buffer[0] == 'H', "the form of the frame of H");
    word = chorvadhim_matrix_to_frame(1, h, buffer, sizeof buffer - 1);
    expect(is_refusal(word, 3, CHORVADHIM_FRAME_LENGTH), "no room for a frame");
    expect(buffer[0] == 'H' && memcmp(buffer + 1, text + 1, sizeof buffer - 1) == 0, "the bytes after the form of H stay");
    word = chorvadhim_frame_to_matrix(bytes(text), sizeof buffer - 1, read);
    expect(is_refusal(word, 9, CHORVADHIM_FRAME_LENGTH - 1), "a frame too short");
    memcpy(text, "29", 2);
    expect(is_refusal(chorvadhim_frame_to_matrix(bytes(text), sizeof buffer, read), 10, 130), "k = 41 and a wrong check word");
    text[130 + 1] = 'A';
    expect(is_refusal(chorvadhim_frame_to_matrix(bytes(text), sizeof buffer, read), 9, 131), "a capital digit");
    expect(memcmp(read, h, sizeof h) == 0, "a refusal changes no lent coefficient");
}

static uint64_t read_form(const char *text)
{
    return chorvadhim_read_form(bytes(text), strlen(text));
}

static uint64_t compare(const char *first, const char *second)
{
    return chorvadhim_compare(bytes(first), strlen(first), bytes(second), strlen(second));
}

static void readings(void)
{
    expect(is_refusal(read_form("HST"), 7, 2), "form reader, HST");
    expect(is_refusal(read_form("TT"), 7, 1), "form reader, TT");
    expect(is_refusal(read_form("XX"), 7, 1), "form reader, XX");
    uint64_t word = read_form("THTSHXSW");
    expect(chorvadhim_refusal(word) == 0 && chorvadhim_length(word) == 8 && chorvadhim_t_count(word) == 2
        && chorvadhim_h_count(word) == 1 && chorvadhim_tail(word) == 169, "form reader, THTSHXSW");
    expect(compare("TT", "S") == 0, "TT and S are the same");
    expect(chorvadhim_phase(compare("HSHSHS", "")) == 1, "HSHSHS is W");
    expect(chorvadhim_phase(compare("T", "S")) == 8, "T and S are different");
    word = compare("T", "TQ");
    expect(chorvadhim_refusal(word) == 1 && chorvadhim_place(word) == 1 && chorvadhim_which(word) == 1, "T and TQ");
    int64_t read[CHORVADHIM_COEFFICIENTS];
    const int64_t h[CHORVADHIM_COEFFICIENTS] = { [0] = 1, [4] = 1, [8] = 1, [12] = -1 };
    word = chorvadhim_string_to_matrix(bytes("HTTTTTTTT"), 9, read);
    expect(word == 1 << 8 && memcmp(read, h, sizeof h) == 0, "the matrix of H");
}

int main(void)
{
    strings();
    refused_strings();
    matrices();
    frames();
    readings();
    printf("%u worked cases passed, %u failed\n", passed, failed);
    return failed != 0;
}
