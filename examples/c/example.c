/*
 * What a viewer does with the library, in C: an SRL stream written and read, the
 * bands of places, a tile sharpened by a pass, its pixels, and what each refusal
 * looks like.
 * examples/run compiles and runs it and compares what it prints.
 */
#include "tarjimp.h"

#include <inttypes.h>
#include <stdio.h>
#include <stdlib.h>
#include <string.h>

/* Outputs for any pass have the room of the greatest drop, from position 15 to 0. */
_Static_assert(TARJIMP_SRL_BYTES(15) == TARJIMP_SRL_BYTES_MAX, "SRL bytes of the greatest drop");
_Static_assert(TARJIMP_RAW_BYTES(15) == TARJIMP_RAW_BYTES_MAX, "raw bytes of the greatest drop");

/* Ends the program where a call is refused that should not be. */
static void accepted(const char *call, uint8_t number)
{
    if (number != 0) {
        fprintf(stderr, "%s: refused, %u: %s\n", call, number, tarjimp_message(number));
        exit(1);
    }
}

static void print_bytes(const char *name, const uint8_t *bytes, size_t count)
{
    printf("%s:", name);
    for (size_t i = 0; i < count; i++)
        printf(" %02X", bytes[i]);
    printf("\n");
}

/* Six values, written in one call and read in two: the state goes from call to call. */
static void srl_stream(void)
{
    static const int16_t values[6] = { 0, 0, 3, -1, 0, 2 };
    uint64_t writer[4] = TARJIMP_SRL_ENCODE_START;
    uint64_t reader[5] = TARJIMP_SRL_DECODE_START;
    uint8_t stream[16];
    int16_t back[6];
    uint64_t missing;
    size_t n, end;

    accepted("encode", tarjimp_srl_encode(values, 6, writer, stream, sizeof stream, 2, &n));
    accepted("finish", tarjimp_srl_finish(writer, stream + n, sizeof stream - n, &end));
    print_bytes("SRL stream of 0 0 3 -1 0 2, width 2", stream, n + end);

    accepted("decode", tarjimp_srl_decode(stream, n + end, reader, back, 6, 4, 2, &missing));
    accepted("decode", tarjimp_srl_decode(stream, n + end, reader, back + 4, 2, 2, 2, &missing));
    printf("read back in two calls:");
    for (size_t i = 0; i < 6; i++)
        printf(" %d", back[i]);
    printf("\n");
}

/* The bands of a place in both layouts, and how many places of all the bottom band, number 9, has. */
static void bands_of_a_place(size_t place)
{
    static uint8_t bands[4096];
    unsigned bottom = 0;

    tarjimp_bands_of_places(true, bands);
    for (size_t i = 0; i < 4096; i++)
        bottom += bands[i] == 9;
    printf("place %zu: band %u, in the standard layout %u; LL3 has %u places\n", place,
           tarjimp_band_of_place(true, place), tarjimp_band_of_place(false, place), bottom);
}

/* A tile as the library has it: flat arrays that the caller owns. */
struct tile {
    int16_t coefficients[12288];
    int8_t sign[12288];
    uint16_t zero_signs[30];
    uint8_t prog_quant[30];
    uint8_t base_quant[30];
    uint16_t pass;
    uint8_t quality;
};

/* How many signs of the luma component are 0 outside LL3, the last of its ten bands. */
static unsigned luma_zero_signs(const struct tile *tile)
{
    unsigned sum = 0;

    for (size_t band = 0; band < 9; band++)
        sum += tile->zero_signs[band];
    return sum;
}

static void print_pixel(const char *name, const struct tile *tile)
{
    static uint8_t pixels[64 * 64 * 4];

    accepted("pixels", tarjimp_tile_reconstruct_to_rgba(tile->coefficients, tile->sign, tile->zero_signs,
                                                        tile->prog_quant, tile->base_quant, true, pixels,
                                                        sizeof pixels));
    printf("%s: pass %u, %u zero signs of luma, the first coefficient is %d with sign %d, the first pixel is %u %u %u\n",
           name, tile->pass, luma_zero_signs(tile), tile->coefficients[0], tile->sign[0], pixels[0], pixels[1],
           pixels[2]);
}

/* Reads a pass over the luma component; the other two keep their positions, and need no streams. */
static void upgrade(const char *name, struct tile *tile, const uint8_t rows[30], const uint8_t *srl, size_t srl_len,
                    const uint8_t *raw, size_t raw_len)
{
    uint32_t missing[2];

    accepted("upgrade", tarjimp_tile_decode_upgrade(tile->coefficients, tile->sign, tile->zero_signs, tile->prog_quant,
                                                    tile->base_quant, true, &tile->pass, &tile->quality, rows, 100,
                                                    srl, srl_len, raw, raw_len, NULL, 0, NULL, 0, NULL, 0, NULL, 0,
                                                    missing));
    print_pixel(name, tile);
    printf("bits missing: %" PRIu32 " of SRL, %" PRIu32 " raw\n", missing[0], missing[1]);
}

/*
 * A luma coefficient of -21 that the coarse tile has as 0: the pass to position 1 brings its sign and the bits of its
 * magnitude, so -20, as 21 would be 20. Then the same pass once more, of whose SRL stream one byte arrives: the bits
 * behind it are read as zeros, and counted.
 */
static void sharpen(void)
{
    static struct tile tile, cut;
    static int16_t target[4096];
    static uint8_t srl[TARJIMP_SRL_BYTES(4)], raw[TARJIMP_RAW_BYTES(4)]; /* room enough: positions fall from 5 to 1 */
    uint8_t rows[30];
    size_t written[2];

    memset(tile.prog_quant, 5, sizeof tile.prog_quant);
    memset(tile.base_quant, 6, sizeof tile.base_quant);
    memset(rows, 5, sizeof rows);
    memset(rows, 1, 10);
    tile.pass = 1;
    tarjimp_tile_zero_signs(tile.sign, true, tile.zero_signs);
    cut = tile;
    print_pixel("before", &tile);

    target[0] = -21;
    accepted("write", tarjimp_encode_upgrade_pass_symmetric(target, 4096, tile.coefficients, 4096, tile.prog_quant,
                                                            rows, tile.sign, 4096, true, srl, sizeof srl, raw,
                                                            sizeof raw, written));
    printf("the pass: %zu bytes of SRL, %zu bytes of raw bits\n", written[0], written[1]);
    upgrade("after", &tile, rows, srl, written[0], raw, written[1]);
    upgrade("after a cut pass", &cut, rows, srl, 1, raw, written[1]);
}

static void print_refusal(const char *what, uint8_t number)
{
    printf("%s: %u, %s\n", what, number, tarjimp_message(number));
}

/* Each number. No call alters what it is lent. */
static void refusals(void)
{
    static int16_t component[4096];
    static int16_t all[12288];
    static int8_t sign[12288];
    static uint8_t pixels[64 * 64 * 4];
    static const int16_t values[2] = { 0, 4 };
    static int16_t zeros[4097];
    const uint8_t six[10] = { 6, 6, 6, 6, 6, 6, 6, 6, 6, 6 };
    const uint8_t high[10] = { 6, 6, 6, 6, 16, 6, 6, 6, 6, 6 };
    const uint8_t rows[30] = { 0 };
    uint16_t zero_signs[30];
    uint64_t writer[4] = TARJIMP_SRL_ENCODE_START;
    uint64_t impossible[5] = { 0, 0, 300, 0, 0 };
    uint64_t missing;
    uint8_t out[4];
    size_t n;

    print_refusal("4095 coefficients", tarjimp_dequantize_component(component, 4095, six, true));
    print_refusal("no coefficients at NULL", tarjimp_dequantize_component(NULL, 0, six, true));
    print_refusal("a quantizer of 16", tarjimp_dequantize_component(component, 4096, high, true));
    tarjimp_tile_zero_signs(sign, false, zero_signs);
    print_refusal("pixels in the standard layout",
                  tarjimp_tile_reconstruct_to_rgba(all, sign, zero_signs, rows, rows, false, pixels, sizeof pixels));
    print_refusal("width 16", tarjimp_srl_encode(values, 2, writer, out, sizeof out, 16, &n));
    print_refusal("4 at width 2", tarjimp_srl_encode(values, 2, writer, out, sizeof out, 2, &n));
    print_refusal("4097 zeros", tarjimp_srl_encode(zeros, 4097, writer, out, sizeof out, 1, &n));
    print_refusal("no room for the end", tarjimp_srl_finish(writer, out, 0, &n));
    print_refusal("kp 300", tarjimp_srl_decode(out, 0, impossible, component, 4096, 1, 1, &missing));
    print_refusal("numbers of zero signs of the other layout",
                  tarjimp_tile_reconstruct_to_rgba(all, sign, zero_signs, rows, rows, true, pixels, sizeof pixels));
    printf("after them: kp %" PRIu64 ", pending zeros %" PRIu64 ", %zu bytes written, %" PRIu64 " bits missing\n",
           writer[0], writer[1], n, missing);
}

int main(void)
{
    uint8_t rgb[3];

    srl_stream();
    tarjimp_ycbcr_to_rgb(0, 0, 100, rgb);
    printf("y 0, cb 0, cr 100: %u %u %u\n", rgb[0], rgb[1], rgb[2]);
    bands_of_a_place(4015);
    sharpen();
    refusals();
    return 0;
}
