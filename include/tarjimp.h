/*
 * Tarjimp: SRL and raw streams, upgrade passes, dequantizing, the inverse
 * reduce-extrapolate wavelet and pixels of RemoteFX Progressive tiles.
 *
 * Link with libtarjimp.a, which `rt lib` in crates/tarjimp/ writes to
 * crates/tarjimp/out/. It needs no other library, keeps no state of its own,
 * allocates nothing, and any number of threads may call it. A call takes up to
 * 1 KB of stack; tarjimp_band_of_place 5, the two writers of a pass 57,
 * tarjimp_decode_upgrade_pass and tarjimp_tile_decode_upgrade 12,
 * tarjimp_tile_reconstruct_to_rgba 36 (measured on x86-64, with the older
 * toolchain).
 *
 * WHAT A CALL RETURNS
 *
 * 0 where the call was accepted, else the number of its refusal, by name in
 * enum tarjimp_refusal (tarjimp_band_of_place returns the number of a band):
 *
 *   1  a coefficient, sign or scratch slice under 4,096 elements, or pixels
 *      under 16,384 bytes
 *   2  a position or quantizer above 15, given or in the tile
 *   3  pixels wanted in the standard layout
 *   4  an SRL width outside 1..15 (decode: only where a nonzero value is due)
 *   5  a magnitude above the maximum of its width, 2^width - 1
 *   6  more than 4,096 pending zeros (tarjimp_srl_encode)
 *   7  the answer exceeds an output slice
 *   8  an impossible coder state, or a tile whose numbers of zero signs are not
 *      those of its signs
 *
 * Several reasons: the first in the order 8, 1, 2, 3, 4, 5 or 6 by the earlier
 * value, 7. With a refusal no buffer, state or field is altered, and counts of
 * bytes and of missing bits are 0. The bytes of a stream never cause one.
 * tarjimp_message() below has the numbers in words.
 *
 * MISSING BITS
 *
 * Past a stream's end every bit is 0, so a stream that is cut is not refused.
 * Each call that reads a stream says in missing how many of the bits that it
 * read came from past the end; 0 means that the stream had all of them. What
 * either writer of a pass writes misses none where it is read with the same
 * signs and rows (proved). Some writers leave out zeros at the end of a stream:
 * those count as missing too, though nothing is lost with them. Nor does a cut
 * stream take long: the loop that counts a value's zeros turns at most once for
 * each bit that the stream still holds, and once more, at every width (proved).
 *
 * WHAT MUST HOLD OF POINTERS
 *
 * - A slice is a pointer and its length in ELEMENTS. With length 0 the pointer
 *   is not read; it may be NULL.
 * - Else a pointer points to that many elements, aligned for their type, and
 *   an array parameter (as prev[10]) to as many as it says.
 * - What one call is lent for writing overlaps nothing else that it is lent.
 *   What it only reads may overlap what it only reads.
 * - A length counts what one object can hold: at most PTRDIFF_MAX bytes.
 * - A bool is 0 or 1.
 *
 * Everything else is checked, and refused by number. A slice may be longer
 * than a call needs: what lies past the answer is left as it was.
 *
 * TERMS
 *
 * A component has 64 x 64 = 4,096 coefficients in ten bands, in the order HL1
 * LH1 HH1 HL2 LH2 HH2 HL3 LH3 HH3 LL3; a tile three components, Y, Cb and Cr,
 * one after another. A row has a number for each band, in that order:
 * positions (the lowest bit that has arrived) or quantizers. Signs are 1, -1,
 * or 0 for a coefficient whose first bit has not arrived. A tile has thirty
 * numbers of zero signs, three rows of ten: how many signs of that band of that
 * component are 0. They say how much of the tile is still undecided.
 */
#ifndef TARJIMP_H
#define TARJIMP_H

#include <stdbool.h>
#include <stddef.h>
#include <stdint.h>

#ifdef __cplusplus
extern "C" {
#endif

/* What a call returns. */
enum tarjimp_refusal {
    TARJIMP_ACCEPTED = 0,
    TARJIMP_SLICE_TOO_SHORT = 1,
    TARJIMP_OUT_OF_DOMAIN = 2,
    TARJIMP_STANDARD_LAYOUT = 3,
    TARJIMP_INVALID_BIT_COUNT = 4,
    TARJIMP_MAGNITUDE_OUT_OF_RANGE = 5,
    TARJIMP_ZERO_RUN_TOO_LONG = 6,
    TARJIMP_OUTPUT_TOO_SHORT = 7,
    TARJIMP_IMPOSSIBLE_STATE = 8,
};

/* What tarjimp_band_of_place returns for a place that has no band. */
#define TARJIMP_NO_BAND 10

/*
 * Room for a pass: with outputs of at least so many bytes neither writer of a
 * pass is refused by 7, whatever its other arguments are (proved: room_suffices
 * in crates/progressive). drop is the most by which the pass lowers a position,
 * from prev to curr: 0 to 15. The two constants are for any pass.
 */
#define TARJIMP_SRL_BYTES(drop) (((size_t)504 << (drop)) + 2)
#define TARJIMP_RAW_BYTES(drop) ((size_t)512 * (drop))
#define TARJIMP_SRL_BYTES_MAX 16515074
#define TARJIMP_RAW_BYTES_MAX 7680

/*
 * SRL streams. A state is handed in and back as numbers, so that a stream may
 * be read or written in any number of calls. A number that does not fit its
 * field, as a kp of 300 or a flag of 2, is an impossible state: 8. Fresh states:
 */
#define TARJIMP_SRL_DECODE_START { 0, 0, 8, 0, 0 }
#define TARJIMP_SRL_ENCODE_START { 8, 0, 0, 0 }

/*
 * Stores the next num_values values at the front of out, each 0 or of a
 * magnitude of num_bits bits.
 * state: byte, bit, kp, zero_run_remaining, nonzero_pending (0 or 1).
 * *missing is the count of bits that this call read from past the end of data;
 * zeros of a run that an earlier call has read take no bit.
 * Refusals: 8, 4, 7.
 */
uint8_t tarjimp_srl_decode(const uint8_t *data, size_t data_len,
                           uint64_t state[5],
                           int16_t *out, size_t out_len,
                           size_t num_values, uint8_t num_bits,
                           uint64_t missing[1]);

/*
 * Writes values: the whole bytes that this call completes, from the start of
 * out. *written is their count.
 * state: kp, pending_zeros, current (unfinished bits), bit_count.
 * Refusals: 8, 4, 5 or 6, 7.
 */
uint8_t tarjimp_srl_encode(const int16_t *values, size_t values_len,
                           uint64_t state[4],
                           uint8_t *out, size_t out_len,
                           uint8_t num_bits, size_t written[1]);

/*
 * Writes the end of a stream from the start of out: pending zeros, padding and
 * a byte 0. *written is the count of bytes. Refusals: 8, 7.
 */
uint8_t tarjimp_srl_finish(const uint64_t state[4],
                           uint8_t *out, size_t out_len, size_t written[1]);

/*
 * Reads an upgrade pass over one component, in place: each band goes from its
 * position in prev to that in curr; a band whose position does not fall is
 * left alone. missing has the counts of bits that were read from past the end
 * of the SRL stream and of the raw stream. Refusals: 1, 2.
 */
uint8_t tarjimp_decode_upgrade_pass(const uint8_t *srl, size_t srl_len,
                                    const uint8_t *raw, size_t raw_len,
                                    const uint8_t prev[10], const uint8_t curr[10],
                                    bool use_reduce_extrapolate,
                                    int16_t *coefficients, size_t coefficients_len,
                                    int8_t *sign, size_t sign_len,
                                    uint32_t missing[2]);

/*
 * Writes an upgrade pass over one component: from prev_coefficients, with
 * their signs, to coefficients, both shifted right with floor at a sign 0.
 * written has the counts of bytes of the SRL stream and of the raw stream.
 * Refusals: 1, 2, 5, 7 (not with the room above).
 * 5 cannot happen where the coefficients are multiples of 2^position in curr,
 * prev_coefficients are the same without the bits below prev of their
 * magnitudes, and signs are those of prev_coefficients, outside LL3 (proved:
 * own_cuts_sent in crates/progressive). A negative coefficient of LL3 over its
 * floor gains nothing.
 */
uint8_t tarjimp_encode_upgrade_pass(const int16_t *coefficients, size_t coefficients_len,
                                    const int16_t *prev_coefficients, size_t prev_coefficients_len,
                                    const uint8_t prev[10], const uint8_t curr[10],
                                    const int8_t *sign, size_t sign_len,
                                    bool use_reduce_extrapolate,
                                    uint8_t *srl_out, size_t srl_out_len,
                                    uint8_t *raw_out, size_t raw_out_len,
                                    size_t written[2]);

/*
 * The same by the symmetric rule, under which a negative coefficient is sent
 * like its positive twin: at a sign 0 outside LL3 the difference of the two
 * coefficients, its sign kept and its magnitude shifted right; in LL3 the
 * difference of the two floors, not below 0. -7 over 0 from position 3 to 1
 * sends -3 (the function above: 5), and 7 sends 3. coefficients may be the
 * picture itself, in every pass: the rule cuts it at curr. prev_coefficients
 * are what the reader has: the same cut at prev, outside LL3 with the bits below
 * prev of its magnitude 0, in LL3 by floor, and signs outside LL3 are those of
 * prev_coefficients. Then 5 cannot happen, and the reader comes to the picture
 * cut at curr (proved: cut_round_trip in crates/progressive). So it does not
 * matter in how many passes a picture is sent: where none raises a position, a
 * tile ends at the picture cut at the last positions, and no call is refused
 * (proved: ladder_does_not_matter in crates/ladder).
 * Refusals: 1, 2, 5, 7 (not with the room above).
 */
uint8_t tarjimp_encode_upgrade_pass_symmetric(const int16_t *coefficients, size_t coefficients_len,
                                              const int16_t *prev_coefficients, size_t prev_coefficients_len,
                                              const uint8_t prev[10], const uint8_t curr[10],
                                              const int8_t *sign, size_t sign_len,
                                              bool use_reduce_extrapolate,
                                              uint8_t *srl_out, size_t srl_out_len,
                                              uint8_t *raw_out, size_t raw_out_len,
                                              size_t written[2]);

/* Dequantizes a component in place. Refusals: 1, 2. */
uint8_t tarjimp_dequantize_component(int16_t *coefficients, size_t coefficients_len,
                                     const uint8_t quant[10], bool use_reduce_extrapolate);

/*
 * The inverse reduce-extrapolate wavelet of a component, in place. temp is
 * scratch of the same size. Refusal: 1.
 */
uint8_t tarjimp_dwt_extrapolate_decode(int16_t *buffer, size_t buffer_len,
                                       int16_t *temp, size_t temp_len);

/* The red, green and blue of a pixel. */
void tarjimp_ycbcr_to_rgb(int16_t y, int16_t cb, int16_t cr, uint8_t rgb[3]);

/*
 * The number of the band that a place of a component belongs to: 0 to 9 in band
 * order, HL1 .. LL3, or TARJIMP_NO_BAND for a place at or past 4096. A call
 * builds the layout's table anew and takes as long as the filling function
 * below, 55 to 70 nanoseconds (measured on x86-64, with the older toolchain):
 * who colours a whole component takes that one.
 */
uint8_t tarjimp_band_of_place(bool use_reduce_extrapolate, size_t place);

/* Fills the number of the band of each place, in the order of the places. */
void tarjimp_bands_of_places(bool use_reduce_extrapolate, uint8_t bands[4096]);

/*
 * Fills the numbers of zero signs of a tile, by its signs and its layout: for a
 * tile that the caller makes, before the two functions below are called with it.
 * Any other sign than 0, as 5, is not zero. LL3's signs are counted too.
 */
void tarjimp_tile_zero_signs(const int8_t sign[12288], bool use_reduce_extrapolate,
                             uint16_t zero_signs[30]);

/*
 * An upgrade pass over a tile, in place, from its positions in prog_quant to
 * prog_quants (three rows of ten): coefficients and signs, then prog_quant
 * and *quality are set and *pass rises by 1, up to 65535. zero_signs has the
 * numbers of zero signs, of the tile before the pass and then after it. missing
 * has the counts of bits that were read from past the end of the three SRL
 * streams and of the three raw streams, each as one sum. Refusals: 8, 2.
 */
uint8_t tarjimp_tile_decode_upgrade(int16_t coefficients[12288], int8_t sign[12288],
                                    uint16_t zero_signs[30],
                                    uint8_t prog_quant[30], const uint8_t base_quant[30],
                                    bool use_reduce_extrapolate,
                                    uint16_t pass[1], uint8_t quality[1],
                                    const uint8_t prog_quants[30], uint8_t new_quality,
                                    const uint8_t *y_srl, size_t y_srl_len,
                                    const uint8_t *y_raw, size_t y_raw_len,
                                    const uint8_t *cb_srl, size_t cb_srl_len,
                                    const uint8_t *cb_raw, size_t cb_raw_len,
                                    const uint8_t *cr_srl, size_t cr_srl_len,
                                    const uint8_t *cr_raw, size_t cr_raw_len,
                                    uint32_t missing[2]);

/*
 * The pixels of a tile, row by row, four bytes each: red, green, blue, 255.
 * They do not depend on the signs, which are here to be counted: where the
 * numbers of zero signs are not theirs, no pixels are given.
 * Refusals: 8, 1, 2, 3 (only the reduce-extrapolate layout has pixels).
 */
uint8_t tarjimp_tile_reconstruct_to_rgba(const int16_t coefficients[12288],
                                         const int8_t sign[12288], const uint16_t zero_signs[30],
                                         const uint8_t prog_quant[30], const uint8_t base_quant[30],
                                         bool use_reduce_extrapolate,
                                         uint8_t *pixels, size_t pixels_len);

/* What a returned number means, for a log or a message. */
static inline const char *tarjimp_message(uint8_t number)
{
    switch (number) {
    case TARJIMP_ACCEPTED: return "accepted";
    case TARJIMP_SLICE_TOO_SHORT: return "a slice is too short: coefficients, signs and scratch have 4096 elements, pixels 16384 bytes";
    case TARJIMP_OUT_OF_DOMAIN: return "a position or quantizer is above 15";
    case TARJIMP_STANDARD_LAYOUT: return "pixels are made in the reduce-extrapolate layout only";
    case TARJIMP_INVALID_BIT_COUNT: return "an SRL width is outside 1 to 15";
    case TARJIMP_MAGNITUDE_OUT_OF_RANGE: return "a magnitude is above the maximum of its width";
    case TARJIMP_ZERO_RUN_TOO_LONG: return "more than 4096 zeros are pending";
    case TARJIMP_OUTPUT_TOO_SHORT: return "the answer does not fit the output slice";
    case TARJIMP_IMPOSSIBLE_STATE: return "the coder state is impossible, or the tile's numbers of zero signs are wrong";
    default: return "no number of this library";
    }
}

#ifdef __cplusplus
}
#endif

#endif
