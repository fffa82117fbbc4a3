/* A decode, edits and a checksum from C. examples/example.rs and examples/example.py do the same and print the same.
 *
 *     ./install PREFIX
 *     cc examples/example.c $(PKG_CONFIG_PATH=PREFIX/lib/pkgconfig pkg-config --cflags --libs foxentu) -o example
 */
#include <picture.h>
#include <residual.h>
#include <stdio.h>

static int refused(const char *what, uint32_t number)
{
    printf("%s: refused %u: %s\n", what, (unsigned)number, residual_refusal_text(number));
    return 1;
}

static void print_block(const char *what, const int32_t *block, size_t n)
{
    printf("%s\n", what);
    for (size_t i = 0; i < n * n; i++)
        printf("%d%c", (int)block[i], i % n == n - 1 ? '\n' : ' ');
}

int main(void)
{
    enum { N = 4, DEPTH = 8, WIDTH = 8, HEIGHT = 6 };
    const int32_t levels[N * N] = {9, -3, 0, 0, -4, 1};
    int32_t coeff[N * N], inter[N * N], residual[N * N];

    printf("foxentu %s\n", RESIDUAL_VERSION);

    /* levels to coefficients, at QP 30 */
    residual_signed_answered qp = residual_qp_prime(30, DEPTH);
    if (qp.number)
        return refused("qp", qp.number);
    residual_count_answered scaled = residual_dequantize_into_scalar_i32(levels, N * N, N, qp.value, DEPTH, false, coeff, N * N);
    if (scaled.number)
        return refused("scaling", scaled.number);
    print_block("coefficients", coeff, N);

    /* coefficients to residual, in a block that can be edited */
    residual_block_answered block = residual_open_block(true, N, DEPTH, false, coeff, N * N, inter, N * N, residual, N * N);
    if (block.number)
        return refused("opening", block.number);
    print_block("residual", residual, N);

    /* one coefficient is changed, a second edit is refused, and the first is taken back */
    int32_t before = coeff[0 * N + 1];
    block = residual_edit(block.block, coeff, N * N, inter, N * N, residual, N * N, 0, 1, 40);
    if (block.number)
        return refused("edit", block.number);
    printf("columns %zu\n", block.block.columns);
    print_block("residual after the edit", residual, N);
    block = residual_edit(block.block, coeff, N * N, inter, N * N, residual, N * N, 2, 3, 40000);
    if (block.number) {
        refused("second edit", block.number);
        printf("row %u, column %u\n", (unsigned)block.row, (unsigned)block.column);
    }
    block = residual_edit(block.block, coeff, N * N, inter, N * N, residual, N * N, 0, 1, before);
    if (block.number)
        return refused("undo", block.number);
    print_block("residual after undo", residual, N);

    /* prediction plus residual in a picture, and its checksum */
    uint16_t plane[WIDTH * HEIGHT], prediction[N * N];
    for (size_t i = 0; i < WIDTH * HEIGHT; i++)
        plane[i] = 128;
    for (size_t i = 0; i < N * N; i++)
        prediction[i] = (uint16_t)(100 + i);
    picture_answered rebuilt = picture_rebuild_block(N, DEPTH, residual, N * N, prediction, N * N, WIDTH, HEIGHT, WIDTH, 2, 1, plane, WIDTH * HEIGHT);
    if (rebuilt.number)
        return refused("rebuilding", rebuilt.number);
    picture_number_answered sum = picture_checksum(WIDTH, HEIGHT, WIDTH, DEPTH, plane, WIDTH * HEIGHT);
    if (sum.number)
        return refused("checksum", sum.number);
    printf("checksum %08x\n", (unsigned)sum.value);
    return 0;
}
