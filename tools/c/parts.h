/* The numbers of a job as glmm_fit_blocks wants them, read from the bytes in `job` (bytes.h), and the lengths of what is lent. */
#define MOST 8192
enum { THETA, Y, WEIGHTS, OFFSET, X, VALUES, BETA, SE, Z, U, B, MU, ETA, RESIDUAL, V, ROWS, MATRICES, TERMS, SLICES };
static double numbers[SLICES][MOST + GUARD];
static size_t lengths[SLICES], starts[33], starts_length, columns[MOST], columns_length, blocks_length, length, at;
static struct glmm_block blocks[15];
static struct glmm_settings settings;

static unsigned take(unsigned width)
{
    at += width;
    return bits(length, at - width, width);
}

static double take_double(void)
{
    uint64_t high = take(32), pattern = high << 32 | take(32);
    double x;
    memcpy(&x, &pattern, 8);
    return x;
}

static void take_list(int slice, size_t count)
{
    for (lengths[slice] = 0; lengths[slice] < count; lengths[slice]++)
        numbers[slice][lengths[slice]] = take_double();
}

/* The rows of Z'. */
static void read_rows(void)
{
    size_t row, end;
    for (row = 0; row < settings.q; row++) {
        end = columns_length + take(13), at += 3;
        for (; columns_length < end && columns_length < MOST; columns_length++)
            columns[columns_length] = take(13), at += 3, numbers[VALUES][columns_length] = take_double();
        starts[row + 1] = columns_length;
    }
    starts_length = settings.q + 1, settings.entries = lengths[VALUES] = columns_length;
}

/* The numbers of a job, and the lengths of what is lent. Of a job whose sizes are not carried only the settings and the blocks are read. */
static void read_job(void)
{
    size_t i, thetas = 0, n, p, q, weighted, shifted, version;
    memset(lengths, 0, sizeof lengths), memset(&settings, 0, sizeof settings);
    starts_length = columns_length = starts[0] = 0, at = 0, version = take(4);
    settings.family = take(2), settings.link = take(3), weighted = take(1), shifted = take(1), settings.n_agq = take(5);
    n = settings.n = take(13), p = settings.p = take(5), blocks_length = take(4), settings.limit = take(10);
    if (version == 2)
        settings.start = take(1), at += 7;
    for (i = 0; i < blocks_length; i++) {
        blocks[i].m = take(7), blocks[i].k = take(4), at += 5;
        settings.q += blocks[i].m * blocks[i].k, thetas += blocks[i].k * (blocks[i].k + 1) / 2;
    }
    q = settings.q;
    if (glmm_rows_length(n) == 0 || glmm_matrices_length(p, q) == 0)
        return;
    take_list(THETA, thetas), take_list(Y, n), take_list(WEIGHTS, weighted * n), take_list(OFFSET, shifted * n), take_list(X, n * p), read_rows();
    lengths[BETA] = lengths[SE] = lengths[Z] = p, lengths[U] = lengths[B] = q, lengths[MU] = lengths[ETA] = lengths[RESIDUAL] = n;
    lengths[V] = p * p, lengths[ROWS] = glmm_rows_length(n), lengths[MATRICES] = glmm_matrices_length(p, q), lengths[TERMS] = glmm_terms_length();
}

#define LENT(slice) numbers[slice], lengths[slice]
