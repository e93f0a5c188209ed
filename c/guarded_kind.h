/* One kind of guarded.c, which defines CALL, REAL, NUMBER (a record of two of them), WIDTH (reals in an element) and NAME. A
   real number is a NUMBER whose second part is not looked at. */

/* Rule 4. */
static NUMBER NAME(times)(NUMBER x, NUMBER y) {
    NUMBER r = {x.re * y.re, 0};
    if (WIDTH == 2) {
        r.re = x.re * y.re - x.im * y.im;
        r.im = x.im * y.re + x.re * y.im;
    }
    return r;
}

/* Rules 2 and 3. */
static NUMBER NAME(step)(NUMBER sum, NUMBER a, NUMBER b) {
    sum.re += a.re * b.re;
    if (WIDTH == 2) {
        sum.im += a.re * b.im;
        sum.re += -a.im * b.im;
        sum.im += a.im * b.re;
    }
    return sum;
}

static NUMBER NAME(read)(const REAL *from, hewn_operand l, size_t i, size_t j) {
    size_t at = WIDTH * place(l, i, j);
    NUMBER r = {from[at], 0};
    if (WIDTH == 2) r.im = from[at + WIDTH - 1];
    return r;
}

/* Rules 1 and 5 to 7, for one element of C. */
static NUMBER NAME(element)(const setting *s, NUMBER alpha, const REAL *a, const REAL *b, NUMBER beta, NUMBER old, size_t i, size_t j) {
    NUMBER zero = {0, 0}, one = {1, 0}, now = s->beta_is_zero ? zero : NAME(times)(old, beta);
    for (size_t chunk = 0; chunk < s->k; chunk += 256) {
        NUMBER sum = zero;
        for (size_t p = chunk; p < s->k && p < chunk + 256; p++)
            sum = NAME(step)(sum, NAME(read)(a, s->operands[A], i, p), NAME(read)(b, s->operands[B], p, j));
        NUMBER part = NAME(times)(alpha, sum);
        if (chunk > 0) now = NAME(times)(now, one);
        now.re = chunk == 0 && s->beta_is_zero ? part.re : now.re + part.re;
        now.im = chunk == 0 && s->beta_is_zero ? part.im : now.im + part.im;
    }
    return now;
}

static void NAME(run)(const setting *s) {
    size_t bytes[AREAS];
    REAL *lent[AREAS];
    describe(s);
    for (int which = 0; which < AREAS; which++) {
        allow(which, PROT_READ | PROT_WRITE);
        bytes[which] = s->lengths[which] * sizeof(REAL);
        lent[which] = (REAL *)(void *)slice(which, bytes[which]);
        memset(margin(which, bytes[which]), MARK, MARGIN);
        for (size_t x = 0; x < s->lengths[which]; x++) lent[which][x] = (REAL)next() / 7;
    }
    /* old C is ignored where beta is zero: NaN */
    if (s->beta_is_zero && bytes[C] > 0) memset(lent[C], 0xFF, bytes[C]);

    REAL *expected = malloc(bytes[C] + 1), *pack = malloc(bytes[PACK] + 1);
    if (expected == NULL || pack == NULL) fail("no memory");
    if (bytes[C] > 0) memcpy(expected, lent[C], bytes[C]);
    if (bytes[PACK] > 0) memcpy(pack, lent[PACK], bytes[PACK]);

    NUMBER alpha = {(REAL)0.7, (REAL)-1.3}, beta = {s->beta_is_zero ? (REAL)-0.0 : (REAL)1.9, 0};
    if (!s->beta_is_zero) beta.im = (REAL)0.3;
    size_t need = s->expected == HEWN_DONE ? s->need : 0;
    if (s->expected == HEWN_DONE) {
        for (size_t i = 0; i < s->m; i++)
            for (size_t j = 0; j < s->n; j++) {
                size_t at = WIDTH * place(s->operands[C], i, j);
                NUMBER old = NAME(read)(expected, s->operands[C], i, j);
                NUMBER now = NAME(element)(s, alpha, lent[A], lent[B], beta, old, i, j);
                expected[at] = now.re;
                if (WIDTH == 2) expected[at + WIDTH - 1] = now.im;
            }
    }
    for (int which = 0; which < AREAS; which++)
        if (which == A || which == B || s->expected != HEWN_DONE) allow(which, PROT_READ);

#if WIDTH == 2
    NUMBER alpha_lent = alpha, beta_lent = beta;
#else
    REAL alpha_lent = alpha.re, beta_lent = beta.re;
#endif
    uint64_t answer = CALL(s->m, s->k, s->n, alpha_lent, lent[A], s->lengths[A], s->operands[A],
                           lent[B], s->lengths[B], s->operands[B], beta_lent,
                           lent[C], s->lengths[C], s->operands[C], lent[PACK], s->lengths[PACK]);
    if (answer != s->expected) fail(hewn_answer_text(answer));
    if (bytes[C] > 0 && memcmp(lent[C], expected, bytes[C]) != 0) fail("C is not what it should be");
    if (need < s->lengths[PACK] && memcmp(lent[PACK] + need, pack + need, bytes[PACK] - need * sizeof(REAL)) != 0)
        fail("the pack buffer was changed where it may not be");
    for (int which = 0; which < AREAS; which++) margin_kept(which, bytes[which]);
    free(expected);
    free(pack);
    *(answer == HEWN_DONE ? &done : &refused) += 1;
}

#undef CALL
#undef REAL
#undef NUMBER
#undef WIDTH
#undef NAME
