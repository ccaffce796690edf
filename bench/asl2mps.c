/* asl2mps: speed baseline. A straightforward ASL-based .nl -> free MPS
 * converter for linear files (f_read refuses nonlinear and defined variables).
 *   asl2mps FILE.nl [OUT.mps]      (standard output where OUT is missing)
 *   cc -O2 -I/usr/include/ampl-netlib-solvers asl2mps.c -o asl2mps -lamplsolver -lm -ldl
 * The library is Debian's libamplsolver-dev; bench/run.sh builds it.
 * Layout follows the written MPS of this project; numbers are printed by ASL's g_fmt
 * (shortest text of the double), so they are doubles, not exact decimals.
 */
#include "asl.h"
#include "getstub.h"
#include <stdio.h>
#include <stdlib.h>
#include <string.h>

static char numbuf[64];
static const char *g(double v) { g_fmt(numbuf, v); return numbuf; }

int main(int argc, char **argv) {
    ASL *asl;
    FILE *f, *o = stdout;
    int i, j, m = 0, in = 0, ncont;
    real *c, lo, hi;
    char stub[4096], *exported;
    int any = 0;
    if (argc < 2) { fprintf(stderr, "usage: asl2mps FILE.nl [OUT.mps]\n"); return 1; }
    asl = ASL_alloc(ASL_read_f);
    return_nofile = 1;
    snprintf(stub, sizeof stub, "%s", argv[1]);
    f = jac0dim(stub, (fint)strlen(stub));
    if (!f) { fprintf(stderr, "asl2mps: no such file\n"); return 2; }
    if (argc > 2 && !(o = fopen(argv[2], "w"))) return 2;
    setvbuf(o, 0, _IOFBF, 1 << 20);
    A_vals = (real *)Malloc((nzc + 1) * sizeof(real));
    if (f_read(f, ASL_return_read_err)) return 2;
    exported = calloc(n_con + 1, 1);
    fprintf(o, "NAME nl\n");
    if (n_obj && objtype[0]) fprintf(o, "OBJSENSE\n MAX\n");
    fprintf(o, "ROWS\n N obj\n");
    for (i = 0; i < n_con; i++) {
        lo = LUrhs[2 * i]; hi = LUrhs[2 * i + 1];
        if (lo <= negInfinity && hi >= Infinity) continue;
        exported[i] = 1;
        fprintf(o, " %c c%d\n", lo <= negInfinity ? 'L' : lo == hi ? 'E' : 'G', i);
    }
    fprintf(o, "COLUMNS\n");
    c = calloc(n_var + 1, sizeof *c);
    if (n_obj) { ograd *og; for (og = Ograd[0]; og; og = og->next) c[og->varno] += og->coef; }
    ncont = n_var - nbv - niv;           /* linear files: groups 4, 5, 6 only */
    for (j = 0; j < n_var; j++) {
        fint k;
        int put = 0;
        if (j >= ncont && !in) { fprintf(o, " M%d 'MARKER' 'INTORG'\n", m++); in = 1; }
        if (c[j]) { fprintf(o, " x%d obj %s\n", j, g(c[j])); put = 1; }
        for (k = A_colstarts[j]; k < A_colstarts[j + 1]; k++)
            if (A_vals[k] && exported[A_rownos[k]]) {
                fprintf(o, " x%d c%d %s\n", j, A_rownos[k], g(A_vals[k])); put = 1;
            }
        if (!put) fprintf(o, " x%d obj 0\n", j);
    }
    if (in) fprintf(o, " M%d 'MARKER' 'INTEND'\n", m++);
    fprintf(o, "RHS\n");
    if (n_obj && objconst(0)) fprintf(o, " RHS obj %s\n", g(-objconst(0)));
    for (i = 0; i < n_con; i++) if (exported[i]) {
        lo = LUrhs[2 * i]; hi = LUrhs[2 * i + 1];
        if (lo > negInfinity && hi < Infinity && lo != hi) any = 1;
        if (lo <= negInfinity) lo = hi;
        if (lo) fprintf(o, " RHS c%d %s\n", i, g(lo));
    }
    if (any) {
        fprintf(o, "RANGES\n");
        for (i = 0; i < n_con; i++) {
            lo = LUrhs[2 * i]; hi = LUrhs[2 * i + 1];
            if (lo > negInfinity && hi < Infinity && lo != hi) fprintf(o, " RNG c%d %s\n", i, g(hi - lo));
        }
    }
    if (n_var) fprintf(o, "BOUNDS\n");
    for (j = 0; j < n_var; j++) {
        lo = LUv[2 * j]; hi = LUv[2 * j + 1];
        if (lo <= negInfinity && hi >= Infinity) fprintf(o, " FR BND x%d\n", j);
        else if (lo == hi) fprintf(o, " FX BND x%d %s\n", j, g(lo));
        else {
            if (lo <= negInfinity) fprintf(o, " MI BND x%d\n", j); else fprintf(o, " LO BND x%d %s\n", j, g(lo));
            if (hi >= Infinity) fprintf(o, " PL BND x%d\n", j); else fprintf(o, " UP BND x%d %s\n", j, g(hi));
        }
    }
    fprintf(o, "ENDATA\n");
    return fclose(o) ? 2 : 0;
}
