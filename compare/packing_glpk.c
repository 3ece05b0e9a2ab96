/* A packing as an integer program: a variable for each bad combination, a row for each segment. */
#include "packing.h"

#include <glpk.h>

static glp_prob *problem_of(const bool bad[64], const uint32_t capacity[6])
{
    glp_prob *problem = glp_create_prob();
    glp_set_obj_dir(problem, GLP_MAX);
    glp_add_rows(problem, 6);
    for (int i = 0; i < 6; i++)
        glp_set_row_bnds(problem, i + 1, GLP_UP, 0, capacity[i]);
    for (unsigned m = 1; m < 64; m++) {
        if (!bad[m])
            continue;
        int column = glp_add_cols(problem, 1), rows[7], count = 0;
        double ones[7];
        glp_set_col_bnds(problem, column, GLP_LO, 0, 0);
        glp_set_col_kind(problem, column, GLP_IV);
        glp_set_obj_coef(problem, column, 1);
        for (int i = 0; i < 6; i++)
            if (m >> i & 1) {
                rows[++count] = i + 1;
                ones[count] = 1;
            }
        glp_set_mat_col(problem, column, count, rows, ones);
    }
    return problem;
}

unsigned glpk_most_uses(const bool bad[64], const uint32_t capacity[6])
{
    glp_prob *problem = problem_of(bad, capacity);
    glp_iocp how;
    glp_term_out(GLP_OFF);
    glp_init_iocp(&how);
    how.presolve = GLP_ON;
    unsigned most = glp_intopt(problem, &how) == 0 ? (unsigned)(glp_mip_obj_val(problem) + 0.5) : 0;
    glp_delete_prob(problem);
    return most;
}
