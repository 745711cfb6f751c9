/* What is answered where nothing is lent: every slice of every call is NULL with count 0. */
#include <stdio.h>
#include <stdlib.h>

#include "giellavor.h"

#define NOTHING NULL, 0

static const GiellavorPose origin = {1, 0, 0, 0};

static void told(const char *call, int refusal)
{
    printf("%-26s %d\n", call, refusal);
}

static void over_bare_lists(void)
{
    told("split_delete", giellavor_split_delete(NOTHING, 0, NOTHING).refusal);
    told("split_cut", giellavor_split_cut(NOTHING, 0, NOTHING).refusal);
    told("starts", giellavor_starts(NOTHING, NOTHING).refusal);
    told("default_damping, free", giellavor_default_damping(0, NOTHING).refusal);
    told("default_damping, locked", giellavor_default_damping(7, NOTHING).refusal);
    told("solve of 0", giellavor_solve(0, NOTHING, NOTHING, NOTHING).refusal);
    told("solve of 1", giellavor_solve(1, NOTHING, NOTHING, NOTHING).refusal);
    told("branch", giellavor_branch(NOTHING, 0, NOTHING).refusal);
}

static void of_an_arm(GiellavorArm arm)
{
    const GiellavorNewLink link = {.tag = 2, .locked = 7, .frame1 = origin, .frame2 = origin};
    const GiellavorLimits limits = {.max = 1, .dt = 1};
    const GiellavorForce force = {1, 0, 0};
    const GiellavorPoint centre = {0, 0};
    told("empty", giellavor_empty(NOTHING).refusal);
    told("add_link", giellavor_add_link(arm, NOTHING, link).refusal);
    told("move_coordinate", giellavor_move_coordinate(arm, NOTHING, 0, 0, 0).refusal);
    told("move_frames", giellavor_move_frames(arm, NOTHING, 0, origin, origin).refusal);
    told("move_centre", giellavor_move_centre(arm, NOTHING, 0, centre).refusal);
    told("full_working", giellavor_full_working(arm, NOTHING).refusal);
    told("step", giellavor_step(arm, NOTHING, 1).refusal);
    told("free_root", giellavor_free_root(arm, NOTHING, origin).refusal);
    told("fix_root", giellavor_fix_root(arm, NOTHING, origin).refusal);
    told("part_delete", giellavor_part_delete(arm, 0, 0, NOTHING).refusal);
    told("part_cut", giellavor_part_cut(arm, 0, 0, NOTHING).refusal);
    told("jacobian_mul_coordinates", giellavor_jacobian_mul_coordinates(arm, 0, NOTHING).refusal);
    told("kinematic_branch", giellavor_kinematic_branch(arm, 0, NOTHING).refusal);
    told("arm_split_delete", giellavor_arm_split_delete(arm, 0, NOTHING).refusal);
    told("arm_split_cut", giellavor_arm_split_cut(arm, 0, NOTHING).refusal);
    told("view_velocities", giellavor_view_velocities(arm, 0, NOTHING, NOTHING).refusal);
    told("view_accelerations", giellavor_view_accelerations(arm, 0, NOTHING, NOTHING).refusal);
    told("limit_row", giellavor_limit_row(arm, 0, 0, limits, NOTHING, NOTHING, NOTHING).refusal);
    told("friction_row", giellavor_friction_row(arm, 0, 0, 1, 1, NOTHING, NOTHING, NOTHING).refusal);
    told("fill_jacobians", giellavor_fill_jacobians(arm, 0, force, NOTHING, NOTHING, NOTHING, NOTHING).refusal);
}

int main(void)
{
    static float tables[GIELLAVOR_TABLES];
    const GiellavorNewLink root = {.tag = 1, .locked = 0, .frame1 = origin, .frame2 = origin};
    const GiellavorEdited empty = giellavor_empty(tables, GIELLAVOR_TABLES);
    const GiellavorEdited edited = giellavor_add_link(empty.arm, tables, GIELLAVOR_TABLES, root);
    if (edited.refusal != 0) {
        return EXIT_FAILURE;
    }
    puts("nothing is lent, and the refusal:");
    over_bare_lists();
    of_an_arm(edited.arm);
    return EXIT_SUCCESS;
}
