/* The exported functions of Giellavor, for C on x86-64 Linux. Link libgiellavor.a.
 *
 * Any value of a number, a float or a struct gets an answer, and nothing that is handed in goes out of bounds. All that is asked of a caller:
 *
 *   - A slice is a pointer and a count of items: `const float *mass, size_t mass_len`. The pointer is aligned for its type, and all its items are
 *     memory that stays where it is during the call and that holds values.
 *   - A pointer may be NULL where its count is 0, and there alone. It is then a slice of no items, like any other pointer with count 0: refused by 1
 *     where the call needs an item, and never followed.
 *   - A slice that is written overlaps no other slice of the same call. Slices that are only read may be one and the same.
 *   - No other thread writes a slice during the call, nor reads one that is written.
 *
 * Every call that can be refused returns a struct with a field `refusal`: 0, or a number from 1 to 12, the lowest that applies. Beside it stands what is
 * asked for: a count, an arm or floats. Where refused that is zeros, an edited arm the one that came, and where an arm is made (`giellavor_empty`, the
 * parts) the empty one; and nothing that was lent has changed.
 *
 * An arm's picture is its poses, its shifts and its tables. It is never stale where a caller keeps to this:
 *
 *   - An arm begins with `giellavor_empty`, as a part of a split, or with `giellavor_full_working`, each not refused.
 *   - The same tables go with it into every call that takes tables. Each arm has tables of its own.
 *   - Nobody else writes the arm or the first GIELLAVOR_TABLES floats of its tables: every edit is a call, and its answer's arm is the arm from then on.
 *
 * What is stale is refused by no call: a call can't tell. After a write past these functions, begin again with a full working. */
#ifndef GIELLAVOR_H
#define GIELLAVOR_H

#include <stddef.h>
#include <stdint.h>

#ifdef __cplusplus
extern "C" {
#endif

/* ---- What archive this is the header of */

/* `giellavor_fits`, at the end, compares all of it. */
#define GIELLAVOR_VERSION 2

/* The version of the archive. */
uint32_t giellavor_version(void);

/* The size in bytes of a struct in the archive, by its place in this header, from 0; past the last it is 0. */
uint32_t giellavor_size(uint32_t place);

/* ---- How large an arm may be */

#define GIELLAVOR_LINKS 16
#define GIELLAVOR_COUPLINGS 8
#define GIELLAVOR_DOFS 48

/* A block, a link's Jacobian: three rows (X, Y, angle) of GIELLAVOR_DOFS columns, a row after the other. The tables: a block for each link, in order. */
#define GIELLAVOR_BLOCK 144
#define GIELLAVOR_TABLES 2304

/* ---- The plane */

/* Cosine and sine of an angle. */
typedef struct GiellavorRotation {
    float re;
    float im;
} GiellavorRotation;

/* A point of the plane, or a shift. */
typedef struct GiellavorPoint {
    float x;
    float y;
} GiellavorPoint;

/* A rotation and a translation. */
typedef struct GiellavorPose {
    float re;
    float im;
    float x;
    float y;
} GiellavorPose;

/* ---- An arm */

/* A joint between a link and its parent: which axes are free, where its frames stand, and where it is along its axes. Bit 0 of a mask is X, bit 1
 * is Y, bit 2 the angle; axis 0 is X, 1 is Y, 2 the angle, in radians. */
typedef struct GiellavorJoint {
    uint8_t locked;
    uint8_t limit;
    uint8_t motor;
    GiellavorPose frame1;
    GiellavorPose frame2;
    float coordinates[3];
    GiellavorRotation rotation;
    float stiffness[3];
    float rest[3];
} GiellavorJoint;

/* The spring of an axis. */
typedef struct GiellavorSpring {
    float stiffness;
    float rest;
} GiellavorSpring;

/* A link, and what is kept of it: its world pose and its shifts. */
typedef struct GiellavorLink {
    uint32_t tag;
    uint8_t parent;
    GiellavorJoint joint;
    GiellavorPoint centre;
    GiellavorPose world;
    GiellavorPoint shift02;
    GiellavorPoint shift23;
} GiellavorLink;

/* Two axes of two links, tied by a coefficient and an offset. */
typedef struct GiellavorCoupling {
    uint8_t link1;
    uint8_t axis1;
    uint8_t link2;
    uint8_t axis2;
    float coefficient;
    float offset;
} GiellavorCoupling;

/* A row over the degrees of freedom. */
typedef struct GiellavorRow {
    float entries[GIELLAVOR_DOFS];
} GiellavorRow;

/* An arm: lists count up to their counts. */
typedef struct GiellavorArm {
    size_t link_count;
    size_t coupling_count;
    GiellavorLink links[GIELLAVOR_LINKS];
    GiellavorCoupling couplings[GIELLAVOR_COUPLINGS];
    GiellavorRow rows[5];
} GiellavorArm;

/* ---- What is given */

/* What is given of a new link. Its coordinates and springs start as zeros. Numbers are any: none is cut. */
typedef struct GiellavorNewLink {
    uint32_t tag;
    uint32_t parent;
    uint32_t locked;
    uint32_t limit;
    uint32_t motor;
    GiellavorPose frame1;
    GiellavorPose frame2;
    GiellavorPoint centre;
} GiellavorNewLink;

/* A coupling as it is given: two links with an axis each, of any numbers. */
typedef struct GiellavorNewCoupling {
    uint32_t link1;
    uint32_t axis1;
    uint32_t link2;
    uint32_t axis2;
    float coefficient;
    float offset;
} GiellavorNewCoupling;

/* What is given of a limit. */
typedef struct GiellavorLimits {
    float position;
    float min;
    float max;
    float dt;
    float erp_inv_dt;
    float cfm_coeff;
} GiellavorLimits;

/* A force and a torque on a link. */
typedef struct GiellavorForce {
    float x;
    float y;
    float torque;
} GiellavorForce;

/* ---- Answers: a refusal or 0, and what is asked for; zeros where refused, but for an arm */

/* The new arm; refused, the arm as it came, and where an arm is made (`giellavor_empty`, the parts) the empty one. */
typedef struct GiellavorEdited {
    GiellavorArm arm;
    uint8_t refusal;
} GiellavorEdited;

/* A rotation. */
typedef struct GiellavorRotated {
    uint8_t refusal;
    GiellavorRotation rotation;
} GiellavorRotated;

/* A count: of DoFs, of constraints, of parts, or of what was written into lent memory. */
typedef struct GiellavorCounted {
    uint8_t refusal;
    size_t count;
} GiellavorCounted;

/* Where a link's own part of a lent row stands in it. */
typedef struct GiellavorRowPart {
    uint8_t refusal;
    size_t offset;
    size_t length;
} GiellavorRowPart;

/* A spring. */
typedef struct GiellavorSpringAnswer {
    uint8_t refusal;
    GiellavorSpring spring;
} GiellavorSpringAnswer;

/* A value for each axis. */
typedef struct GiellavorAxesAnswer {
    uint8_t refusal;
    float axes[3];
} GiellavorAxesAnswer;

/* A constraint row: between which bounds its impulse lies, its right side, and the gains of its DoF. */
typedef struct GiellavorConstraintRow {
    uint8_t refusal;
    float lower;
    float upper;
    float rhs;
    float cfm_gain;
    float inv_lhs;
} GiellavorConstraintRow;

/* j·wj and j·velocities. */
typedef struct GiellavorSums {
    uint8_t refusal;
    float j_wj;
    float j_velocities;
} GiellavorSums;

/* ---- Splits and counts over bare lists */

/* A link is deleted: part and new number of each old link, two bytes a link into `map`, 255 and 255 for the deleted one; returned is the part
 * count. Refused: 1, 2, 4. */
GiellavorCounted giellavor_split_delete(const uint8_t *parents, size_t parents_len, uint32_t link, uint8_t *map, size_t map_len);

/* A link's joint is cut: part and new number of each link, two bytes a link into `map`; returned is the part count. Refused: 1, 2, 4. */
GiellavorCounted giellavor_split_cut(const uint8_t *parents, size_t parents_len, uint32_t link, uint8_t *map, size_t map_len);

/* The DoF count of a mask. Refused: 5. */
GiellavorCounted giellavor_dof_count(uint32_t mask);

/* The start of each mask of a list, a byte a mask into `starts`; returned is the total. Refused: 1, 2, 5. */
GiellavorCounted giellavor_starts(const uint8_t *masks, size_t masks_len, uint8_t *starts, size_t starts_len);

/* How many velocity constraints a joint makes. Refused: 5. */
GiellavorCounted giellavor_num_velocity_constraints(uint32_t locked, uint32_t limit, uint32_t motor);

/* The default damping of a mask, as f32 bits, lowest byte first, four bytes a DoF into `damping`; returned is the DoF count. Refused: 1, 5. */
GiellavorCounted giellavor_default_damping(uint32_t mask, uint8_t *damping, size_t damping_len);

/* ---- Numbers */

/* The rotation of an angle. Refused: 7, 9. */
GiellavorRotated giellavor_rotate(float angle);

/* The solve of an n by n matrix, in rows, against a right side; the solution goes into the first n floats of `result`, and n is returned. Refused: 1, 2, 7,
 * 11, 12. */
GiellavorCounted giellavor_solve(
    size_t n, const float *matrix, size_t matrix_len, const float *right, size_t right_len, float *result, size_t result_len);

/* ---- Making an arm */

/* An arm of no links; its tables hold +0. Refused: 1, with an arm of no links beside it. */
GiellavorEdited giellavor_empty(float *tables, size_t tables_len);

/* A link is added behind the last. Refused: 1 to 5, 7 to 9, 12. */
GiellavorEdited giellavor_add_link(GiellavorArm arm, float *tables, size_t tables_len, GiellavorNewLink link);

/* A coupling is added behind the last. Refused: 2 to 5, 7, 9. */
GiellavorEdited giellavor_add_coupling(GiellavorArm arm, GiellavorNewCoupling coupling);

/* ---- Rows: one entry is set, named by link and axis. Refused: 2 to 7, 9. */

GiellavorEdited giellavor_write_velocity(GiellavorArm arm, uint32_t link, uint32_t axis, float value);

GiellavorEdited giellavor_write_damping(GiellavorArm arm, uint32_t link, uint32_t axis, float value);

GiellavorEdited giellavor_write_armature(GiellavorArm arm, uint32_t link, uint32_t axis, float value);

GiellavorEdited giellavor_write_friction(GiellavorArm arm, uint32_t link, uint32_t axis, float value);

GiellavorEdited giellavor_write_acceleration(GiellavorArm arm, uint32_t link, uint32_t axis, float value);

/* ---- Joints */

/* The spring of an axis is set, locked or not. Refused: 2 to 5, 7, 9. */
GiellavorEdited giellavor_set_spring(GiellavorArm arm, uint32_t link, uint32_t axis, GiellavorSpring spring);

/* ---- Moves: one link's inputs are set, and it and the links below it are worked out */

/* A free coordinate: along axis 0 or 1, or the angle of axis 2, in radians. Refused: 1 to 7, 9, 12. */
GiellavorEdited giellavor_move_coordinate(GiellavorArm arm, float *tables, size_t tables_len, uint32_t link, uint32_t axis, float value);

/* Both frames. Refused: 1 to 5, 7 to 9, 12. */
GiellavorEdited giellavor_move_frames(GiellavorArm arm, float *tables, size_t tables_len, uint32_t link, GiellavorPose first, GiellavorPose second);

/* The centre of mass. Refused: 1 to 5, 7, 9, 12. */
GiellavorEdited giellavor_move_centre(GiellavorArm arm, float *tables, size_t tables_len, uint32_t link, GiellavorPoint centre);

/* ---- The whole arm */

/* Every link is worked out. Refused: 1 to 5, 7, 9, 12. */
GiellavorEdited giellavor_full_working(GiellavorArm arm, float *tables, size_t tables_len);

/* Every joint is integrated by dt, then every link is worked out. Refused: 1 to 5, 7, 9, 12. */
GiellavorEdited giellavor_step(GiellavorArm arm, float *tables, size_t tables_len, float dt);

/* The root is free at a pose. Refused: 1 to 5, 7 to 9, 12. */
GiellavorEdited giellavor_free_root(GiellavorArm arm, float *tables, size_t tables_len, GiellavorPose pose);

/* The root is fixed at a pose. Refused: as above. */
GiellavorEdited giellavor_fix_root(GiellavorArm arm, float *tables, size_t tables_len, GiellavorPose pose);

/* ---- Parts: each of a split's is an arm, worked out into tables of its own. Refused: 1 to 5, 7, 9, 12; then it is the empty arm, beside
 * tables that are as they were. */

/* Part `number` after a link is deleted. */
GiellavorEdited giellavor_part_delete(GiellavorArm arm, uint32_t link, uint32_t number, float *tables, size_t tables_len);

/* Part `number` after a link's joint is cut. */
GiellavorEdited giellavor_part_cut(GiellavorArm arm, uint32_t link, uint32_t number, float *tables, size_t tables_len);

/* ---- Masks and bare lists */

/* Is an axis of a mask free? The count is 1 or 0. Refused: 5. */
GiellavorCounted giellavor_free_axis(uint32_t mask, uint32_t axis);

/* The DoFs of a mask below an axis. Refused: 5. */
GiellavorCounted giellavor_dof_count_below(uint32_t mask, uint32_t axis);

/* The links from the root to a link of a list of parents, a byte each into `to`; returned is their count. Refused: 1, 2, 4. */
GiellavorCounted giellavor_branch(const uint8_t *parents, size_t parents_len, uint32_t link, uint8_t *to, size_t to_len);

/* ---- Counts */

/* The start of a link: how many DoFs stand before its own. Refused: 2 to 5, 7, 9. */
GiellavorCounted giellavor_link_start(GiellavorArm arm, uint32_t link);

/* The DoF count of an arm. Refused: 2 to 5, 7, 9. */
GiellavorCounted giellavor_arm_dofs(GiellavorArm arm);

/* ---- Joints */

/* The spring of an axis, locked or not. Refused: 2 to 5, 7, 9. */
GiellavorSpringAnswer giellavor_spring(GiellavorArm arm, uint32_t link, uint32_t axis);

/* The accelerations of a link's joint, put on their axes; +0 on a locked one. `accelerations` begins with the link's own entries, one for each free axis:
 * it is a row from the link's start on. Refused: 1 to 5, 7, 9. */
GiellavorAxesAnswer giellavor_jacobian_mul_coordinates(GiellavorArm arm, uint32_t link, const float *accelerations, size_t accelerations_len);

/* ---- The tree */

/* The links from the root to a link, a byte each into `to`; returned is their count. Refused: 1 to 5, 7, 9. */
GiellavorCounted giellavor_kinematic_branch(GiellavorArm arm, uint32_t link, uint8_t *to, size_t to_len);

/* A link is deleted: part and new number of each link, two bytes a link into `map`, 255 and 255 for the deleted one; returned is the part count.
 * Refused: 1 to 5, 7, 9. */
GiellavorCounted giellavor_arm_split_delete(GiellavorArm arm, uint32_t link, uint8_t *map, size_t map_len);

/* A link's joint is cut. The rest as above. */
GiellavorCounted giellavor_arm_split_cut(GiellavorArm arm, uint32_t link, uint8_t *map, size_t map_len);

/* ---- Rows */

/* A link's own part of the velocities. No lent float is read. Refused: 1 to 5, 7, 9. */
GiellavorRowPart giellavor_view_velocities(
    GiellavorArm arm, uint32_t link, const float *velocities, size_t velocities_len, const float *accelerations,
    size_t accelerations_len);

/* A link's own part of the accelerations. The rest as above. */
GiellavorRowPart giellavor_view_accelerations(
    GiellavorArm arm, uint32_t link, const float *velocities, size_t velocities_len, const float *accelerations,
    size_t accelerations_len);

/* ---- Constraint rows: the first n floats of `j` and of `wj` are written, n being the DoF count */

/* The row of an axis' limit. Refused: 1 to 7, 9 to 12. */
GiellavorConstraintRow giellavor_limit_row(
    GiellavorArm arm, uint32_t link, uint32_t axis, GiellavorLimits given, const float *mass, size_t mass_len, float *j, size_t j_len,
    float *wj, size_t wj_len);

/* The row of an axis' friction. Refused: as above. */
GiellavorConstraintRow giellavor_friction_row(
    GiellavorArm arm, uint32_t link, uint32_t axis, float dt, float cfm_coeff, const float *mass, size_t mass_len, float *j,
    size_t j_len, float *wj, size_t wj_len);

/* What a force on a link does along each DoF, its solve by the mass matrix, and their sums. Refused: 1 to 5, 7, 9, 11, 12. */
GiellavorSums giellavor_fill_jacobians(
    GiellavorArm arm, uint32_t link, GiellavorForce force, const float *tables, size_t tables_len, const float *mass, size_t mass_len,
    float *j, size_t j_len, float *wj, size_t wj_len);

/* ---- The archive */

/* Whether the archive that is linked is the one of this header, by its version and the size of every struct: 1 or 0. To be asked before the first call; of
 * another archive no other function may be called. */
static inline int giellavor_fits(void)
{
    static const size_t sizes[] = {
        sizeof(GiellavorRotation), sizeof(GiellavorPoint), sizeof(GiellavorPose), sizeof(GiellavorJoint), sizeof(GiellavorSpring),
        sizeof(GiellavorLink), sizeof(GiellavorCoupling), sizeof(GiellavorRow), sizeof(GiellavorArm), sizeof(GiellavorNewLink),
        sizeof(GiellavorNewCoupling), sizeof(GiellavorLimits), sizeof(GiellavorForce), sizeof(GiellavorEdited), sizeof(GiellavorRotated),
        sizeof(GiellavorCounted), sizeof(GiellavorRowPart), sizeof(GiellavorSpringAnswer), sizeof(GiellavorAxesAnswer),
        sizeof(GiellavorConstraintRow), sizeof(GiellavorSums), 0};
    if (giellavor_version() != GIELLAVOR_VERSION) {
        return 0;
    }
    for (uint32_t place = 0; place < sizeof sizes / sizeof *sizes; place++) {
        if (giellavor_size(place) != sizes[place]) {
            return 0;
        }
    }
    return 1;
}

#ifdef __cplusplus
}
#endif

#endif
