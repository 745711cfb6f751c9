/* The two tickets that this library is for, in C: a moved link takes every link below it along, and a link that is deleted through what no longer names
 * it is refused, and nothing changes. A picture is the arm and its tables; both stand in memory of the caller. */
#include <stdio.h>
#include <stdlib.h>
#include <string.h>

#include "giellavor.h"

enum { X, Y, ANGLE };

/* All axes locked, and all but the angle. */
enum { FIXED = 7, HINGED = 3 };

typedef struct Picture {
    GiellavorArm arm;
    float tables[GIELLAVOR_TABLES];
} Picture;

/* Takes over the arm of an answer. Refused there is none to take, a part being empty then, and the old one stays. */
static uint8_t took(Picture *picture, GiellavorEdited edited)
{
    if (edited.refusal == 0) {
        picture->arm = edited.arm;
    }
    return edited.refusal;
}

static void must(uint8_t refusal, const char *what)
{
    if (refusal != 0) {
        fprintf(stderr, "%s: refused with %d\n", what, refusal);
        exit(1);
    }
}

/* Adds a link a unit along its parent's x. */
static void add(Picture *picture, uint32_t tag, uint32_t parent, uint32_t locked)
{
    const GiellavorPose origin = {1, 0, 0, 0}, further = {1, 0, 1, 0};
    const GiellavorNewLink link = {
        .tag = tag, .parent = parent, .locked = locked, .frame1 = locked == FIXED ? origin : further, .frame2 = origin};
    must(took(picture, giellavor_add_link(picture->arm, picture->tables, GIELLAVOR_TABLES, link)), "add a link");
}

static Picture *new_picture(void)
{
    Picture *picture = malloc(sizeof *picture);
    if (picture == NULL) {
        exit(1);
    }
    must(took(picture, giellavor_empty(picture->tables, GIELLAVOR_TABLES)), "an empty arm");
    add(picture, 10, 0, FIXED);
    return picture;
}

static void tell(const Picture *picture)
{
    for (size_t i = 0; i < picture->arm.link_count; i++) {
        const GiellavorLink *link = &picture->arm.links[i];
        printf("  link %zu, tag %u: at %.3f %.3f\n", i, (unsigned)link->tag, link->world.x, link->world.y);
    }
}

/* The number that a tag has now. A tag that is gone has none: what comes back is past every count, and every call refuses it by 4. */
static uint32_t number_of(const GiellavorArm *arm, uint32_t tag)
{
    for (size_t i = 0; i < arm->link_count; i++) {
        if (arm->links[i].tag == tag) {
            return (uint32_t)i;
        }
    }
    return UINT32_MAX;
}

static void stale_picture(void)
{
    Picture *picture = new_picture();
    add(picture, 11, 0, HINGED);
    add(picture, 12, 1, HINGED);
    puts("a base, and on it two hinged links:");
    tell(picture);
    must(took(picture, giellavor_move_coordinate(picture->arm, picture->tables, GIELLAVOR_TABLES, 1, ANGLE, 0.5f)), "turn link 1");
    puts("link 1 is turned by 0.5, and link 2 follows:");
    tell(picture);
    free(picture);
}

/* Deletes the link of a tag, and keeps the part with the base. */
static uint8_t delete_tag(Picture *picture, uint32_t tag)
{
    const uint32_t number = number_of(&picture->arm, tag);
    return took(picture, giellavor_part_delete(picture->arm, number, 0, picture->tables, GIELLAVOR_TABLES));
}

static void old_number(void)
{
    Picture *picture = new_picture();
    add(picture, 11, 0, HINGED);
    add(picture, 12, 0, HINGED);
    add(picture, 13, 0, HINGED);
    puts("a base, and three links on it; tag 11 is deleted:");
    must(delete_tag(picture, 11), "delete tag 11");
    tell(picture);
    puts("number 1 is another link now, so a link is named by its tag. Tag 11 once more:");

    Picture *before = malloc(sizeof *before);
    if (before == NULL) {
        exit(1);
    }
    memcpy(before, picture, sizeof *before);
    printf("  refused with %d\n", delete_tag(picture, 11));
    puts(memcmp(before, picture, sizeof *before) == 0 ? "  nothing has changed" : "  SOMETHING HAS CHANGED");
    free(before);
    free(picture);
}

int main(void)
{
    if (!giellavor_fits()) {
        fputs("the archive is not the one of this header\n", stderr);
        return 1;
    }
    stale_picture();
    old_number();
    return 0;
}
