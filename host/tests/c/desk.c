/* A desk in C: loads a book whose rule spells a name in other capitals, puts in a fact, asks for verdict, search and
 * model, and prints the listing; then loads a file of no bytes and prints its listing. Sizes the book, the file of no
 * bytes and one that is refused. Prints the working order and the model by groups of two books and of none, a lesson
 * in which one name clashes, previews, and proof sheets. */
#include "mezhkura.h"

#include <stdio.h>
#include <string.h>

/* The sizes that the Rust side asserts of its own structs. */
_Static_assert(sizeof(mezhkura_litset) == 32, "set of literals");
_Static_assert(sizeof(mezhkura_book) == 8344, "book");
_Static_assert(sizeof(struct mezhkura_model) == 72, "model");
_Static_assert(sizeof(mezhkura_shelf) == 8352, "shelf");
_Static_assert(sizeof(mezhkura_marks) == 104, "marks");
_Static_assert(sizeof(mezhkura_lesson) == 136, "lesson");
_Static_assert(sizeof(mezhkura_desk) == 8488, "desk");
_Static_assert(sizeof(mezhkura_size_reply) == 40, "reply to sizing");
_Static_assert(sizeof(mezhkura_load_reply) == 8504, "reply to a load");
_Static_assert(sizeof(mezhkura_change_reply) == 8496, "reply to a change");
_Static_assert(sizeof(mezhkura_verdict_reply) == 2, "reply to a verdict");
_Static_assert(sizeof(mezhkura_search_reply) == 2, "reply to a search");
_Static_assert(sizeof(mezhkura_model_reply) == 80, "reply to the model call");
_Static_assert(sizeof(mezhkura_listing_reply) == 16, "reply to a listing");
_Static_assert(sizeof(mezhkura_order) == 528, "working order");
_Static_assert(sizeof(mezhkura_order_reply) == 536, "reply to the call for the working order");
_Static_assert(sizeof(mezhkura_groups_reply) == 72, "reply to the call for the model by groups");
_Static_assert(sizeof(mezhkura_sheet_entry) == 8, "entry of a proof sheet");
_Static_assert(sizeof(mezhkura_check_reply) == 16, "reply to a check");
_Static_assert(sizeof(mezhkura_make_reply) == 16, "reply to the call that makes a proof sheet");
_Static_assert(MEZHKURA_MOST_SHEET == 512, "longest proof sheet");

static void print_size(const char *file, size_t length)
{
    mezhkura_size_reply size = mezhkura_size((const uint8_t *)file, length);
    printf("%d %zu %zu %zu %zu\n", size.number, size.line, size.names, size.rules, size.body_literals);
}

/* The first words of M and N, and the rounds. */
static void print_model(mezhkura_model_reply model)
{
    printf("%d %d %d %d %zu\n", model.number, model.contradictory, (int)model.truths.words[0],
           (int)model.nonfalse.words[0], model.rounds);
}

/* The names in working order, each with its group; then the first words of M and N by groups. */
static void print_groups(mezhkura_desk desk)
{
    mezhkura_order_reply reply = mezhkura_working_order(desk);
    printf("%d %zu %zu:", reply.number, reply.order.names, reply.order.groups);
    for (size_t place = 0; place < reply.order.names; place++)
        printf(" %d in %d", reply.order.name[place], reply.order.group[place]);
    mezhkura_groups_reply model = mezhkura_model_by_groups(desk);
    printf("\n%d %d %d %d\n", model.number, model.contradictory, (int)model.truths.words[0],
           (int)model.nonfalse.words[0]);
}

/* The numbers of the verdicts of three names, each with the verdict. */
static void print_verdicts(mezhkura_desk desk)
{
    for (size_t name = 0; name < 3; name++) {
        mezhkura_verdict_reply reply = mezhkura_verdict(desk, 2 * name);
        printf(" %d %d", reply.number, reply.verdict);
    }
    printf("\n");
}

/* Both literals of a are put in. b reaches a, and c does not. */
static void print_clash(void)
{
    const char *file = "name,a\nname,b\nname,c\nrule,b,~a\nend\n";
    mezhkura_desk desk = mezhkura_load(mezhkura_fresh(), (const uint8_t *)file, strlen(file)).desk;
    desk = mezhkura_put_in(mezhkura_put_in(desk, 0).desk, 1).desk;
    uint8_t buffer[200];
    mezhkura_listing_reply listing = mezhkura_listing(desk, buffer, sizeof buffer);
    printf("%d %d:", mezhkura_model(desk).contradictory, (int)desk.lesson.marks.contradictory.words[0]);
    print_verdicts(desk);
    fwrite(buffer, 1, listing.length, stdout);
    /* A verdict is refused by 24 where its literal is in the set that stands there, whoever wrote it. */
    desk.lesson.marks.contradictory.words[0] = 16;
    printf("%d %d:", mezhkura_model(desk).contradictory, (int)desk.lesson.marks.contradictory.words[0]);
    print_verdicts(desk);
    desk = mezhkura_take_out(desk, 1).desk;
    printf("%d %d:", mezhkura_model(desk).contradictory, (int)desk.lesson.marks.contradictory.words[0]);
    print_verdicts(desk);
}

/* The number and the length of a preview, the byte of the buffer behind what was written, and what was written. */
static void print_preview(mezhkura_listing_reply preview, const uint8_t *buffer)
{
    printf("%d %zu %d\n", preview.number, preview.length, buffer[preview.length]);
    fwrite(buffer, 1, preview.length, stdout);
}

/* a is put in. Previews that are refused, with a long buffer and with one of no bytes; then those of -a put in and of a
 * taken out, with a buffer that is one byte too short and with one that is long enough; then the listing, which has a. */
static void print_previews(void)
{
    const char *file = "name,a\nend\n";
    mezhkura_desk desk = mezhkura_load(mezhkura_fresh(), (const uint8_t *)file, strlen(file)).desk;
    desk = mezhkura_put_in(desk, 0).desk;
    uint8_t buffer[100];
    memset(buffer, 7, sizeof buffer);
    print_preview(mezhkura_preview_put_in(mezhkura_fresh(), 0, buffer, sizeof buffer), buffer);
    print_preview(mezhkura_preview_put_in(desk, 2, buffer, 0), buffer);
    print_preview(mezhkura_preview_put_in(desk, 0, buffer, 0), buffer);
    print_preview(mezhkura_preview_take_out(desk, 1, buffer, sizeof buffer), buffer);
    print_preview(mezhkura_preview_put_in(desk, 1, buffer, 55), buffer);
    print_preview(mezhkura_preview_put_in(desk, 1, buffer, 56), buffer);
    memset(buffer, 7, sizeof buffer);
    print_preview(mezhkura_preview_take_out(desk, 0, buffer, 29), buffer);
    print_preview(mezhkura_preview_take_out(desk, 0, buffer, sizeof buffer), buffer);
    mezhkura_listing_reply listing = mezhkura_listing(desk, buffer, sizeof buffer);
    fwrite(buffer, 1, listing.length, stdout);
}

/* The number and the index of a check. */
static void print_check(mezhkura_check_reply check)
{
    printf(" %d %zu", check.number, check.index);
}

/* Makes a sheet in a run of so many entries, and prints the number, whether the count is within two entries per literal and
 * the check accepts the sheet, and whether the entries behind it stayed. Which sheet it is is the engine's choice. */
static void print_made(mezhkura_desk desk, size_t literal, uint8_t truth, size_t length)
{
    mezhkura_sheet_entry run[20];
    memset(run, 7, sizeof run);
    mezhkura_make_reply made = mezhkura_make_sheet(desk, literal, truth, run, length);
    int shown = made.count > 0 && made.count <= 8 && mezhkura_check_sheet(desk, literal, truth, run, made.count).number == 0;
    int stayed = 1;
    for (size_t place = made.count; place < 20; place++)
        stayed = stayed && run[place].kind == 0x707 && run[place].literal == 0x707 && run[place].rule == 0x707 &&
                 run[place].group == 0x707;
    printf(" %d %d %d", made.number, shown, stayed);
}

/* a is put in, and b holds unless a is shown. Sheets of our own that b is false, of which one lacks its reason and one has
 * another order; then sheets that the engine makes; then the numbers that refuse a check and a maker. */
static void print_sheets(void)
{
    const char *file = "name,a\nname,b\nrule,b,~a\nend\n";
    mezhkura_desk desk = mezhkura_load(mezhkura_fresh(), (const uint8_t *)file, strlen(file)).desk;
    desk = mezhkura_put_in(desk, 0).desk;
    mezhkura_sheet_entry a_true = {MEZHKURA_TRUE, 0, MEZHKURA_MOST_RULES + 0, 0};
    mezhkura_sheet_entry b_false = {MEZHKURA_FALSE, 2, 0, 9};
    mezhkura_sheet_entry sheet[] = {a_true, b_false}, without[] = {b_false}, behind[] = {b_false, a_true};
    static mezhkura_sheet_entry longer[MEZHKURA_MOST_SHEET + 1];
    for (size_t place = 0; place <= MEZHKURA_MOST_SHEET; place++)
        longer[place] = a_true;
    print_check(mezhkura_check_sheet(desk, 2, 0, sheet, 2));
    print_check(mezhkura_check_sheet(desk, 0, 1, sheet, 2));
    print_check(mezhkura_check_sheet(desk, 0, 255, sheet, 1));
    print_check(mezhkura_check_sheet(desk, 2, 0, without, 1));
    print_check(mezhkura_check_sheet(desk, 2, 0, behind, 2));
    sheet[1].literal = 4;
    print_check(mezhkura_check_sheet(desk, 2, 0, sheet, 2));
    printf("\n");
    print_made(desk, 0, 1, 8);
    print_made(desk, 2, 0, 20);
    print_made(desk, 2, 1, 0);
    print_made(desk, 2, 0, 7);
    print_made(desk, 4, 0, 0);
    print_made(mezhkura_fresh(), 4, 0, 0);
    printf("\n");
    print_check(mezhkura_check_sheet(mezhkura_fresh(), 4, 0, sheet, 0));
    print_check(mezhkura_check_sheet(desk, 4, 0, sheet, 0));
    print_check(mezhkura_check_sheet(desk, 2, 0, sheet, 0));
    print_check(mezhkura_check_sheet(desk, 0, 1, longer, MEZHKURA_MOST_SHEET + 1));
    print_check(mezhkura_check_sheet(desk, 0, 1, longer, MEZHKURA_MOST_SHEET));
    print_check(mezhkura_check_sheet(desk, 2, 0, longer, MEZHKURA_MOST_SHEET));
    printf("\n");
}

int main(void)
{
    const char *file = "name,Brake_Held\nname,may_park\nrule,may_park,BRAKE_HELD\nend\n";
    mezhkura_load_reply load = mezhkura_load(mezhkura_fresh(), (const uint8_t *)file, strlen(file));
    mezhkura_change_reply put = mezhkura_put_in(load.desk, 0);
    mezhkura_change_reply again = mezhkura_put_in(put.desk, 0);
    mezhkura_change_reply out = mezhkura_take_out(again.desk, 2);
    mezhkura_verdict_reply verdict = mezhkura_verdict(out.desk, 2);
    mezhkura_search_reply search = mezhkura_search(out.desk, 3, 1, MEZHKURA_T);
    mezhkura_model_reply model = mezhkura_model(out.desk);
    mezhkura_model_reply without_book = mezhkura_model(mezhkura_fresh());
    mezhkura_load_reply empty = mezhkura_load(out.desk, (const uint8_t *)file, 0);
    uint8_t buffer[200];
    mezhkura_listing_reply listing = mezhkura_listing(out.desk, buffer, sizeof buffer);
    mezhkura_listing_reply shorter = mezhkura_listing(out.desk, buffer, listing.length - 1);

    /* Where a caller takes literal 2 out of M, its verdict is undefined, since it is in N still. Rounds that a caller
     * writes are those that the model call gives. */
    mezhkura_desk written = out.desk;
    written.lesson.marks.model.truths.words[0] = 1;
    written.lesson.marks.model.rounds = 300;
    mezhkura_verdict_reply of_written = mezhkura_verdict(written, 2);
    mezhkura_model_reply model_of_written = mezhkura_model(written);

    printf("%d %d %d %d\n", load.number, put.number, again.number, out.number);
    printf("%d %d\n", verdict.number, verdict.verdict);
    printf("%d %d\n", search.number, search.holds);
    print_model(model);
    print_model(without_book);
    printf("%d %d\n", of_written.number, of_written.verdict);
    print_model(model_of_written);
    printf("%d %d\n", listing.number, shorter.number);
    fwrite(buffer, 1, listing.length, stdout);
    listing = mezhkura_listing(empty.desk, buffer, sizeof buffer);
    printf("%d %d\n", empty.number, listing.number);
    fwrite(buffer, 1, listing.length, stdout);
    print_size(file, strlen(file));
    print_size(file, 0);
    /* Without its last line the book has no `end`. */
    print_size(file, strlen(file) - 4);
    /* What a caller writes into the model of the lesson is not read for the groups. */
    print_groups(written);
    print_groups(mezhkura_fresh());
    /* b and c are each other's exception, and a waits for them. */
    const char *circle = "name,a\nname,b\nname,c\nrule,a,b\nrule,b,~c\nrule,c,~b\nend\n";
    print_groups(mezhkura_load(written, (const uint8_t *)circle, strlen(circle)).desk);
    print_clash();
    print_previews();
    print_sheets();
    return 0;
}
