#include "edges.h"

#include <inttypes.h>
#include <stdio.h>
#include <stdlib.h>
#include <string.h>

/* A string literal as a text; bytes 0 may stand in it. */
#define T(s) {(const uint8_t *)(s), sizeof(s) - 1}

/* ---- The whole case of document 01, which "gains the points 20/1 and 31/2" and "a calendar of its header alone" */

#define TYPES "VERSION;VEH_TYPE_NR;VEH_TYPE_TEXT\n1;4;\"solo; low floor\"\n1;7;\"joint \"\"old\"\"\"\n"
#define DEPOTS "VERSION;DEPOT_NR\n1;3\n"
#define STOPS "VERSION;STOP_NR;STOP_NAME\n1;20;Yard\n1;31;Mill\n"
#define POINTS "VERSION;STOP_NR;STOPPING_POINT_NR\n1;20;1\n1;31;2\n"
#define BLOCK_HEADER                                                                                                       \
    "VERSION;DAY_TYPE_NR;DEPOT_NR;BLOCK_NR;VEH_TYP_NR;DEP_STOP_NR;DEP_STOPPING_POINT_NR;BEGIN_OF_BLOCK;ARR_STOP_NR;"       \
    "ARR_STOPPING_POINT_NR;END_OF_BLOCK\n"
#define BLOCK_101 "1;5;3;101;4;20;1;18000;31;2;46800\n"
#define BLOCK_102 "1;5;3;102;7;31;2;21600;20;1;25201\n"
#define BLOCK_6_101 "1;6;3;101;4;20;1;80000;20;1;90000\n"
#define BLOCK_ROWS BLOCK_101 BLOCK_102 BLOCK_6_101
#define BLOCKS BLOCK_HEADER BLOCK_ROWS
#define CALENDAR "VERSION;DAY;DAY_TYPE_NR\n"

/* In the order of reading. */
static const struct text whole_case[TABLES] = {T(TYPES), T(DEPOTS), T(STOPS), T(POINTS), T(BLOCKS), T(CALENDAR)};

/* ---- Editions */

/* The one that the edges are run by: they are run by each. An edge that holds by one alone stands in a list of its own. */
static unsigned edition;

/* The number by which a caller names it. */
static uint64_t by(void)
{
    return name_of_edition(edition);
}

/* ---- Readings: the whole case with one of its texts replaced */

struct reading_edge {
    const char *words;
    unsigned table;
    struct text text;
    uint64_t number, line, column; /* the place's table is `table`, but for 0 and 10 */
};

#define D "VERSION;DEPOT_NR\n"
#define S "VERSION;STOP_NR;STOP_NAME\n"
#define P "VERSION;STOP_NR;STOPPING_POINT_NR\n"
#define V "VERSION;VEH_TYPE_NR;"
#define TWO_TYPES "1;4;\n1;7;\n"
#define TEN "0123456789"
#define TEN_CELLS ";;;;;;;;;;"

static const struct reading_edge reading_edges[] = {
    {"whole case", 1, T(TYPES), 0, 0, 0},
    /* At the edges */
    {"d2 07 passes", 2, T(D "07;3\n1;3\n"), 0, 0, 0},
    {"d2 100", 2, T(D "100;3\n"), 20, 2, 1},
    {"d2 100 in a block", 4, T(BLOCK_HEADER "1;5;3;101;100;20;1;18000;31;2;46800\n"), 20, 2, 5},
    {"d2 empty", 2, T(D ";3\n"), 19, 2, 1},
    {"d2 quoted 12 passes", 2, T(D "\"12\";3\n1;3\n"), 0, 0, 0},
    {"text a\"b", 3, T(S "1;20;a\"b\n"), 6, 2, 3},
    {"text \"a\"\"b\" fits c4", 1, T(V "STR_VEH_TYPE\n1;4;\"a\"\"b\"\n1;7;\n"), 0, 0, 0},
    {"text of 5 with a doubled quote is over c4", 1, T(V "STR_VEH_TYPE\n1;4;\"a\"\"bcd\"\n1;7;\n"), 20, 2, 7},
    {"text \"a", 3, T(S "1;20;\"a\n"), 6, 2, 3},
    {"ACCESS_EQUIP 2", 1, T(V "VEH_TYPE_ACCESS_EQUIP\n1;4;2\n1;7;0\n"), 0, 0, 0},
    {"END equal to BEGIN", 4, T(BLOCK_HEADER "1;5;3;101;4;20;1;500;31;2;500\n"), 0, 0, 0},
    {"END one below", 4, T(BLOCK_HEADER "1;5;3;101;4;20;1;86400;31;2;86399\n"), 11, 2, 11},
    {"STOP_NR 0", 3, T(S "1;0;Yard\n"), 21, 2, 2},
    {"keys 1;07 and 1;7", 1, T(V "\n1;07;\n1;7;\n"), 9, 3, 0},
    {"length 0, table 1", 1, T(""), 2, 1, 1},
    {"length 0, table 2", 2, T(""), 2, 1, 1},
    {"length 0, table 3", 3, T(""), 2, 1, 1},
    {"length 0, table 6", 6, T(""), 2, 1, 1},
    {"length 0, table 4", 4, T(""), 2, 1, 1},
    {"length 0, table 7", 7, T(""), 2, 1, 1},
    /* Easy to get wrong */
    {"columns by name, not by position", 2, T("DEPOT_NR;VERSION\n3;1\n"), 0, 0, 0},
    {"columns by position would find the depot", 2, T("DEPOT_NR;VERSION\n1;3\n"), 10, 2, 3},
    {"semicolon inside quotes", 3, T(S "1;20;\"Ya;rd\"\n1;31;\";\"\n"), 0, 0, 0},
    {"an earlier 10 before a later 8", 4, T(BLOCK_HEADER "1;5;3;101;4;20;1;18000;99;2;46800\nx;5;3;102;4;20;1;1;31;2;2\n"),
        10, 2, 9},
    /* Lines and carriage returns */
    {"A-01 CR at the end of the text", 2, T(D "1;3\r"), 6, 2, 2},
    {"A-01 CR at the end of a header", 2, T("VERSION;DEPOT_NR\r"), 6, 1, 2},
    {"A-02 two CRs", 2, T(D "1;3\r\r\n"), 6, 2, 2},
    {"CR LF everywhere", 2, T("VERSION;DEPOT_NR\r\n1;3\r\n"), 0, 0, 0},
    {"no last line feed", 2, T(D "1;3"), 0, 0, 0},
    {"CR inside a line", 2, T(D "1\r;3\n"), 6, 2, 1},
    {"A-04 blank line", 2, T(D "1;3\n\n"), 7, 3, 0},
    {"A-04 blank line with CR", 2, T(D "1;3\n\r\n"), 7, 3, 0},
    {"A-04 blank line first", 2, T(D "\n1;3\n"), 7, 2, 0},
    {"A-05 line feed alone", 2, T("\n"), 2, 1, 1},
    {"A-05 CR LF alone", 2, T("\r\n"), 2, 1, 1},
    {"A-05 CR alone", 2, T("\r"), 6, 1, 1},
    {"A-05 blank header before a good one", 2, T("\n" D "1;3\n"), 2, 1, 1},
    {"A-07 byte order mark", 2, T("\xEF\xBB\xBF" D "1;3\n"), 2, 1, 1},
    /* Order in the header */
    {"A-09 quote fault in cell 34", 2, T("VERSION;DEPOT_NR;" TEN_CELLS TEN_CELLS TEN_CELLS ";a\"b\n"), 6, 1, 34},
    {"A-09 byte fault before a column twice", 2, T("VERSION;VERSION;\x1F\n"), 6, 1, 3},
    {"34 cells", 2, T("VERSION;DEPOT_NR;" TEN_CELLS TEN_CELLS TEN_CELLS ";\n1;3\n"), 4, 1, 0},
    {"33 cells, one of them twice, one missing", 2, T("VERSION;VERSION" TEN_CELLS TEN_CELLS TEN_CELLS ";\n"), 4, 1, 0},
    {"32 cells", 2,
        T("VERSION;DEPOT_NR" TEN_CELLS TEN_CELLS TEN_CELLS "\n1;3" TEN_CELLS TEN_CELLS TEN_CELLS "\n"), 0, 0, 0},
    {"A-10 leftmost repeat", 3, T("STOP_NAME;STOP_NR;STOP_NAME;STOP_NR;VERSION\n"), 3, 1, 3},
    {"A-10 leftmost repeat, not the first seen", 3, T("STOP_NAME;STOP_NR;STOP_NR;STOP_NAME;VERSION\n"), 3, 1, 2},
    {"3 before 2", 3, T("STOP_NAME;STOP_NAME\n"), 3, 1, 3},
    {"A-11 both spellings", 1, T(V "HANDICAP_PLACES;PLACES_FOR_DISABLED_PERSONS\n"), 3, 1, 5},
    {"A-11 the other one twice", 1, T(V "HANDICAP_PLACES;HANDICAP_PLACES\n"), 3, 1, 5},
    {"A-11 the other one", 1, T(V "HANDICAP_PLACES\n1;4;12\n1;7;\n"), 0, 0, 0},
    {"A-11 the other one's width", 1, T(V "HANDICAP_PLACES\n1;4;1234\n"), 20, 2, 5},
    {"A-11 both spellings of the block's type", 4, T("VEH_TYPE_NR;" BLOCK_HEADER), 3, 1, 5},
    {"A-11 VEH_TYP_NR is no column of vehicle_type", 1, T(V "VEH_TYP_NR;VEH_TYP_NR\n1;4;a;b\n1;7;;\n"), 0, 0, 0},
    {"A-11 HANDICAP_PLACES is no column of depot", 2, T("VERSION;DEPOT_NR;HANDICAP_PLACES;HANDICAP_PLACES\n1;3;a;b\n"), 0,
        0, 0},
    {"A-11 VEH_TYPE_NR in blocks", 4,
        T("VERSION;DAY_TYPE_NR;DEPOT_NR;BLOCK_NR;VEH_TYPE_NR;DEP_STOP_NR;DEP_STOPPING_POINT_NR;BEGIN_OF_BLOCK;ARR_STOP_NR;"
          "ARR_STOPPING_POINT_NR;END_OF_BLOCK\n" BLOCK_101),
        0, 0, 0},
    {"A-12 lowest missing", 4,
        T("ARR_STOPPING_POINT_NR;VERSION;DAY_TYPE_NR;DEPOT_NR;BLOCK_NR;DEP_STOP_NR;DEP_STOPPING_POINT_NR;END_OF_BLOCK\n"),
        2, 1, 5},
    {"A-12 optional ones never count", 1, T("VEH_TYPE_NR;VERSION\n4;1\n7;1\n"), 0, 0, 0},
    {"2 in stop: the name", 3, T("VERSION;STOP_NR\n"), 2, 1, 3},
    /* Order in a line */
    {"A-14 by column number, not by place", 2, T("DEPOT_NR;VERSION\nx;x\n"), 8, 2, 1},
    {"A-14 6 in a cell past the header's count", 2, T(D "1;3;4;a\"b\n"), 6, 2, 4},
    {"6 before an earlier cell's 8", 2, T(D "x;\"3\n"), 6, 2, 2},
    {"7 before 8", 2, T(D "x\n"), 7, 2, 0},
    {"one cell too many, an empty one", 2, T(D "1;3;\n"), 7, 2, 0},
    {"A-15 bad optional cell", 1, T(V "VEH_TYPE_SEATS\n1;4;x\n"), 8, 2, 3},
    {"A-15 unknown columns take anything", 1, T(V "X;\n1;4;x;-1\n1;7;\"\";\"a;\"\"b\"\n"), 0, 0, 0},
    {"11 before 9", 4, T(BLOCK_HEADER BLOCK_101 "1;5;3;101;4;20;1;86400;31;2;499\n"), 11, 3, 11},
    {"A-16 9 before 10", 4, T(BLOCK_HEADER BLOCK_101 "1;5;3;101;4;99;1;500;31;2;500\n"), 9, 3, 0},
    {"19 in END before 11", 4, T(BLOCK_HEADER "1;5;3;101;4;20;1;86400;31;2;\n"), 19, 2, 11},
    {"11 before 10", 4, T(BLOCK_HEADER "1;5;9;101;4;20;1;86400;31;2;499\n"), 11, 2, 11},
    {"C2-01 9 where 11 was", 4, T(BLOCK_HEADER BLOCK_101 "1;5;3;101;4;20;1;500;31;2;499\n"), 9, 3, 0},
    {"C2-01 10 where 11 was", 4, T(BLOCK_HEADER "1;5;9;101;4;20;1;500;31;2;499\n"), 10, 2, 3},
    {"A-17 unknown version", 4, T(BLOCK_HEADER "2;5;3;101;4;20;1;500;31;2;500\n"), 10, 2, 3},
    {"A-17 type compared by value", 1, T(V "\n01;00000004;\n1;7;\n"), 0, 0, 0},
    {"10 at column 5", 4, T(BLOCK_HEADER "1;5;3;101;5;99;1;500;99;2;500\n"), 10, 2, 5},
    {"10 at column 6", 4, T(BLOCK_HEADER "1;5;3;101;4;99;1;500;99;2;500\n"), 10, 2, 6},
    {"C1-01 10 at column 7", 4, T(BLOCK_HEADER "1;5;3;101;4;20;2;500;31;2;500\n"), 10, 2, 7},
    {"C1-01 10 at column 10", 4, T(BLOCK_HEADER "1;5;3;101;4;20;1;500;31;1;500\n"), 10, 2, 10},
    {"C1-01 10 at column 5 before 7", 4, T(BLOCK_HEADER "1;5;3;101;5;20;9;500;31;2;500\n"), 10, 2, 5},
    {"C1-01 10 at column 6 before 7", 4, T(BLOCK_HEADER "1;5;3;101;4;99;9;500;31;2;500\n"), 10, 2, 6},
    {"C1-01 10 at column 7 before 9", 4, T(BLOCK_HEADER "1;5;3;101;4;20;9;500;99;9;500\n"), 10, 2, 7},
    {"C1-01 10 at column 9 before 10", 4, T(BLOCK_HEADER "1;5;3;101;4;20;1;500;99;9;500\n"), 10, 2, 9},
    {"C1-01 9 before 10 at column 7", 4, T(BLOCK_HEADER BLOCK_101 "1;5;3;101;4;20;9;500;31;2;500\n"), 9, 3, 0},
    {"C1-01 point 100", 4, T(BLOCK_HEADER "1;5;3;101;4;20;100;500;31;2;500\n"), 20, 2, 7},
    {"points compared by value", 4, T(BLOCK_HEADER "1;5;3;101;4;20;01;500;31;\"02\";500\n"), 0, 0, 0},
    {"same key but for one number", 4,
        T(BLOCK_HEADER "1;5;3;101;4;20;1;1;31;2;1\n1;5;3;100;4;20;1;1;31;2;1\n1;4;3;101;4;20;1;1;31;2;1\n"), 0, 0, 0},
    /* Quotes and cells */
    {"A-18 quoted names", 2, T("\"VERSION\";\"DEPOT_NR\"\n1;3\n"), 0, 0, 0},
    {"A-18 quoted and bare is twice", 2, T("\"VERSION\";DEPOT_NR;VERSION\n1;3;1\n"), 3, 1, 1},
    {"A-18 blank before a name", 2, T(" VERSION;DEPOT_NR\n1;3\n"), 2, 1, 1},
    {"A-18 small letters", 2, T("version;DEPOT_NR\n1;3\n"), 2, 1, 1},
    {"A-18 a doubled quote in a name", 2, T("\"VER\"\"SION\";DEPOT_NR\n1;3\n"), 2, 1, 1},
    {"A-19 blank before a quote", 3, T(S "1;20; \"a\"\n"), 6, 2, 3},
    {"A-20 three quotes", 3, T(S "1;20;\"\"\"\n"), 6, 2, 3},
    {"A-20 four quotes", 3, T(S "1;20;\"\"\"\"\n1;31;a\n"), 0, 0, 0},
    {"A-21 something behind the closing quote", 3, T(S "1;20;\"a\"b\n"), 6, 2, 3},
    {"A-21 CR behind the closing quote at the end", 3, T(S "1;31;a\n1;20;\"a\"\r"), 6, 3, 3},
    {"A-21 CR LF behind the closing quote", 3, T(S "1;31;a\n1;20;\"a\"\r\n"), 0, 0, 0},
    {"A-22 doubled quote in a number", 2, T(D "1;\"1\"\"2\"\n"), 8, 2, 2},
    {"C4-04 007", 2, T(D "007;3\n"), 20, 2, 1},
    {"A-23 00003 in d5", 2, T(D "01;00003\n"), 0, 0, 0},
    {"C4-04 000003 in d5", 2, T(D "1;000003\n"), 20, 2, 2},
    {"sign", 2, T(D "1;+3\n"), 8, 2, 2},
    {"blank in a number", 2, T(D "1; 3\n"), 8, 2, 2},
    {"VERSION 0", 2, T(D "0;3\n"), 21, 2, 1},
    {"VERSION 00", 3, T(S "00;3;a\n"), 21, 2, 1},
    {"VERSION 99", 2, T(D "99;99999\n1;3\n"), 0, 0, 0},
    {"DEPOT_NR 0", 2, T(D "1;0\n1;3\n"), 0, 0, 0},
    {"STOP_NR 99999", 3, T(S "1;99999;a\n1;20;a\n1;31;a\n"), 0, 0, 0},
    {"A-24 c50 with 50", 3, T(S "1;20;" TEN TEN TEN TEN TEN "\n1;31; \n"), 0, 0, 0},
    {"A-24 c50 with 50, two doubled", 3, T(S "1;20;\"" TEN TEN TEN TEN "\"\"345678\"\"01\"\n1;31;a\n"), 0, 0, 0},
    {"STOP_NAME empty", 3, T(S "1;20;\n"), 19, 2, 3},
    {"STOP_NAME empty in quotes", 3, T(S "1;20;\"\"\n"), 19, 2, 3},
    {"optional empty in quotes", 1, T(V "VEH_TYPE_SEATS\n1;4;\"\"\n1;7;\n"), 0, 0, 0},
    {"A-25 tab inside quotes of an unknown column", 2, T("VERSION;DEPOT_NR;X\n1;3;\"a\tb\"\n"), 6, 2, 3},
    {"A-25 byte 0", 3, T(S "1;20;a\0b\n"), 6, 2, 3},
    {"A-25 byte 31", 3, T(S "1;20;\x1F\n"), 6, 2, 3},
    {"A-25 byte 127", 3, T(S "1;20;\x7F\n"), 6, 2, 3},
    {"A-25 byte 127 in a header", 3, T("VERSION;STOP_NR;STOP_NAME;\x7F\n"), 6, 1, 4},
    {"bytes 128 and 255", 3, T(S "1;20;\x80\n1;31;\xFF\n"), 0, 0, 0},
    /* Stop points */
    {"C1-04 without the table", 6, T(""), 2, 1, 1},
    {"C1-03 2 in stop_point: the version", 6, T("STOP_NR;STOPPING_POINT_NR\n"), 2, 1, 1},
    {"C1-03 2 in stop_point: the stop", 6, T("VERSION;STOPPING_POINT_NR\n"), 2, 1, 2},
    {"C1-03 2 in stop_point: the point", 6, T("VERSION;STOP_NR\n"), 2, 1, 3},
    {"2 in stop_point: the old name", 6, T("VERSION;STOP_NR;STOP_POINT_NR\n1;20;1\n"), 2, 1, 3},
    {"3 in stop_point", 6, T("STOP_NR;VERSION;STOPPING_POINT_NR;STOP_NR\n20;1;1;20\n"), 3, 1, 2},
    {"4 in stop_point", 6, T("VERSION;STOP_NR" TEN_CELLS TEN_CELLS TEN_CELLS ";STOPPING_POINT_NR\n"), 4, 1, 0},
    {"6 in stop_point's header", 6, T("VERSION;STOP_NR;STOPPING_POINT_NR\"\n"), 6, 1, 3},
    {"6 in a stop point", 6, T(P "1;20;\"1\n"), 6, 2, 3},
    {"7 in a stop point", 6, T(P "1;20\n"), 7, 2, 0},
    {"stop points by name, not by position", 6, T("STOPPING_POINT_NR;STOP_NR;VERSION\n1;20;1\n2;31;1\n"), 0, 0, 0},
    {"C1-03 STOP_AREA_NR is unknown", 6, T("VERSION;STOP_AREA_NR;STOP_NR;STOPPING_POINT_NR\n1;x;20;1\n1;;31;2\n"), 0, 0, 0},
    {"C1-05 points that differ in area only", 6,
        T("VERSION;STOP_AREA_NR;STOP_NR;STOPPING_POINT_NR\n1;1;20;1\n1;1;31;2\n1;2;20;1\n"), 9, 4, 0},
    {"C1-05 the key is all three numbers", 6, T(P "1;20;1\n1;31;2\n1;20;2\n1;31;1\n"), 0, 0, 0},
    {"C1-05 the key in numbers", 6, T(P "1;20;1\n1;31;2\n01;00020;01\n"), 9, 4, 0},
    {"C1-03 point 0 and point 99", 6, T(P "1;20;0\n1;20;1\n1;20;99\n1;31;2\n"), 0, 0, 0},
    {"C1-03 point 100", 6, T(P "1;20;100\n"), 20, 2, 3},
    {"C1-03 point empty", 6, T(P "1;20;\n"), 19, 2, 3},
    {"C1-03 stop 0", 6, T(P "1;0;1\n"), 21, 2, 2},
    {"C1-03 stop 100000", 6, T(P "1;100000;1\n"), 20, 2, 2},
    {"C1-03 stop 99999 is well formed", 6, T(P "1;99999;1\n"), 10, 2, 2},
    {"C1-03 version 0", 6, T(P "0;20;1\n"), 21, 2, 1},
    {"C1-05 a stop that is not there", 6, T(P "1;20;1\n1;21;2\n"), 10, 3, 2},
    {"C1-05 a stop of another version", 6, T(P "1;20;1\n2;20;1\n"), 10, 3, 2},
    {"C1-05 8 before 10", 6, T(P "1;21;x\n"), 8, 2, 3},
    {"C1-05 an earlier 10 before a later 9", 6, T(P "1;21;1\n1;20;1\n1;20;1\n"), 10, 2, 2},
    {"C1-04 a point's 10 before a block's faults", 3, T(S "1;20;Yard\n"), 10, 3, 2},
    {"C1-02 a block's point at another stop", 6, T(P "1;20;2\n1;31;1\n"), 10, 2, 7},
    {"C1-02 a block's last point", 6, T(P "1;20;1\n1;31;1\n"), 10, 2, 10},
    /* The calendar */
    {"C7-02 2 in the calendar: the version", 7, T("DAY;DAY_TYPE_NR\n"), 2, 1, 1},
    {"C7-02 2 in the calendar: the day", 7, T("VERSION;DAY_TYPE_NR;DAY_TEXT\n"), 2, 1, 2},
    {"C7-02 2 in the calendar: the day type", 7, T("VERSION;DAY\n"), 2, 1, 3},
    {"3 in the calendar", 7, T("DAY;VERSION;DAY_TYPE_NR;DAY\n20240101;1;5;20240101\n"), 3, 1, 2},
    {"4 in the calendar", 7, T("VERSION;DAY" TEN_CELLS TEN_CELLS TEN_CELLS ";DAY_TYPE_NR\n"), 4, 1, 0},
    {"6 in the calendar's header", 7, T("VERSION;DAY;DAY_TYPE_NR\"\n"), 6, 1, 3},
    {"6 in a day", 7, T(CALENDAR "1;\"20240101;5\n"), 6, 2, 2},
    {"7 in a day", 7, T(CALENDAR "1;20240101\n"), 7, 2, 0},
    {"C7-02 the example of document 003", 7,
        T("VERSION;DAY;DAY_TEXT;DAY_TYPE_NR\n1;\"20111121\";\"\";1\n1;\"20111122\";\"\";2\n1;\"20111123\";\"\";3\n"), 0, 0, 0},
    {"C7-02 DAY_TEXT is unknown", 7, T("DAY_TEXT;DAY_TYPE_NR;DAY;VERSION;DAY_TEXT\n;5;20240101;1;" TEN TEN TEN TEN "x\n"), 0,
        0, 0},
    {"DAY is no column of vehicle_block", 4, T("DAY;DAY;" BLOCK_HEADER "x;;" BLOCK_101), 0, 0, 0},
    {"C7-08 the key is version and day", 7, T(CALENDAR "1;20240101;5\n2;20240101;5\n1;20240102;5\n"), 0, 0, 0},
    {"C7-08 a day twice", 7, T(CALENDAR "1;20240101;5\n1;20240102;5\n1;20240101;6\n"), 9, 4, 0},
    {"C7-08 the key in numbers", 7, T(CALENDAR "1;20240101;5\n01;\"20240101\";5\n"), 9, 3, 0},
    {"C7-03 21 before 9", 7, T(CALENDAR "1;20240101;5\n0;20240101;5\n"), 21, 3, 1},
    {"C7-03 20 of the day type before 9", 7, T(CALENDAR "1;20240101;5\n1;20240101;0000000005\n"), 20, 3, 3},
    {"C7-05 a day type that no block has", 7, T(CALENDAR "1;20240101;999999999\n99;20240101;0\n"), 0, 0, 0},
    {"an earlier 9 before a later 21", 7, T(CALENDAR "1;20240101;5\n1;20240101;5\n1;20240230;5\n"), 9, 3, 0},
    {"an earlier 21 before a later 9", 7, T(CALENDAR "1;20240101;5\n1;20240230;5\n1;20240101;5\n"), 21, 3, 2},
    /* Order around the four faults of a cell */
    {"6 before an earlier cell's 19", 2, T(D ";\"3\n"), 6, 2, 2},
    {"6 before an earlier cell's 20", 2, T(D "100;\"3\n"), 6, 2, 2},
    {"6 before an earlier cell's 21", 2, T(D "0;\"3\n"), 6, 2, 2},
    {"7 before 19", 2, T(D ";3;\n"), 7, 2, 0},
    {"7 before 20", 2, T(D "100\n"), 7, 2, 0},
    {"7 before 21", 2, T(D "0;3;4\n"), 7, 2, 0},
    {"C4-06 19 before 11", 4, T(BLOCK_HEADER "1;5;3;101;;20;1;86400;31;2;499\n"), 19, 2, 5},
    {"C4-06 20 before 11", 4, T(BLOCK_HEADER "1;5;3;101;100;20;1;86400;31;2;499\n"), 20, 2, 5},
    {"C4-06 20 in END before 11", 4, T(BLOCK_HEADER "1;5;3;101;4;20;1;86400;31;2;0000499\n"), 20, 2, 11},
    {"C4-06 21 before 11", 4, T(BLOCK_HEADER "0;5;3;101;4;20;1;86400;31;2;499\n"), 21, 2, 1},
    {"C4-06 19 before 9", 3, T(S "1;20;a\n1;20;\"\"\n"), 19, 3, 3},
    {"C4-06 19 before 10", 6, T(P "1;21;\n"), 19, 2, 3},
    {"C4-06 20 before 10", 6, T(P "1;21;100\n"), 20, 2, 3},
    {"an earlier 10 before a later 19", 6, T(P "1;21;1\n1;20;\n"), 10, 2, 2},
    {"an earlier 9 before a later 20", 2, T(D "1;3\n1;3\n1;000003\n"), 9, 3, 0},
    {"an earlier 19 before a later 6", 2, T(D ";3\n\"\n"), 19, 2, 1},
    {"C4-04 digits too many for a number of 64 bits", 2, T(D "1;18446744073709551619\n"), 20, 2, 2},
    {"C4-04 digits too many for a number of 32 bits", 4, T(BLOCK_HEADER "1;4294967301;3;101;4;20;1;18000;31;2;46800\n"), 20,
        2, 2},
    /* Tables without rows */
    {"no stop points: the first block's 10", 6, T("VERSION;STOP_NR;STOPPING_POINT_NR"), 10, 2, 7},
    {"no stops: the first point's 10", 3, T("VERSION;STOP_NR;STOP_NAME"), 10, 2, 2},
    {"no blocks", 4, T(BLOCK_HEADER), 0, 0, 0},
    {"no depots: the first block's 10", 2, T("VERSION;DEPOT_NR"), 10, 2, 3},
};

static const struct reading_edge reading_edges_21[] = {
    {"ACCESS_EQUIP 3", 1, T(V "VEH_TYPE_ACCESS_EQUIP\n1;4;3\n"), 21, 2, 11},
    {"DEP_STOP_NR 100000", 4, T(BLOCK_HEADER "1;5;3;101;4;100000;1;18000;31;2;46800\n"), 10, 2, 6},
    {"10 at column 9", 4, T(BLOCK_HEADER "1;5;3;101;4;20;1;500;0;2;500\n"), 10, 2, 9},
    {"A-24 c50 with 51", 3, T(S "1;20;" TEN TEN TEN TEN TEN "x\n"), 20, 2, 3},
    {"A-24 c50 with 26 letters of two bytes", 3,
        T(S "1;20;" "\xC3\xA4\xC3\xA4\xC3\xA4\xC3\xA4\xC3\xA4" "\xC3\xA4\xC3\xA4\xC3\xA4\xC3\xA4\xC3\xA4"
                    "\xC3\xA4\xC3\xA4\xC3\xA4\xC3\xA4\xC3\xA4" "\xC3\xA4\xC3\xA4\xC3\xA4\xC3\xA4\xC3\xA4"
                    "\xC3\xA4\xC3\xA4\xC3\xA4\xC3\xA4\xC3\xA4" "\xC3\xA4\n"),
        20, 2, 3},
    {"A-26 line feed inside quotes", 3, T(S "1;20;\"Ya\nrd\"\n"), 6, 2, 3},
    {"A-26 in a header", 3, T("VERSION;\"STOP_NR\nSTOP_NAME\"\n"), 6, 1, 2},
    {"C4-06 20 before 9", 3, T(S "1;20;a\n1;20;" TEN TEN TEN TEN TEN "x\n"), 20, 3, 3},
    {"C4-06 21 before 9", 1, T(V "VEH_TYPE_ACCESS_EQUIP\n1;4;2\n1;4;3\n"), 21, 3, 11},
    {"C5-08 VEH_DELFI_TYPE is unknown", 1, T(V "VEH_DELFI_TYPE;VEH_DELFI_TYPE\n1;4;" TEN "x;\n1;7;;\n"), 0, 0, 0},
    {"C5-08 and in quotes no break may stand there", 1, T(V "VEH_DELFI_TYPE\n1;4;\"a\nb\"\n1;7;\n"), 6, 2, 3},
    {"C5-09 stops of 6 digits", 4, T(BLOCK_HEADER "1;5;3;101;4;000020;1;18000;000031;2;46800\n"), 0, 0, 0},
    {"a break is the first line's 6, not the second one's", 3, T(S "1;20;\"a\r\nb\"\n"), 6, 2, 3},
    {"a break in a header's unknown name", 2, T("VERSION;DEPOT_NR;\"a\nb\"\n1;3;\n"), 6, 1, 3},
};

/* 5/13 */
#define FIFTY TEN TEN TEN TEN TEN

static const struct reading_edge reading_edges_23[] = {
    /* Columns */
    {"ACCESS_EQUIP 3 and 7", 1, T(V "VEH_TYPE_ACCESS_EQUIP\n1;4;3\n1;7;7\n"), 0, 0, 0},
    {"ACCESS_EQUIP 8", 1, T(V "VEH_TYPE_ACCESS_EQUIP\n1;4;8\n"), 21, 2, 11},
    {"ACCESS_EQUIP 07", 1, T(V "VEH_TYPE_ACCESS_EQUIP\n1;4;07\n"), 20, 2, 11},
    {"VEH_DELFI_TYPE of 10 bytes, and empty", 1, T(V "VEH_DELFI_TYPE\n1;4;" TEN "\n1;7;\n"), 0, 0, 0},
    {"VEH_DELFI_TYPE of 11 bytes", 1, T(V "VEH_DELFI_TYPE\n1;4;" TEN "x\n"), 20, 2, 12},
    {"VEH_DELFI_TYPE of 10 bytes with a break", 1, T(V "VEH_DELFI_TYPE\n1;4;\"01234\r\n789\"\n1;7;\n"), 0, 0, 0},
    {"VEH_DELFI_TYPE of 11 bytes with a break", 1, T(V "VEH_DELFI_TYPE\n1;4;\"012345\r\n789\"\n"), 20, 2, 12},
    {"VEH_DELFI_TYPE twice", 1, T(V "VEH_DELFI_TYPE;VEH_DELFI_TYPE\n"), 3, 1, 12},
    {"VEH_DELFI_TYPE in another table is unknown", 2,
        T("VERSION;DEPOT_NR;VEH_DELFI_TYPE;VEH_DELFI_TYPE\n1;3;" TEN "x;\n"), 0, 0, 0},
    {"column 11 before column 12", 1, T(V "VEH_DELFI_TYPE;VEH_TYPE_ACCESS_EQUIP\n1;4;" TEN "x;8\n"), 21, 2, 11},
    {"C5-12 HANDICAP_PLACES", 1, T(V "HANDICAP_PLACES\n1;4;1234\n"), 20, 2, 5},
    {"c255 with 50, 51 and 255", 3,
        T(S "1;20;" FIFTY "\n1;31;" FIFTY "x\n1;32;" FIFTY FIFTY FIFTY FIFTY FIFTY "01234\n"), 0, 0, 0},
    {"c255 with 256", 3, T(S "1;20;" FIFTY FIFTY FIFTY FIFTY FIFTY "012345\n"), 20, 2, 3},
    {"c255 with 255, two of them a break", 3, T(S "1;20;\"" FIFTY FIFTY FIFTY FIFTY FIFTY "\r\n012\"\n1;31;a\n"), 0, 0, 0},
    {"c255 with 256, two of them a break", 3, T(S "1;20;\"" FIFTY FIFTY FIFTY FIFTY FIFTY "\r\n0123\"\n"), 20, 2, 3},
    {"C5-09 DEP_STOP_NR 100000", 4, T(BLOCK_HEADER "1;5;3;101;4;100000;1;18000;31;2;46800\n"), 20, 2, 6},
    {"C5-09 DEP_STOP_NR 000020", 4, T(BLOCK_HEADER "1;5;3;101;4;000020;1;18000;31;2;46800\n"), 20, 2, 6},
    {"C5-09 DEP_STOP_NR 0", 4, T(BLOCK_HEADER "1;5;3;101;4;0;1;18000;31;2;46800\n"), 21, 2, 6},
    {"C5-09 DEP_STOP_NR 99999", 4, T(BLOCK_HEADER "1;5;3;101;4;99999;1;18000;31;2;46800\n"), 10, 2, 6},
    {"C5-09 ARR_STOP_NR 0", 4, T(BLOCK_HEADER "1;5;3;101;4;20;1;18000;0;2;46800\n"), 21, 2, 9},
    {"C5-09 ARR_STOP_NR 000031", 4, T(BLOCK_HEADER "1;5;3;101;4;20;1;18000;000031;2;46800\n"), 20, 2, 9},
    {"C5-09 both in five digits", 4, T(BLOCK_HEADER "1;5;3;101;4;00020;1;18000;00031;2;46800\n"), 0, 0, 0},
    /* Breaks that are content */
    {"C5-03 a line feed in quotes", 3, T(S "1;20;\"Ya\nrd\"\n1;31;a\n"), 0, 0, 0},
    {"C5-03 CR LF in quotes", 3, T(S "1;20;\"Ya\r\nrd\"\r\n1;31;a\r\n"), 0, 0, 0},
    {"C5-03 a break alone is not empty", 3, T(S "1;20;\"\n\"\n1;31;\"\r\n\""), 0, 0, 0},
    {"C5-03 line feeds one behind the other", 3, T(S "1;20;\"\n\n\r\n\n\"\n1;31;a\n"), 0, 0, 0},
    {"C5-03 a break beside doubled quotes", 3, T(S "1;20;\"\"\"\n\"\"\"\n1;31;\"\n\"\"\n\"\n"), 0, 0, 0},
    {"C5-03 a semicolon and a break", 3, T(S "1;20;\";\n;\"\n1;31;a\n"), 0, 0, 0},
    {"C5-03 a line that looks like a row", 3, T(S "1;20;\"a\n1;20;b\n\"\n1;31;a\n"), 0, 0, 0},
    {"C5-03 in an unknown column", 2, T("VERSION;DEPOT_NR;X\n1;3;\"a\nb\"\n"), 0, 0, 0},
    {"C5-03 in VERSION it is too long", 2, T(D "\"1\n2\";3\n"), 20, 2, 1},
    {"C5-03 1 and a break in VERSION", 2, T(D "\"1\n\";3\n"), 8, 2, 1},
    {"C5-03 CR LF in VERSION", 2, T(D "\"\r\n\";3\n"), 8, 2, 1},
    {"C5-03 1 and CR LF in VERSION", 2, T(D "\"1\r\n\";3\n"), 20, 2, 1},
    {"C5-03 a break in DEPOT_NR", 2, T(D "1;\"3\n\"\n"), 8, 2, 2},
    /* Carriage returns */
    {"C5-03 CR in quotes", 3, T(S "1;20;\"a\rb\"\n"), 6, 2, 3},
    {"C5-03 two CRs and a line feed in quotes", 3, T(S "1;20;\"a\r\r\nb\"\n"), 6, 2, 3},
    {"C5-03 CR before the closing quote", 3, T(S "1;20;\"a\n\r\"\n"), 6, 2, 3},
    {"C5-03 CR, and the line feed behind the quote", 3, T(S "1;20;\"a\r\"\n1;31;a\n"), 6, 2, 3},
    {"a tab beside a break", 3, T(S "1;20;\"a\n\t\"\n"), 6, 2, 3},
    {"byte 127 behind a break", 3, T(S "1;20;\"a\r\n\x7F\"\n"), 6, 2, 3},
    {"byte 11 is no break", 3, T(S "1;20;\"a\x0B" "b\"\n"), 6, 2, 3},
    /* Where a row ends */
    {"C5-02 a quote inside a cell opens nothing", 3, T(S "1;20;a\"b\n1;31;c\"\n"), 6, 2, 3},
    {"C5-02 nor one behind a closed cell", 3, T(S "1;20;\"a\"b\"c\n1;31;\"\n"), 6, 2, 3},
    {"C5-02 a break in unquoted cells ends the row", 3, T(S "1;20;a\nb\n"), 7, 3, 0},
    {"C5-02 behind the closing quote it ends the row", 2, T("VERSION;DEPOT_NR;X\n1;3;\"a\nb\"\nx;4;\n"), 8, 4, 1},
    {"C5-07 an unclosed quote", 3, T(S "1;20;\"a\n1;31;b\n"), 6, 2, 3},
    {"C5-07 an unclosed quote behind a faulty cell", 2, T(D "a\"b;\"3\n1;4\n"), 6, 2, 1},
    {"C5-07 closed by a later row's quote", 3, T(S "1;20;\"a\n1;31;\"b\"\n"), 6, 2, 3},
    {"C5-07 a quote and a line feed", 2, T(D "\"\n"), 6, 2, 1},
    {"C5-07 doubled at the text's end", 3, T(S "1;20;\"a\"\""), 6, 2, 3},
    /* Lines are counted by all line feeds */
    {"C5-04 7 in the row behind a break", 3, T(S "1;20;\"a\nb\"\n1;31\n"), 7, 4, 0},
    {"C5-04 9 behind three breaks", 3, T(S "1;20;\"\n\r\n\n\"\n1;20;a\n"), 9, 6, 0},
    {"C5-04 20 on the line that the row starts on", 1, T(V "VEH_TYPE_TEXT;STR_VEH_TYPE\n1;4;\"a\nb\";abcde\n"), 20, 2, 7},
    {"C5-04 6 in a cell behind a break", 1, T(V "VEH_TYPE_TEXT;STR_VEH_TYPE\n1;4;;\n1;7;\"a\nb\";\"a\"b\n"), 6, 3, 4},
    {"C5-04 a blank line behind a break", 3, T(S "1;20;\"a\nb\"\n\n"), 7, 4, 0},
    {"C5-04 10 on the last of three rows", 4,
        T("X;" BLOCK_HEADER "\"\n\";" BLOCK_101 "\"\n\n\";" BLOCK_102 ";1;6;3;101;5;20;1;80000;20;1;90000\n"), 10, 7, 5},
    {"C5-04 11 in a row with a break", 4, T("X;" BLOCK_HEADER "\"a\r\nb\";1;5;3;101;4;20;1;86400;31;2;86399\n"), 11, 2, 11},
    /* The header */
    {"C5-04 a header of two lines", 2, T("VERSION;\"a\nb\";DEPOT_NR\n1;;3\n"), 0, 0, 0},
    {"C5-04 the first row is on line 3", 2, T("VERSION;\"a\nb\";DEPOT_NR\n1;;x\n"), 8, 3, 2},
    {"C5-04 the first row is on line 4", 2, T("\"\r\n\";VERSION;DEPOT_NR;\"\n\"\n;1;3\n"), 7, 4, 0},
    {"a name with a break is another name", 2, T("\"VERSION\n\";DEPOT_NR\n1;3\n"), 2, 1, 1},
    {"a header's 2 behind its break", 2, T("VERSION;\"a\nDEPOT_NR\"\n1;3\n"), 2, 1, 2},
    {"a header's 6 behind its break", 2, T("VERSION;\"a\nb\";DEPOT\"_NR\n1;3\n"), 6, 1, 3},
    {"a header's 3 behind its break", 2, T("VERSION;\"a\nb\";DEPOT_NR;VERSION\n1;;3;1\n"), 3, 1, 1},
    {"C5-07 a header's unclosed quote", 2, T("VERSION;\"DEPOT_NR\n1;3\n"), 6, 1, 2},
    {"CR in a header's quotes", 2, T("VERSION;DEPOT_NR;\"\r\"\n1;3;\n"), 6, 1, 3},
};

/* ---- Slips on the whole case */

struct slip_edge {
    const char *words;
    struct text slip;
    uint64_t number, line, column;
    const char *rows; /* the rows that are written afterwards */
};

#define WHOLE_SLIP "R\t1\t5\t3\t102\t4\t31\t2\t21600\t20\t1\t25200\nD\t1\t6\t3\t101\n"
#define D_101 "D\t1\t5\t3\t101\n"
#define D_102 "D\t1\t5\t3\t102\n"
#define D_6_101 "D\t1\t6\t3\t101\n"
#define A_REST "\t7\t20\t1\t0\t31\t2\t999999\n"
#define A_101 "A\t1\t5\t3\t101" A_REST
#define R_101 "R\t1\t5\t3\t101" A_REST
#define ROW_101_NEW "1;5;3;101;7;20;1;0;31;2;999999\n"
#define A_103 "A\t1\t5\t3\t103" A_REST

static const struct slip_edge slip_edges[] = {
    {"whole case's slip", T(WHOLE_SLIP), 0, 0, 0, BLOCK_101 "1;5;3;102;4;31;2;21600;20;1;25200\n"},
    {"A-38 empty slip", T(""), 0, 0, 0, BLOCK_ROWS},
    {"A-38 blank line", T("\n"), 12, 1, 0, BLOCK_ROWS},
    {"A-38 blank line behind", T(D_101 "\n"), 12, 2, 0, BLOCK_ROWS},
    {"last line without line feed", T("D\t1\t5\t3\t101"), 0, 0, 0, BLOCK_102 BLOCK_6_101},
    {"A-39 CR", T("D\t1\t5\t3\t101\r\n"), 8, 1, 4, BLOCK_ROWS},
    {"A-39 CR in column 11", T("R\t1\t5\t3\t101\t7\t20\t0\t0\t20\t99\t1\r\n"), 8, 1, 11, BLOCK_ROWS},
    {"A-39 lone CR", T("\r\n"), 12, 1, 0, BLOCK_ROWS},
    {"A-39 CR behind the kind", T("D\r\n"), 12, 1, 0, BLOCK_ROWS},
    {"A-39 CR behind the kind, five fields", T("D\r\t1\t5\t3\t101\n"), 12, 1, 0, BLOCK_ROWS},
    {"A-40 trailing tab", T("D\t1\t5\t3\t101\t\n"), 12, 1, 0, BLOCK_ROWS},
    {"A-40 A with 11 fields", T("A\t1\t5\t3\t103\t7\t20\t0\t0\t20\t99\n"), 12, 1, 0, BLOCK_ROWS},
    {"A-40 R with 13 fields", T("R\t1\t5\t3\t101\t7\t20\t0\t0\t20\t99\t1\t1\n"), 12, 1, 0, BLOCK_ROWS},
    {"A-40 D with 12 fields", T("D\t1\t5\t3\t101\t7\t20\t0\t0\t20\t99\t1\n"), 12, 1, 0, BLOCK_ROWS},
    {"A-40 D alone", T("D\n"), 12, 1, 0, BLOCK_ROWS},
    {"A-40 a", T("a\t1\t5\t3\t103" A_REST), 12, 1, 0, BLOCK_ROWS},
    {"A-40 AA", T("AA\t1\t5\t3\t103" A_REST), 12, 1, 0, BLOCK_ROWS},
    {"A-40 blank A", T(" A\t1\t5\t3\t103" A_REST), 12, 1, 0, BLOCK_ROWS},
    {"A-40 quoted A", T("\"A\"\t1\t5\t3\t103" A_REST), 12, 1, 0, BLOCK_ROWS},
    {"A-40 no kind", T("\t1\t5\t3\t101\n"), 12, 1, 0, BLOCK_ROWS},
    {"semicolons", T("D;1;5;3;101\n"), 12, 1, 0, BLOCK_ROWS},
    {"A-42 fields count from the one behind the kind", T("A\tx\tx\tx\tx\tx\tx\tx\tx\tx\tx\tx\n"), 8, 1, 1, BLOCK_ROWS},
    {"A-42 column 8", T("A\t1\t5\t3\t103\t7\t20\t0\tx\t20\t99\t1\n"), 8, 1, 8, BLOCK_ROWS},
    {"A: 20 before 11", T("A\t1\t5\t3\t103\t7\t20\t0\t86400\t20\t999\t0\n"), 20, 1, 10, BLOCK_ROWS},
    {"A: 11 before 9", T("A\t1\t5\t3\t101\t7\t20\t0\t86400\t20\t99\t0\n"), 11, 1, 11, BLOCK_ROWS},
    {"C2-01 A: 9 where 11 was", T("A\t1\t5\t3\t101\t7\t20\t0\t1\t20\t99\t0\n"), 9, 1, 0, BLOCK_ROWS},
    {"A: 9 before 10", T("A\t1\t5\t3\t101\t8\t20\t0\t1\t20\t99\t1\n"), 9, 1, 0, BLOCK_ROWS},
    {"A: 10 at column 3 first", T("A\t1\t5\t4\t101\t8\t99\t0\t1\t99\t99\t1\n"), 10, 1, 3, BLOCK_ROWS},
    {"A: 10 at column 5", T("A\t1\t5\t3\t103\t8\t99\t0\t1\t99\t99\t1\n"), 10, 1, 5, BLOCK_ROWS},
    {"C1-06 A: 10 at column 7", T("A\t1\t5\t3\t103\t7\t20\t0\t1\t31\t2\t1\n"), 10, 1, 7, BLOCK_ROWS},
    {"C1-06 A: 10 at column 7 before 9", T("A\t1\t5\t3\t103\t7\t20\t0\t1\t99\t99\t1\n"), 10, 1, 7, BLOCK_ROWS},
    {"C1-06 A: 10 at column 10", T("A\t1\t5\t3\t103\t7\t20\t1\t1\t20\t2\t1\n"), 10, 1, 10, BLOCK_ROWS},
    {"C1-06 A: 9 before 10 at column 7", T("A\t1\t5\t3\t101\t7\t20\t0\t1\t20\t1\t1\n"), 9, 1, 0, BLOCK_ROWS},
    {"A: DEP_STOP_NR of 7 digits", T("A\t1\t5\t3\t103\t7\t0000020\t0\t1\t20\t99\t1\n"), 20, 1, 6, BLOCK_ROWS},
    {"R: 11 before 13", T("R\t1\t5\t3\t103\t7\t20\t0\t86400\t20\t99\t0\n"), 11, 1, 11, BLOCK_ROWS},
    {"C2-01 R: 13 where 11 was", T("R\t1\t5\t3\t103\t7\t20\t0\t1\t20\t99\t0\n"), 13, 1, 0, BLOCK_ROWS},
    {"C2-03 A and R into the next day",
        T("A\t1\t5\t3\t103\t7\t20\t1\t86399\t31\t2\t0\nR\t1\t5\t3\t102\t7\t31\t2\t80000\t20\t1\t3600\n"), 0, 0, 0,
        BLOCK_101 "1;5;3;102;7;31;2;80000;20;1;3600\n1;5;3;103;7;20;1;86399;31;2;0\n" BLOCK_6_101},
    {"R: 13 before 10", T("R\t1\t5\t3\t103\t8\t20\t0\t1\t20\t99\t1\n"), 13, 1, 0, BLOCK_ROWS},
    {"R: unknown version is 13", T("R\t2\t5\t3\t101\t4\t20\t0\t1\t20\t99\t1\n"), 13, 1, 0, BLOCK_ROWS},
    {"A-43 R: 10 at column 5", T("R\t1\t5\t3\t101\t8\t99\t0\t1\t99\t99\t1\n"), 10, 1, 5, BLOCK_ROWS},
    {"A-43 R: 10 at column 6", T("R\t1\t5\t3\t101\t4\t99\t0\t1\t99\t99\t1\n"), 10, 1, 6, BLOCK_ROWS},
    {"A-43 R: 10 at column 9", T("R\t1\t5\t3\t101\t4\t20\t1\t1\t99\t99\t1\n"), 10, 1, 9, BLOCK_ROWS},
    {"A-43 R: 10 at column 7", T("R\t1\t5\t3\t101\t4\t31\t1\t1\t20\t1\t1\n"), 10, 1, 7, BLOCK_ROWS},
    {"A-43 R: 10 at column 10", T("R\t1\t5\t3\t101\t4\t31\t2\t1\t31\t1\t1\n"), 10, 1, 10, BLOCK_ROWS},
    {"A-43 R: 13 before 10 at column 7", T("R\t1\t5\t3\t103\t4\t31\t1\t1\t20\t1\t1\n"), 13, 1, 0, BLOCK_ROWS},
    {"D: 8 before 13", T("D\t1\t5\t3\tx\n"), 8, 1, 4, BLOCK_ROWS},
    {"D: 13", T("D\t1\t5\t3\t103\n"), 13, 1, 0, BLOCK_ROWS},
    {"D: version 0", T("D\t0\t0\t0\t0\n"), 21, 1, 1, BLOCK_ROWS},
    {"A-45 delete, then add the same", T(D_101 A_101), 0, 0, 0, ROW_101_NEW BLOCK_102 BLOCK_6_101},
    {"A-45 delete, then replace", T(D_101 R_101), 13, 2, 0, BLOCK_ROWS},
    {"A-45 delete twice", T(D_101 D_101), 13, 2, 0, BLOCK_ROWS},
    {"A-45 add twice", T(A_103 A_103), 9, 2, 0, BLOCK_ROWS},
    {"A-45 add, then replace it", T(A_103 "R\t01\t5\t3\t00000103\t4\t31\t02\t2\t20\t1\t4\n"), 0, 0, 0,
        BLOCK_101 BLOCK_102 "1;5;3;103;4;31;2;2;20;1;4\n" BLOCK_6_101},
    {"A-45 add, then delete it", T(A_103 "D\t1\t5\t3\t103\n"), 0, 0, 0, BLOCK_ROWS},
    {"a good line before a bad one", T(D_101 "x\n"), 12, 2, 0, BLOCK_ROWS},
    {"delete all", T(D_101 D_102 D_6_101), 0, 0, 0, ""},
    {"keys as numbers: 9 before 10", T("A\t1\t5\t3\t10" A_REST "A\t1\t5\t3\t9" A_REST), 0, 0, 0,
        "1;5;3;9;7;20;1;0;31;2;999999\n1;5;3;10;7;20;1;0;31;2;999999\n" BLOCK_ROWS},
    {"A-46 leading zeros", T("D\t01\t000000005\t00003\t00000101\n"), 0, 0, 0, BLOCK_102 BLOCK_6_101},
    {"A-46 one zero too many", T("D\t001\t5\t3\t101\n"), 20, 1, 1, BLOCK_ROWS},
    {"A-46 empty field", T("D\t1\t\t3\t101\n"), 19, 1, 2, BLOCK_ROWS},
    {"A-46 VERSION 0", T("A\t0\t5\t3\t103" A_REST), 21, 1, 1, BLOCK_ROWS},
    {"A-46 quotes", T("D\t\"1\"\t5\t3\t101\n"), 20, 1, 1, BLOCK_ROWS},
    {"A-46 quotes alone are no empty field", T("D\t\"\"\t5\t3\t101\n"), 8, 1, 1, BLOCK_ROWS},
    {"A-46 quotes within the width", T("D\t1\t\"5\"\t3\t101\n"), 8, 1, 2, BLOCK_ROWS},
    {"C4-03 46800 and CR in d6", T("R\t1\t5\t3\t101\t4\t20\t1\t18000\t31\t2\t46800\r\n"), 8, 1, 11, BLOCK_ROWS},
    {"C4-03 999999 and CR in d6", T("R\t1\t5\t3\t101\t4\t20\t1\t18000\t31\t2\t999999\r\n"), 20, 1, 11, BLOCK_ROWS},
    {"C4-03 999999 and CR at the slip's end", T("R\t1\t5\t3\t101\t4\t20\t1\t18000\t31\t2\t999999\r"), 20, 1, 11, BLOCK_ROWS},
    {"C4-03 101 and CR, no line feed", T("D\t1\t5\t3\t101\r"), 8, 1, 4, BLOCK_ROWS},
    {"C4-03 00000101 and CR in d8", T("D\t1\t5\t3\t00000101\r\n"), 20, 1, 4, BLOCK_ROWS},
    {"C4-03 1 and CR in d2", T("D\t1\r\t5\t3\t101\n"), 8, 1, 1, BLOCK_ROWS},
    {"C4-03 01 and CR in d2", T("D\t01\r\t5\t3\t101\n"), 20, 1, 1, BLOCK_ROWS},
    {"C4-03 0 and CR: no digits, no range", T("D\t0\r\t5\t3\t101\n"), 8, 1, 1, BLOCK_ROWS},
    {"C4-03 CR alone is not empty", T("D\t1\t5\t3\t\r\n"), 8, 1, 4, BLOCK_ROWS},
    {"C4-03 CR before the digits", T("D\t1\t5\t\r3\t101\n"), 8, 1, 3, BLOCK_ROWS},
    {"C4-06 A: 12 before 19", T("A\t\t5\t3\t101\n"), 12, 1, 0, BLOCK_ROWS},
    {"C4-06 A: 19 before 11", T("A\t1\t5\t3\t103\t\t20\t1\t86400\t31\t2\t0\n"), 19, 1, 5, BLOCK_ROWS},
    {"C4-06 A: 21 before 9", T("A\t0\t5\t3\t101" A_REST), 21, 1, 1, BLOCK_ROWS},
    {"C4-06 A: 20 before 10", T("A\t1\t5\t4\t103\t007\t20\t1\t0\t31\t2\t1\n"), 20, 1, 5, BLOCK_ROWS},
    {"C4-06 R: 19 before 13", T("R\t1\t5\t3\t103\t7\t20\t1\t0\t31\t\t1\n"), 19, 1, 10, BLOCK_ROWS},
    {"C4-06 R: 20 in END before 11", T("R\t1\t5\t3\t101\t7\t20\t1\t86400\t31\t2\t0000000\n"), 20, 1, 11, BLOCK_ROWS},
    {"C4-06 D: 19 before 13", T("D\t1\t5\t\t999\n"), 19, 1, 3, BLOCK_ROWS},
    {"C4-06 D: 20 before 13", T("D\t1\t5\t3\t000000999\n"), 20, 1, 4, BLOCK_ROWS},
    {"C4-06 D: 21 before 13", T("D\t00\t5\t3\t999\n"), 21, 1, 1, BLOCK_ROWS},
    {"an earlier 13 before a later 20", T("D\t1\t5\t3\t999\nD\t001\t5\t3\t101\n"), 13, 1, 0, BLOCK_ROWS},
    {"A-46 byte 0", T("D\t1\t5\t3\t101\0\n"), 8, 1, 4, BLOCK_ROWS},
    {"A-46 blank", T("D\t1\t5 \t3\t101\n"), 8, 1, 2, BLOCK_ROWS},
};

static const struct slip_edge slip_edges_21[] = {
    {"A: DEP_STOP_NR 100000", T("A\t1\t5\t3\t103\t7\t100000\t0\t1\t99\t99\t1\n"), 10, 1, 6, BLOCK_ROWS},
    {"A: 10 at column 9", T("A\t1\t5\t3\t103\t7\t20\t1\t1\t0\t99\t1\n"), 10, 1, 9, BLOCK_ROWS},
    {"C5-09 A: stops of six digits", T("A\t1\t5\t3\t103\t7\t000020\t1\t0\t000031\t2\t999999\n"), 0, 0, 0,
        BLOCK_101 BLOCK_102 "1;5;3;103;7;20;1;0;31;2;999999\n" BLOCK_6_101},
    {"C5-09 R: stop 0", T("R\t1\t5\t3\t101\t7\t0\t1\t0\t31\t2\t1\n"), 10, 1, 6, BLOCK_ROWS},
};

/* 5/13: "slips being judged by the delivery's edition" */
static const struct slip_edge slip_edges_23[] = {
    {"C5-09 A: DEP_STOP_NR 100000", T("A\t1\t5\t3\t103\t7\t100000\t0\t1\t99\t99\t1\n"), 20, 1, 6, BLOCK_ROWS},
    {"C5-09 A: DEP_STOP_NR 000020", T("A\t1\t5\t3\t103\t7\t000020\t1\t0\t31\t2\t1\n"), 20, 1, 6, BLOCK_ROWS},
    {"C5-09 A: DEP_STOP_NR 0", T("A\t1\t5\t3\t103\t7\t0\t1\t0\t31\t2\t1\n"), 21, 1, 6, BLOCK_ROWS},
    {"C5-09 A: DEP_STOP_NR 99999", T("A\t1\t5\t3\t103\t7\t99999\t1\t0\t31\t2\t1\n"), 10, 1, 6, BLOCK_ROWS},
    {"C5-09 A: 21 before 11", T("A\t1\t5\t3\t103\t7\t20\t1\t86400\t0\t2\t1\n"), 21, 1, 9, BLOCK_ROWS},
    {"C5-09 A: 20 before 9", T("A\t1\t5\t3\t101\t7\t20\t1\t0\t000031\t2\t1\n"), 20, 1, 9, BLOCK_ROWS},
    {"C5-09 R: 21 before 13", T("R\t1\t5\t3\t103\t7\t20\t1\t0\t00000\t2\t1\n"), 21, 1, 9, BLOCK_ROWS},
    {"C5-09 R: five digits", T("R\t1\t5\t3\t102\t4\t00031\t2\t21600\t00020\t1\t25200\n"), 0, 0, 0,
        BLOCK_101 "1;5;3;102;4;31;2;21600;20;1;25200\n" BLOCK_6_101},
    {"a quote on a slip opens nothing", T("D\t1\t5\t3\t\"101\n101\"\n"), 8, 1, 4, BLOCK_ROWS},
    {"a line that ends within quotes", T("\"D\n\"\n"), 12, 1, 0, BLOCK_ROWS},
};

/* ---- Cells */

struct cell_edge {
    const char *words;
    struct text text;
    uint64_t table, line, column;
    uint64_t number, at_line, at_column; /* the refusal's; the place's table is the asked one, 0 for 0 and 15 */
    uint64_t kind, value, start, length; /* the answer's */
};

#define C4 V "STR_VEH_TYPE\n" /* 33 bytes; with 1;4; before it a cell starts at 37 */
#define NOTHING 0, 0, 0, 0

static const struct cell_edge cell_edges[] = {
    {"07", T(D "07;3\n"), 2, 2, 1, 0, 0, 0, 1, 7, 0, 0},
    {"100", T(D "100;3\n"), 2, 2, 1, 20, 2, 1, NOTHING},
    {"empty and required", T(D ";3\n"), 2, 2, 1, 19, 2, 1, NOTHING},
    {"\"12\"", T(D "\"12\";3\n"), 2, 2, 1, 0, 0, 0, 1, 12, 0, 0},
    {"0", T(D "1;00\n"), 2, 2, 2, 0, 0, 0, 1, 0, 0, 0},
    {"a\"b", T(C4 "1;4;a\"b\n"), 1, 2, 7, 6, 2, 3, NOTHING},
    {"A-36 \"a\"\"b\"", T(C4 "1;4;\"a\"\"b\"\n"), 1, 2, 7, 0, 0, 0, 2, 0, 38, 4},
    {"\"a", T(C4 "1;4;\"a\n"), 1, 2, 7, 6, 2, 3, NOTHING},
    {"ab", T(C4 "1;4;ab\r\n"), 1, 2, 7, 0, 0, 0, 2, 0, 37, 2},
    {"five bytes in c4", T(C4 "1;4;abcde\n"), 1, 2, 7, 20, 2, 7, NOTHING},
    {"STOP_NR 0", T(S "1;0;a\n"), 3, 2, 2, 21, 2, 2, NOTHING},
    {"semicolon inside quotes", T(TYPES), 1, 2, 6, 0, 0, 0, 2, 0, 39, 15},
    {"C1-06 a point's version", T(POINTS), 6, 2, 1, 0, 0, 0, 1, 1, 0, 0},
    {"C1-06 a point's stop", T(POINTS), 6, 3, 2, 0, 0, 0, 1, 31, 0, 0},
    {"C1-06 a point's number", T(POINTS), 6, 3, 3, 0, 0, 0, 1, 2, 0, 0},
    {"C1-06 a point whose stop is nowhere", T(P "1;77;007\n1;77;\"07\"\n"), 6, 3, 3, 0, 0, 0, 1, 7, 0, 0},
    {"C1-06 a point's number of three digits", T(P "1;77;007\n"), 6, 2, 3, 20, 2, 3, NOTHING},
    {"C1-06 a point without stop", T(P "1;;7\n"), 6, 2, 2, 19, 2, 2, NOTHING},
    {"C1-06 stop_point has no column 4", T(POINTS), 6, 2, 4, 15, 0, 0, NOTHING},
    {"C1-06 header of stop_point", T("VERSION;STOP_NR\n"), 6, 2, 1, 2, 1, 3, NOTHING},
    {"doubled quotes of the whole case", T(TYPES), 1, 3, 6, 0, 0, 0, 2, 0, 61, 13},
    {"empty optional", T(C4 "1;4;\n"), 1, 2, 7, 0, 0, 0, NOTHING},
    {"empty optional in quotes", T(C4 "1;4;\"\"\n"), 1, 2, 7, 0, 0, 0, NOTHING},
    {"empty optional number", T(V "VEH_TYPE_SEATS\n1;4;\n"), 1, 2, 3, 0, 0, 0, NOTHING},
    {"the other spelling", T(V "HANDICAP_PLACES\n1;4;007\n"), 1, 2, 5, 0, 0, 0, 1, 7, 0, 0},
    {"A-33 missing optional", T(C4 "1;4;\n"), 1, 2, 3, 0, 0, 0, NOTHING},
    {"A-33 missing optional, 7", T(C4 "1;4\n"), 1, 2, 3, 7, 2, 0, NOTHING},
    {"A-33 missing optional, 6", T(C4 "1;4;\t\n"), 1, 2, 3, 6, 2, 3, NOTHING},
    {"A-32 table 0", T(D "1;3\n"), 0, 2, 1, 15, 0, 0, NOTHING},
    {"A-32 table 5", T(D "1;3\n"), 5, 2, 1, 15, 0, 0, NOTHING},
    {"C1-06 table 5 with stop points", T(POINTS), 5, 2, 1, 15, 0, 0, NOTHING},
    {"A-32 table 8", T(D "1;3\n"), 8, 2, 1, 15, 0, 0, NOTHING},
    {"a day's version", T(CALENDAR "01;20240229;7\n"), 7, 2, 1, 0, 0, 0, 1, 1, 0, 0},
    {"a day", T(CALENDAR "1;20240229;7\n"), 7, 2, 2, 0, 0, 0, 1, 20240229, 0, 0},
    {"a day in quotes, behind others", T(CALENDAR "x\n1;20240229;7\n1;\"20240229\";7\n"), 7, 4, 2, 0, 0, 0, 1, 20240229, 0, 0},
    {"a day's type", T(CALENDAR "1;20240230;000000007\n"), 7, 2, 3, 0, 0, 0, 1, 7, 0, 0},
    {"a day that is no date", T(CALENDAR "1;20230229;7\n"), 7, 2, 2, 21, 2, 2, NOTHING},
    {"a day of seven digits", T(CALENDAR "1;2024229;7\n"), 7, 2, 2, 21, 2, 2, NOTHING},
    {"a day of nine digits", T(CALENDAR "1;020240229;7\n"), 7, 2, 2, 20, 2, 2, NOTHING},
    {"an empty day", T(CALENDAR "1;\"\";7\n"), 7, 2, 2, 19, 2, 2, NOTHING},
    {"the calendar has no column 4", T(CALENDAR "1;20240229;7\n"), 7, 2, 4, 15, 0, 0, NOTHING},
    {"header of the calendar", T("VERSION;DAY_TYPE_NR\n"), 7, 2, 1, 2, 1, 2, NOTHING},
    {"table 7 of length 0", T(""), 7, 2, 1, 2, 1, 1, NOTHING},
    {"A-32 table 2^64 - 1", T(D "1;3\n"), UINT64_MAX, 2, 1, 15, 0, 0, NOTHING},
    {"A-32 column 0", T(D "1;3\n"), 2, 2, 0, 15, 0, 0, NOTHING},
    {"A-32 column 3 of depot", T(D "1;3\n"), 2, 2, 3, 15, 0, 0, NOTHING},
    {"A-32 column 12 of vehicle_block", T(BLOCKS), 4, 2, 12, 15, 0, 0, NOTHING},
    {"A-32 column 2^64 - 1", T(D "1;3\n"), 2, 2, UINT64_MAX, 15, 0, 0, NOTHING},
    {"A-32 column before header faults", T(""), 2, 2, 3, 15, 0, 0, NOTHING},
    {"A-32 line 0", T(D "1;3\n"), 2, 0, 1, 15, 0, 0, NOTHING},
    {"A-32 line 1", T(D "1;3\n"), 2, 1, 1, 15, 0, 0, NOTHING},
    {"A-32 line 3 of 2", T(D "1;3\n"), 2, 3, 1, 15, 0, 0, NOTHING},
    {"A-32 line 2^64 - 1", T(D "1;3\n"), 2, UINT64_MAX, 1, 15, 0, 0, NOTHING},
    {"A-32 header faults before the line", T("\n"), 2, 0, 1, 2, 1, 1, NOTHING},
    {"A-32 length 0", T(""), 2, 1, 1, 2, 1, 1, NOTHING},
    {"header's 6 for an unknown column", T("VERSION;DEPOT_NR;\"\n1;3;\n"), 2, 2, 1, 6, 1, 3, NOTHING},
    {"header's 3", T("VERSION;DEPOT_NR;DEPOT_NR\n1;3;3\n"), 2, 2, 1, 3, 1, 2, NOTHING},
    {"header's 4", T("VERSION;DEPOT_NR;" TEN_CELLS TEN_CELLS TEN_CELLS "\n1;3\n"), 2, 2, 1, 4, 1, 0, NOTHING},
    {"8 of another cell of the line", T(D "x;3\n"), 2, 2, 2, 0, 0, 0, 1, 3, 0, 0},
    {"blank line", T(D "1;3\n\n"), 2, 3, 1, 7, 3, 0, NOTHING},
    {"last line without line feed", T(D "1;3"), 2, 2, 2, 0, 0, 0, 1, 3, 0, 0},
    {"END below BEGIN, no reference", T(BLOCK_HEADER "1;5;9;101;9;9;1;86400;9;2;499\n"), 4, 2, 11, 0, 0, 0, 1, 499, 0, 0},
    {"a text that is asked as another table's", T(S "1;20;a\n"), 2, 2, 1, 2, 1, 2, NOTHING},
};

#define EQUIP V "VEH_TYPE_ACCESS_EQUIP\n"

static const struct cell_edge cell_edges_21[] = {
    {"ACCESS_EQUIP 2", T(V "VEH_TYPE_ACCESS_EQUIP\n1;4;2\n"), 1, 2, 11, 0, 0, 0, 3, 2, 0, 0},
    {"ACCESS_EQUIP 3", T(V "VEH_TYPE_ACCESS_EQUIP\n1;4;3\n"), 1, 2, 11, 21, 2, 11, NOTHING},
    {"DEP_STOP_NR 100000", T(BLOCK_HEADER "1;5;3;101;4;100000;1;18000;31;2;46800\n"), 4, 2, 6, 0, 0, 0, 1, 100000, 0, 0},
    {"A-34 faults of other rows", T(D "\"\nx;x\n1\n1;3\n1;3\n"), 2, 6, 2, 0, 0, 0, 1, 3, 0, 0},
    {"C5-06 ACCESS_EQUIP 0", T(EQUIP "1;4;0\n"), 1, 2, 11, 0, 0, 0, 3, 0, 0, 0},
    {"C5-06 ACCESS_EQUIP \"1\"", T(EQUIP "1;4;\"1\"\n"), 1, 2, 11, 0, 0, 0, 3, 1, 0, 0},
    {"C5-06 ACCESS_EQUIP empty", T(EQUIP "1;4;\n"), 1, 2, 11, 0, 0, 0, NOTHING},
    {"C5-06 no ACCESS_EQUIP", T(V "\n1;4;\n"), 1, 2, 11, 0, 0, 0, NOTHING},
    {"C5-06 column 11 of a block is a number", T(BLOCKS), 4, 2, 11, 0, 0, 0, 1, 46800, 0, 0},
    {"C5-08 column 12 of vehicle_type", T(V "VEH_DELFI_TYPE\n1;4;a\n"), 1, 2, 12, 15, 0, 0, NOTHING},
    {"C5-05 a break is the line's 6", T(S "1;20;\"a\nb\"\n1;31;c\n"), 3, 2, 1, 6, 2, 3, NOTHING},
    {"C5-05 and of the next line too", T(S "1;20;\"a\nb\"\n1;31;c\n"), 3, 3, 1, 6, 3, 1, NOTHING},
    {"C5-05 but not of the one behind", T(S "1;20;\"a\nb\"\n1;31;c\n"), 3, 4, 2, 0, 0, 0, 1, 31, 0, 0},
};

/* Two rows, on lines 2 and 5, the first with breaks on lines 2 and 3. */
#define BROKEN S "1;20;\"a\nb\r\nc\"\n1;31;\"d\"\n" /* 26 bytes of header, and 14 to line 5 */

static const struct cell_edge cell_edges_23[] = {
    {"C5-06 ACCESS_EQUIP 2", T(EQUIP "1;4;2\n"), 1, 2, 11, 0, 0, 0, 4, 2, 0, 0},
    {"C5-06 ACCESS_EQUIP 0", T(EQUIP "1;4;0\n"), 1, 2, 11, 0, 0, 0, 4, 0, 0, 0},
    {"C5-06 ACCESS_EQUIP \"7\"", T(EQUIP "1;4;\"7\"\n"), 1, 2, 11, 0, 0, 0, 4, 7, 0, 0},
    {"C5-06 ACCESS_EQUIP 8", T(EQUIP "1;4;8\n"), 1, 2, 11, 21, 2, 11, NOTHING},
    {"C5-06 ACCESS_EQUIP empty", T(EQUIP "1;4;\"\"\n"), 1, 2, 11, 0, 0, 0, NOTHING},
    {"C5-06 no ACCESS_EQUIP", T(V "\n1;4;\n"), 1, 2, 11, 0, 0, 0, NOTHING},
    {"C5-06 column 11 of a block is a number", T(BLOCKS), 4, 2, 11, 0, 0, 0, 1, 46800, 0, 0},
    {"C5-06 column 10 is a number", T(V "VEH_TYPE_HEIGHT\n1;4;2\n"), 1, 2, 10, 0, 0, 0, 1, 2, 0, 0},
    {"VEH_DELFI_TYPE", T(V "VEH_DELFI_TYPE\n1;4;a\n"), 1, 2, 12, 0, 0, 0, 2, 0, 39, 1},
    {"VEH_DELFI_TYPE of 11 bytes", T(V "VEH_DELFI_TYPE\n1;4;" TEN "x\n"), 1, 2, 12, 20, 2, 12, NOTHING},
    {"no VEH_DELFI_TYPE", T(V "\n1;4;\n"), 1, 2, 12, 0, 0, 0, NOTHING},
    {"vehicle_type has no column 13", T(V "\n1;4;\n"), 1, 2, 13, 15, 0, 0, NOTHING},
    {"C5-09 DEP_STOP_NR 100000", T(BLOCK_HEADER "1;5;3;101;4;100000;1;18000;31;2;46800\n"), 4, 2, 6, 20, 2, 6, NOTHING},
    {"C5-09 ARR_STOP_NR 0", T(BLOCK_HEADER "1;5;3;101;4;20;1;18000;0;2;46800\n"), 4, 2, 9, 21, 2, 9, NOTHING},
    {"C5-03 a text with breaks", T(BROKEN), 3, 2, 3, 0, 0, 0, 2, 0, 32, 6},
    {"C5-04 a row behind breaks", T(BROKEN), 3, 5, 3, 0, 0, 0, 2, 0, 46, 1},
    {"C5-04 its number", T(BROKEN), 3, 5, 2, 0, 0, 0, 1, 31, 0, 0},
    {"C5-05 the second line of a row", T(BROKEN), 3, 3, 3, 15, 0, 0, NOTHING},
    {"C5-05 the third line of a row", T(BROKEN), 3, 4, 3, 15, 0, 0, NOTHING},
    {"C5-05 behind the last row", T(BROKEN), 3, 6, 3, 15, 0, 0, NOTHING},
    {"C5-05 line 2^64 - 1", T(BROKEN), 3, UINT64_MAX, 3, 15, 0, 0, NOTHING},
    {"C5-05 line 1", T(BROKEN), 3, 1, 3, 15, 0, 0, NOTHING},
    {"C5-05 line 0", T(BROKEN), 3, 0, 3, 15, 0, 0, NOTHING},
    {"C5-05 the second line of the header", T("VERSION;\"a\nb\";DEPOT_NR\n1;;3\n"), 2, 2, 1, 15, 0, 0, NOTHING},
    {"C5-05 below a header of two lines", T("VERSION;\"a\nb\";DEPOT_NR\n1;;3\n"), 2, 3, 2, 0, 0, 0, 1, 3, 0, 0},
    {"C5-05 a 6 above, before the row's own answer", T(D "a\";3\n1;3\n"), 2, 3, 2, 6, 2, 1, NOTHING},
    {"C5-05 a 6 above, before the row's own 6", T(D "a\";3\n1;\"3\n"), 2, 3, 2, 6, 2, 1, NOTHING},
    {"C5-05 a 6 above, before the line's 15", T(D "1;a\"\n1;3\n"), 2, 4, 2, 6, 2, 2, NOTHING},
    {"C5-05 a 6 in the row that has the line in it", T(S "1;20;\"a\nb\"c\n1;31;d\n"), 3, 3, 2, 6, 2, 3, NOTHING},
    {"C5-05 a 6 in a later row does not matter", T(D "1;3\n1;\"\n"), 2, 2, 2, 0, 0, 0, 1, 3, 0, 0},
    {"C5-05 the first 6 above", T(D "1;3\n\r;3\na\";3\n1;3\n"), 2, 5, 2, 6, 3, 1, NOTHING},
    {"C5-05 a 6 below does not come before 15", T(S "1;20;\"a\nb\"\n1;\"31;c\n"), 3, 3, 2, 15, 0, 0, NOTHING},
    {"C5-05 faults of other kinds above", T(D "x;x\n1\n;3\n1;3\n1;3\n"), 2, 6, 2, 0, 0, 0, 1, 3, 0, 0},
    {"C5-05 a blank line above", T(D "\n1;3\n"), 2, 3, 2, 0, 0, 0, 1, 3, 0, 0},
    {"C5-05 an unclosed quote above", T(D "\"\nx;x\n1\n1;3\n1;3\n"), 2, 6, 2, 6, 2, 1, NOTHING},
    {"C5-05 line 1 comes before any row", T(D "\"\n1;3\n"), 2, 1, 2, 15, 0, 0, NOTHING},
    {"C5-05 the header's 2 before a row's 6", T("VERSION\n\"\n"), 2, 3, 1, 2, 1, 2, NOTHING},
    {"C5-05 the column's 15 before a row's 6", T(D "\"\n"), 2, 3, 3, 15, 0, 0, NOTHING},
    {"C5-03 a break in a number", T(D "1;\"3\n\"\n"), 2, 2, 2, 8, 2, 2, NOTHING},
    {"C5-03 a break too much in a number", T(D "\"1\r\n\";3\n"), 2, 2, 1, 20, 2, 1, NOTHING},
};

/* ---- Running them */

/* The first rows of the stop points, of the blocks and of the calendar in a book. */
enum { POINTS_AT = 1536, BLOCKS_AT = 2048, CALENDAR_AT = 2560 };

static row book[BOOK_ROWS + 1];
static row before[BOOK_ROWS + 1];
static row work[WORK_ROWS + 1];
static const row zeros[BOOK_ROWS];
static uint8_t out[65536];
static uint8_t big[LAST_TABLE + 1][70000]; /* by table number */

struct run {
    const struct side *side;
    size_t passed, failed;
};

static void tell(struct run *run, const char *words, int good)
{
    if (good) {
        run->passed++;
        return;
    }
    run->failed++;
    printf("edge failed on %s by %" PRIu64 ": %s\n", run->side->name, by(), words);
}

static int place_is(const uint64_t place[4], uint64_t number, uint64_t table, uint64_t line, uint64_t column)
{
    return place[0] == number && place[1] == table && place[2] == line && place[3] == column;
}

/* Whether a call answered this number at this place. */
static int answered(uint64_t answer, const uint64_t place[4], uint64_t number, uint64_t table, uint64_t line,
    uint64_t column)
{
    if (answer == number && place_is(place, number, number ? table : 0, line, column))
        return 1;
    printf("  %" PRIu64 " at %" PRIu64 ", %" PRIu64 ", %" PRIu64 ", %" PRIu64 "; by hand %" PRIu64 " at %" PRIu64
           ", %" PRIu64 ", %" PRIu64 ", %" PRIu64 "\n",
        answer, place[0], place[1], place[2], place[3], number, number, table, line, column);
    return 0;
}

/* Content that no call may rely on. */
static void fill(void *room, size_t length, uint8_t byte)
{
    memset(room, byte, length);
}

static int book_is(const row *expected)
{
    return memcmp(book, expected, BOOK_ROWS * sizeof book[0]) == 0;
}

static int work_is_zero(void)
{
    return memcmp(work, zeros, WORK_ROWS * sizeof work[0]) == 0;
}

/* Whether the row of marks has the edition and nothing else: 1 for 2.3, and 0 for 2.1 or after a refusal. */
static int marks_are(uint64_t mark)
{
    return book[MARKS][0] == mark && memcmp(book[MARKS] + 1, zeros, (NUMBERS - 1) * sizeof book[0][0]) == 0;
}

/* Reads a delivery into the book, over content that must not matter. */
static uint64_t read_into_book(const struct side *side, const struct text texts[TABLES], uint64_t place[4])
{
    fill(book, sizeof book, 0xA5);
    return side_read(side, by(), texts, book, BOOK_ROWS, place);
}

/* ---- By radio */

static uint64_t radio_kept[RADIO_KEPT + 1];
static uint8_t radio_lines[RADIO_LINES + 1];
static struct second_radio radio_own;

/* The book above and these, at their right lengths. */
static const struct radio lent_radio = {book, radio_kept, radio_lines, &radio_own, {BOOK_ROWS, RADIO_KEPT, RADIO_LINES}};

static int has_radio(const struct side *side)
{
    return side->radio_open != NULL;
}

static int open_radio(const struct side *side)
{
    uint64_t place[4];

    return answered(side->radio_open(by(), &lent_radio, place), place, 0, 0, 0, 0);
}

static int announce(const struct side *side, uint64_t length)
{
    uint64_t place[4];

    return answered(side->radio_announce(length, &lent_radio, place), place, 0, 0, 0, 0);
}

/* Sends a text: a first part, and the rest in parts of a size. */
static int send_parts(const struct side *side, struct text text, size_t first, size_t size)
{
    size_t length = first;
    size_t at;

    for (at = 0; at < text.length; at += length, length = size) {
        struct text part;
        uint64_t place[4];

        if (length > text.length - at)
            length = text.length - at;
        part.bytes = text.bytes + at;
        part.length = length;
        if (!answered(side->radio_part(part, &lent_radio, place), place, 0, 0, 0, 0))
            return 0;
    }
    return 1;
}

/* Sends a delivery, one of its tables cut into parts, and gives its verdict in place. */
static int send_delivery(const struct side *side, const struct text texts[TABLES], size_t cut, size_t first, size_t size,
    uint64_t place[4])
{
    int good;
    size_t i;

    fill(book, sizeof book, 0xA5);
    fill(radio_kept, sizeof radio_kept, 0xA5);
    fill(radio_lines, sizeof radio_lines, 0xA5);
    good = open_radio(side);
    for (i = 0; i < TABLES && good; i++) {
        good = announce(side, texts[i].length) && send_parts(side, texts[i], i == cut ? first : texts[i].length, size);
        side->radio_close(&lent_radio, place);
    }
    return good;
}

/* Whether a delivery is answered with this number at this place, whole and by radio, and leaves the same book both ways. By
 * radio one table is cut as it is said, and once none is. */
static int is_read(const struct side *side, const struct text texts[TABLES], size_t cut, size_t first, size_t size,
    uint64_t number, uint64_t table, uint64_t line, uint64_t column)
{
    uint64_t place[4] = {9, 9, 9, 9};
    uint64_t answer = read_into_book(side, texts, place);
    int good = answered(answer, place, number, table, line, column) && (number == 0 || book_is(zeros))
        && marks_are(number == 0 && edition == DINO_23);
    size_t way;

    memcpy(before, book, sizeof before);
    for (way = 0; way < 2 && has_radio(side); way++) {
        good = good && send_delivery(side, texts, way == 0 ? cut : TABLES, first, size, place);
        good = good && answered(place[0], place, number, table, line, column) && book_is((const row *)before);
    }
    return good;
}

static void run_reading(struct run *run, const struct reading_edge *edge)
{
    struct text texts[TABLES];
    uint64_t table = edge->table;

    memcpy(texts, whole_case, sizeof texts);
    texts[part_of(edge->table)] = edge->text;
    /* a reference that was taken away shows in the rows that refer: a stop point's in column 2, a block's never there */
    if (edge->number == 10)
        table = edge->column == 2 ? STOP_POINT : VEHICLE_BLOCK;
    tell(run, edge->words,
        is_read(run->side, texts, part_of(edge->table), 1, 1, edge->number, table, edge->line, edge->column));
}

/* Whether the book's blocks are written as the header and these rows. */
static int writes(const struct side *side, const char *rows)
{
    uint64_t place[4], length[1];
    size_t header = strlen(BLOCK_HEADER);
    size_t rest = strlen(rows);

    if (side->write((const row *)book, BOOK_ROWS, out, sizeof out, length, place) != 0)
        return 0;
    return length[0] == header + rest && memcmp(out, BLOCK_HEADER, header) == 0 && memcmp(out + header, rows, rest) == 0;
}

static uint64_t slip_on_book(const struct side *side, struct text slip, uint64_t place[4])
{
    fill(work, sizeof work, 0x5A);
    return side->slip(slip.bytes, slip.length, book, BOOK_ROWS, work, WORK_ROWS, place);
}

static void run_slip(struct run *run, const struct slip_edge *edge)
{
    uint64_t place[4] = {9, 9, 9, 9};
    uint64_t answer;
    int good;

    read_into_book(run->side, whole_case, place);
    answer = slip_on_book(run->side, edge->slip, place);
    good = answered(answer, place, edge->number, 5, edge->line, edge->column);
    tell(run, edge->words, good && work_is_zero() && writes(run->side, edge->rows) && marks_are(edition == DINO_23));
}

static void run_cell(struct run *run, const struct cell_edge *edge)
{
    uint64_t place[4] = {9, 9, 9, 9};
    uint64_t got[4] = {9, 9, 9, 9};
    uint64_t answer = run->side->cell(by(), edge->text.bytes, edge->text.length, edge->table, edge->line, edge->column, got,
        place);
    uint64_t table = edge->number == 15 ? 0 : edge->table;
    int good = answered(answer, place, edge->number, table, edge->at_line, edge->at_column);

    tell(run, edge->words,
        good && got[0] == edge->kind && got[1] == edge->value && got[2] == edge->start && got[3] == edge->length);
}

/* ---- Texts that are too long to be written out here */

/* A text that grows at its end. */
struct growing {
    uint8_t *bytes;
    size_t length;
};

static void put(struct growing *text, const char *words)
{
    size_t length = strlen(words);

    memcpy(text->bytes + text->length, words, length);
    text->length += length;
}

/* A number, with leading zeros up to a width. */
static void put_number(struct growing *text, uint64_t number, size_t width)
{
    char digits[21];
    size_t at = sizeof digits - 1;

    digits[at] = 0;
    while (number > 0 || width > 0 || at == sizeof digits - 1) {
        digits[--at] = (char)('0' + number % 10);
        number /= 10;
        width -= width > 0;
    }
    put(text, digits + at);
}

static struct text done(const struct growing *text)
{
    struct text t;

    t.bytes = text->bytes;
    t.length = text->length;
    return t;
}

/* A day for each number, from 20000102 on, by rising numbers: every month has 28 of them. */
static uint64_t day_numbered(uint64_t i)
{
    return (2000 + i / 336) * 10000 + (1 + i / 28 % 12) * 100 + 1 + i % 28;
}

/* Table t of `rows` rows, each with its number in the key. The first row of each other table is what the blocks refer to. */
static struct text long_table(unsigned t, uint64_t rows)
{
    static const struct {
        const char *header, *before, *behind;
    } shapes[LAST_TABLE + 1] = {
        [VEHICLE_TYPE] = {"VERSION;VEH_TYPE_NR\n", "1;", "\n"},
        [DEPOT] = {D, "1;", "\n"},
        [STOP] = {S, "1;", ";a\n"},
        [STOP_POINT] = {P, "1;", ";0\n"},
        [VEHICLE_BLOCK] = {BLOCK_HEADER, "1;5;1;", ";1;1;0;10;1;0;20\n"},
        [DAY_TYPE_CALENDAR] = {CALENDAR, "1;", ";5\n"},
    };
    struct growing text = {big[t], 0};
    uint64_t i;

    put(&text, shapes[t].header);
    for (i = 1; i <= rows; i++) {
        put(&text, shapes[t].before);
        put_number(&text, t == DAY_TYPE_CALENDAR ? day_numbered(i) : i, 0);
        put(&text, shapes[t].behind);
    }
    return done(&text);
}

/* The delivery with that many rows in table t and 512 in the others; but the calendar and the others have one row beside each
 * other, since nothing of one is in the other. */
static void long_delivery(struct text texts[TABLES], unsigned t, uint64_t rows)
{
    size_t i;

    for (i = 0; i < TABLES; i++) {
        int alone = t == DAY_TYPE_CALENDAR || reading_order[i] == DAY_TYPE_CALENDAR;

        texts[i] = long_table(reading_order[i], reading_order[i] == t ? rows : alone ? 1 : 512);
    }
}

/* Makes a text that long. */
static void fill_up(struct growing *text, size_t length)
{
    fill(text->bytes + text->length, length - text->length, 'x');
    text->length = length;
}

/* A depot text of exactly that many bytes, from depot 3 on, by long cells in an unknown column. */
static struct text padded_depots(size_t length)
{
    struct growing text = {big[DEPOT], 0};
    uint64_t depot;

    put(&text, "VERSION;DEPOT_NR;X\n");
    for (depot = 3; text.length < length; depot++) {
        size_t rest = length - text.length;
        size_t end = text.length + (rest > 2000 ? 1000 : rest);

        put(&text, "1;");
        put_number(&text, depot, 0);
        put(&text, ";");
        fill_up(&text, end - 1);
        put(&text, "\n");
    }
    return done(&text);
}

/* A slip of 1,024 lines of 64 bytes each that put a block of the whole case in its own place. */
static struct growing slip_of_65536(void)
{
    struct growing slip = {big[SLIP], 0};
    unsigned i;

    for (i = 0; i < 1024; i++)
        put(&slip, edition == DINO_21 ? "R\t01\t000000005\t00003\t00000101\t04\t000020\t1\t018000\t000031\t2\t46800\n"
                                      : "R\t01\t000000005\t00003\t00000101\t04\t00020\t01\t018000\t00031\t02\t46800\n");
    return slip;
}

/* How long texts are cut by radio. */
enum { LONG_PART = 777 };

/* What is said of row 512 and row 513 is tried on the calendar's rows 800 and 801. */
static void run_long_tables(struct run *run)
{
    const struct side *side = run->side;
    struct text texts[TABLES];
    size_t part;

    for (part = 0; part < TABLES; part++) {
        unsigned t = reading_order[part];
        size_t room = t == DAY_TYPE_CALENDAR ? 800 : 512;
        size_t last = t == DAY_TYPE_CALENDAR ? 3359 : 512 * part + 511;

        long_delivery(texts, t, room);
        tell(run, "512 rows", is_read(side, texts, part, 1, LONG_PART, 0, 0, 0, 0) && book[last][0] == 1);
        long_delivery(texts, t, room + 1);
        tell(run, "row 513", is_read(side, texts, part, 1, LONG_PART, 5, t, room + 2, 0));
        big[t][texts[part].length - 2] = '"';
        tell(run, "A-13 row 513 has a 6", is_read(side, texts, part, 1, LONG_PART, 5, t, room + 2, 0));
        texts[part].length -= strlen("1;513\n") - 1;
        tell(run, "A-13 row 513 is one byte", is_read(side, texts, part, 1, LONG_PART, 5, t, room + 2, 0));
        texts[part] = long_table(t, room);
        put(&(struct growing){big[t], texts[part].length}, "\n");
        texts[part].length++;
        tell(run, "A-13 row 513 is blank", is_read(side, texts, part, 1, LONG_PART, 5, t, room + 2, 0));
        texts[part].length--;
        fill_up(&(struct growing){big[t], texts[part].length}, texts[part].length + 2049);
        texts[part].length += 2049;
        tell(run, "C3-01 row 513 is too long", is_read(side, texts, part, 1, LONG_PART, 5, t, room + 2, 0));
        texts[part] = long_table(t, room - 1);
        fill_up(&(struct growing){big[t], texts[part].length}, texts[part].length + 2049);
        texts[part].length += 2049;
        tell(run, "C3-01 row 512 is too long", is_read(side, texts, part, 1, LONG_PART, 17, t, room + 1, 0));
    }
    long_delivery(texts, 2, 600);
    texts[1].length = 0;
    tell(run, "length 0 counts, not what stands behind", is_read(side, texts, 1, 1, 1, 2, 2, 1, 1));
    long_delivery(texts, 2, 512);
    put(&(struct growing){big[DEPOT], texts[1].length}, "1\n1;9999\n");
    texts[1].length += 9;
    tell(run, "A-13 row 513 has a 7", is_read(side, texts, 1, 1, LONG_PART, 5, 2, 514, 0));
    texts[1] = long_table(2, 511);
    put(&(struct growing){big[DEPOT], texts[1].length}, "1\n1;9999\n");
    texts[1].length += 9;
    tell(run, "A-13 a fault of row 512 before row 513", is_read(side, texts, 1, 1, LONG_PART, 7, 2, 513, 0));
}

static void run_long_texts(struct run *run)
{
    const struct side *side = run->side;
    struct text texts[TABLES];
    uint64_t place[4], answer;
    uint64_t got[4];
    struct growing slip;

    memcpy(texts, whole_case, sizeof texts);
    texts[1] = padded_depots(65536);
    tell(run, "A-06 65,536 bytes", is_read(side, texts, 1, 1, LONG_PART, 0, 0, 0, 0));
    texts[1] = padded_depots(65537);
    tell(run, "A-06 65,537 bytes", is_read(side, texts, 1, 1, LONG_PART, 1, 2, 0, 0));
    big[DEPOT][0] = '"';
    tell(run, "1 before the header's 6", is_read(side, texts, 1, 1, LONG_PART, 1, 2, 0, 0));
    answer = run->side->cell(by(), texts[1].bytes, texts[1].length, 2, 0, 1, got, place);
    tell(run, "cell: 1 before the header's 6 and the line's 15", answered(answer, place, 1, 2, 0, 0));
    answer = run->side->cell(by(), texts[1].bytes, texts[1].length, 2, 2, 3, got, place);
    tell(run, "cell: the column's 15 before 1", answered(answer, place, 15, 0, 0, 0));
    texts[0] = (struct text)T(V "VEH_TYPE_SEATS\n1;4;x\n");
    tell(run, "A-08 table 1's 8 before table 2's 1", is_read(side, texts, 0, 1, 1, 8, 1, 2, 3));
    texts[0] = long_table(1, 700);
    answer = run->side->cell(by(), texts[0].bytes, texts[0].length, 1, 600, 2, got, place);
    tell(run, "A-34 line 600 of 700 rows", answered(answer, place, 0, 0, 0, 0) && got[0] == 1 && got[1] == 599);

    read_into_book(run->side, whole_case, place);
    slip = slip_of_65536();
    answer = slip_on_book(run->side, done(&slip), place);
    tell(run, "A-44 a slip of 1,024 lines and 65,536 bytes",
        slip.length == 65536 && answered(answer, place, 0, 0, 0, 0) && work_is_zero() && writes(run->side, BLOCK_ROWS));
    put(&slip, "x");
    answer = slip_on_book(run->side, done(&slip), place);
    tell(run, "A-44 a slip of 65,537 bytes", answered(answer, place, 1, 5, 0, 0) && work_is_zero());
    slip.bytes[0] = 'x';
    slip.length--;
    answer = slip_on_book(run->side, done(&slip), place);
    tell(run, "line 1 of a long slip", answered(answer, place, 12, 5, 1, 0));
}

/* ---- A full book */

static void run_full_book(struct run *run)
{
    static const struct slip_edge full[] = {
        {"A-41 A on a full book", T("A\t1\t5\t1\t513\t1\t1\t0\t10\t1\t0\t20\n"), 5, 1, 0, NULL},
        {"A-41 5 before 8", T("A\tx\t5\t1\t513\t1\t1\t0\t10\t1\t0\t20\n"), 5, 1, 0, NULL},
        {"A-41 5 before 19", T("A\t\t5\t1\t513\t1\t1\t0\t10\t1\t0\t20\n"), 5, 1, 0, NULL},
        {"A-41 5 before 20", T("A\t001\t5\t1\t513\t1\t1\t0\t10\t1\t0\t20\n"), 5, 1, 0, NULL},
        {"A-41 5 before 21", T("A\t0\t5\t1\t513\t1\t1\t0\t10\t1\t0\t20\n"), 5, 1, 0, NULL},
        {"A-41 5 before 9", T("A\t1\t5\t1\t512\t1\t1\t0\t10\t1\t0\t20\n"), 5, 1, 0, NULL},
        {"A-41 12 before 5", T("A\t1\t5\t1\t513\t1\t1\t0\t10\t1\t0\n"), 12, 1, 0, NULL},
        {"A-45 room is used again", T("D\t1\t5\t1\t7\nA\t1\t5\t1\t513\t1\t1\t0\t10\t1\t0\t20\n"), 0, 0, 0, NULL},
        {"A-45 and then it is full again",
            T("D\t1\t5\t1\t7\nA\t1\t5\t1\t513\t1\t1\t0\t10\t1\t0\t20\nA\t1\t5\t1\t514\t1\t1\t0\t10\t1\t0\t20\n"), 5, 3, 0,
            NULL},
        {"R on a full book", T("R\t1\t5\t1\t512\t1\t1\t0\t10\t1\t0\t21\n"), 0, 0, 0, NULL},
    };
    struct text texts[TABLES];
    uint64_t place[4], answer, seven[7], sum[2];
    size_t i;

    long_delivery(texts, 1, 512);
    for (i = 0; i < sizeof full / sizeof full[0]; i++) {
        read_into_book(run->side, texts, place);
        memcpy(before, book, sizeof before);
        answer = slip_on_book(run->side, full[i].slip, place);
        tell(run, full[i].words,
            answered(answer, place, full[i].number, 5, full[i].line, full[i].column) && work_is_zero()
                && (full[i].number == 0) == (memcmp(before, book, sizeof before) != 0));
    }
    read_into_book(run->side, texts, place);
    slip_on_book(run->side, full[7].slip, place);
    answer = run->side->block((const row *)book, BOOK_ROWS, 1, 5, 1, 513, seven, place);
    tell(run, "the block that was added", answered(answer, place, 0, 0, 0, 0) && seven[3] == 10 && seven[6] == 20);
    answer = run->side->block((const row *)book, BOOK_ROWS, 1, 5, 1, 7, seven, place);
    tell(run, "the block that was deleted", answered(answer, place, 15, 0, 0, 0) && seven[3] == 0 && seven[6] == 0);
    answer = run->side->type((const row *)book, BOOK_ROWS, 1, 1, sum, place);
    tell(run, "512 blocks of one type", answered(answer, place, 0, 0, 0, 0) && sum[0] == 5120 && sum[1] == 512);
}

/* ---- Questions */

static int type_is(const struct side *side, uint64_t version, uint64_t number, uint64_t refusal, uint64_t seconds,
    uint64_t count)
{
    uint64_t place[4], sum[2] = {9, 9};
    uint64_t answer = side->type((const row *)book, BOOK_ROWS, version, number, sum, place);

    return answered(answer, place, refusal, 0, 0, 0) && sum[0] == seconds && sum[1] == count;
}

static void run_questions(struct run *run)
{
    static const uint64_t block_102[7] = {7, 31, 2, 21600, 20, 1, 25201};
    static const uint64_t nothing[7] = {0};
    static const struct text slip = T(WHOLE_SLIP);
    uint64_t place[4], seven[7], answer;

    read_into_book(run->side, whole_case, place);
    tell(run, "type 4 with an empty slip", type_is(run->side, 1, 4, 0, 38800, 2));
    tell(run, "type 7 with an empty slip", type_is(run->side, 1, 7, 0, 3601, 1));
    tell(run, "no type 5", type_is(run->side, 1, 5, 15, 0, 0));
    tell(run, "no type 4 of version 2", type_is(run->side, 2, 4, 15, 0, 0));
    tell(run, "no type 0 of version 0", type_is(run->side, 0, 0, 15, 0, 0));
    answer = run->side->block((const row *)book, BOOK_ROWS, 1, 5, 3, 102, seven, place);
    tell(run, "block 102", answered(answer, place, 0, 0, 0, 0) && memcmp(seven, block_102, sizeof seven) == 0);
    answer = run->side->block((const row *)book, BOOK_ROWS, 0, 0, 0, 0, seven, place);
    tell(run, "no block of zeros", answered(answer, place, 15, 0, 0, 0) && memcmp(seven, nothing, sizeof seven) == 0);
    answer = slip_on_book(run->side, slip, place);
    tell(run, "whole case: the slip", answered(answer, place, 0, 0, 0, 0));
    tell(run, "whole case: T 1 4 32400 2", type_is(run->side, 1, 4, 0, 32400, 2));
    tell(run, "whole case: T 1 7 0 0", type_is(run->side, 1, 7, 0, 0, 0));
    tell(run, "whole case: S 2 2",
        book[2][0] == 0 && book[1][0] != 0 && book[BLOCKS_AT + 2][0] == 0 && book[BLOCKS_AT + 1][0] != 0);
}

/* ---- Seasons */

/* Of the whole case: type 4 has 28,800 seconds on days of type 5 and 10,000 on days of type 6, type 7 has 3,601 on days of
 * type 5. Of version 1 there are three days of type 5, two of type 6 and one of type 7. */
#define SEASON CALENDAR "1;20240229;6\n2;20240101;5\n1;20240101;5\n1;20240102;6\n1;20241231;5\n1;20240103;7\n1;20240104;5\n"

struct season_edge {
    const char *words;
    uint64_t version, type, first, last;
    uint64_t number, seconds;
};

static const struct season_edge season_edges[] = {
    {"all days", 1, 4, 16000101, 99991231, 0, 3 * 28800 + 2 * 10000},
    {"all days of type 7", 1, 7, 16000101, 99991231, 0, 3 * 3601},
    {"the first day to the last", 1, 4, 20240101, 20241231, 0, 3 * 28800 + 2 * 10000},
    {"without the first day", 1, 4, 20240102, 20241231, 0, 2 * 28800 + 2 * 10000},
    {"without the last day", 1, 4, 20240101, 20241230, 0, 2 * 28800 + 2 * 10000},
    {"one day", 1, 4, 20240101, 20240101, 0, 28800},
    {"one day of the other type", 1, 4, 20240229, 20240229, 0, 10000},
    {"one day of another day type", 1, 4, 20240103, 20240103, 0, 0},
    {"one day that the calendar lacks", 1, 4, 20240105, 20240105, 0, 0},
    {"two days", 1, 4, 20240101, 20240102, 0, 38800},
    {"before the calendar", 1, 4, 16000101, 20231231, 0, 0},
    {"behind the calendar", 1, 4, 20250101, 99991231, 0, 0},
    {"the last before the first", 1, 4, 20240102, 20240101, 0, 0},
    {"the last long before the first", 1, 4, 99991231, 16000101, 0, 0},
    {"C7-06 29 February 2024", 1, 4, 20240229, 20240301, 0, 10000},
    {"C7-06 29 February 1600", 1, 4, 16000229, 20240101, 0, 28800},
    {"C7-06 first is 29 February 2023", 1, 4, 20230229, 20240101, 23, 0},
    {"C7-06 last is 30 February 2024", 1, 4, 20240101, 20240230, 23, 0},
    {"C7-06 first is 29 February 1700", 1, 4, 17000229, 20240101, 23, 0},
    {"C7-06 last is 29 February 1900", 1, 4, 16000101, 19000229, 23, 0},
    {"C7-06 first is of 1599", 1, 4, 15991231, 20240101, 23, 0},
    {"C7-06 last is of 10000", 1, 4, 20240101, 100000101, 23, 0},
    {"C7-06 first is 0", 1, 4, 0, 20240101, 23, 0},
    {"C7-06 last is 99999999", 1, 4, 20240101, 99999999, 23, 0},
    {"C7-06 last is 2^64 - 1", 1, 4, 20240101, UINT64_MAX, 23, 0},
    {"C7-06 first is 2^32 and a day", 1, 4, 4294967296u + 20240101, 20241231, 23, 0},
    {"C7-06 month 0", 1, 4, 20240001, 20241231, 23, 0},
    {"C7-06 month 13", 1, 4, 20240101, 20241301, 23, 0},
    {"C7-06 day 0", 1, 4, 20240100, 20241231, 23, 0},
    {"C7-06 day 32", 1, 4, 20240101, 20240132, 23, 0},
    {"C7-06 both are no dates", 1, 4, 0, 0, 23, 0},
    {"C7-06 no date, and the last before the first", 1, 4, 20240230, 20240101, 23, 0},
    {"C7-06 no date at the end, and before the first", 1, 4, 20240101, 20230229, 23, 0},
    {"C7-06 15 before 23", 1, 5, 0, 0, 15, 0},
    {"no type 5", 1, 5, 16000101, 99991231, 15, 0},
    {"C7-07 no type 4 of version 2", 2, 4, 16000101, 99991231, 15, 0},
    {"no type 0 of version 0", 0, 0, 16000101, 99991231, 15, 0},
};

static int season_is(const struct side *side, const struct season_edge *edge)
{
    uint64_t place[4], seconds[1] = {9};
    uint64_t answer = side->season((const row *)book, BOOK_ROWS, edge->version, edge->type, edge->first, edge->last, seconds,
        place);

    return answered(answer, place, edge->number, 0, 0, 0) && seconds[0] == edge->seconds;
}

/* The whole case with those days. */
static void season_case(struct text texts[TABLES])
{
    static const struct text season = T(SEASON);

    memcpy(texts, whole_case, TABLES * sizeof texts[0]);
    texts[part_of(DAY_TYPE_CALENDAR)] = season;
}

static void run_seasons(struct run *run)
{
    struct text texts[TABLES];
    uint64_t place[4];
    size_t i;

    season_case(texts);
    read_into_book(run->side, texts, place);
    memcpy(before, book, sizeof before);
    for (i = 0; i < sizeof season_edges / sizeof season_edges[0]; i++)
        tell(run, season_edges[i].words, season_is(run->side, &season_edges[i]));
    tell(run, "season questions leave the book as it is", memcmp(before, book, sizeof before) == 0);
}

/* The calendar in the book, after slips, and 16 before 15 and 23. */
static void run_days(struct run *run)
{
    static const uint64_t days[8][3] = {{1, 20240101, 5}, {1, 20240102, 6}, {1, 20240103, 7}, {1, 20240104, 5},
        {1, 20240229, 6}, {1, 20241231, 5}, {2, 20240101, 5}, {0}};
    static const struct season_edge after_slip[] = {
        {"type 4 after the slip", 1, 4, 16000101, 99991231, 0, 3 * (28800 + 3600)},
        {"type 7 after the slip", 1, 7, 16000101, 99991231, 0, 0},
        {"type 4 after the slip, one day", 1, 4, 20240101, 20240101, 0, 28800 + 3600},
    };
    static const struct season_edge into_next_day = {"a block into the next day", 1, 7, 20240103, 20240103, 0, 10000};
    static const struct season_edge broken = {"16 before 15 and 23", 1, 5, 0, 0, 16, 0};
    static const struct text slip = T(WHOLE_SLIP), night = T("A\t1\t7\t3\t103\t7\t20\t1\t80000\t31\t2\t3600\n");
    struct text texts[TABLES];
    uint64_t place[4], answer;
    int good;
    size_t i;

    season_case(texts);
    good = is_read(run->side, texts, part_of(DAY_TYPE_CALENDAR), 1, 1, 0, 0, 0, 0);
    for (i = 0; i < 8; i++)
        good = good && memcmp(book[CALENDAR_AT + i], days[i], sizeof days[i]) == 0
            && memcmp(book[CALENDAR_AT + i] + 3, zeros, 8 * sizeof book[0][0]) == 0;
    tell(run, "C7-08 days by rising key", good);
    answer = slip_on_book(run->side, slip, place);
    tell(run, "a slip on a book with days", answered(answer, place, 0, 0, 0, 0) && book[CALENDAR_AT][1] == 20240101);
    for (i = 0; i < 3; i++)
        tell(run, after_slip[i].words, season_is(run->side, &after_slip[i]));
    answer = slip_on_book(run->side, night, place);
    tell(run, into_next_day.words, answered(answer, place, 0, 0, 0, 0) && season_is(run->side, &into_next_day));
    book[CALENDAR_AT + 799][2] = 1;
    tell(run, broken.words, season_is(run->side, &broken));
}

/* ---- Hours */

/* Their bits are worked out by hand: the exact quotient or sum, rounded to the nearest binary64 number, or to the even one of
 * two. */
struct hours_edge {
    const char *words;
    size_t blocks;
    uint64_t seconds[3]; /* of each, by rising key */
    uint64_t quotient, clerk;
};

static const struct hours_edge hours_edges[] = {
    {"no blocks", 0, {0}, 0, 0},
    {"a block without seconds", 1, {0}, 0, 0},
    {"three blocks without seconds", 3, {0, 0, 0}, 0, 0},
    {"an hour", 1, {3600}, 0x3ff0000000000000, 0x3ff0000000000000},
    {"a sixteenth of an hour", 1, {225}, 0x3fb0000000000000, 0x3fb0000000000000},
    {"nine hours", 2, {28800, 3600}, 0x4022000000000000, 0x4022000000000000},
    {"exact ones", 3, {1800, 900, 450}, 0x3fec000000000000, 0x3fec000000000000},
    {"an hour and none", 2, {3600, 0}, 0x3ff0000000000000, 0x3ff0000000000000},
    {"one second, rounded up", 1, {1}, 0x3f323456789abcdf, 0x3f323456789abcdf},
    {"an hour and a second", 1, {3601}, 0x3ff00123456789ac, 0x3ff00123456789ac},
    {"10,000 seconds, rounded down", 1, {10000}, 0x400638e38e38e38e, 0x400638e38e38e38e},
    {"a second less than a day", 1, {86399}, 0x4037ffedcba98765, 0x4037ffedcba98765},
    {"999,999 seconds", 1, {999999}, 0x40715c70a3d70a3d, 0x40715c70a3d70a3d},
    {"three seconds, which are not three times a 3,600th", 1, {3}, 0x3f4b4e81b4e81b4f, 0x3f4b4e81b4e81b4f},
    {"five seconds, which are not a 60th of a 60th", 1, {5}, 0x3f56c16c16c16c17, 0x3f56c16c16c16c17},
    {"inexact ones whose sum is the quotient", 2, {28800, 10000}, 0x40258e38e38e38e4, 0x40258e38e38e38e4},
    {"the sum is below the quotient, a tie to even", 2, {1, 2}, 0x3f4b4e81b4e81b4f, 0x3f4b4e81b4e81b4e},
    {"the sum is above the quotient", 2, {1, 6}, 0x3f5fdb97530eca86, 0x3f5fdb97530eca87},
    {"a tie up to even", 2, {13, 26}, 0x3f862fc962fc9630, 0x3f862fc962fc9630},
    {"eight hours and an hour and a second", 2, {28800, 3601}, 0x4022002468acf135, 0x4022002468acf136},
    {"three of one second", 3, {1, 1, 1}, 0x3f4b4e81b4e81b4f, 0x3f4b4e81b4e81b4e},
    {"1, 2, 3", 3, {1, 2, 3}, 0x3f5b4e81b4e81b4f, 0x3f5b4e81b4e81b4e},
    {"1, 3, 2", 3, {1, 3, 2}, 0x3f5b4e81b4e81b4f, 0x3f5b4e81b4e81b4e},
    {"2, 3, 1: another order, other bits", 3, {2, 3, 1}, 0x3f5b4e81b4e81b4f, 0x3f5b4e81b4e81b4f},
    {"3, 2, 1: another order, other bits", 3, {3, 2, 1}, 0x3f5b4e81b4e81b4f, 0x3f5b4e81b4e81b4f},
};

/* Whether the hours of a type have these bits, and nothing stands behind them. */
static int hours_are(const struct side *side, size_t rows, uint64_t version, uint64_t type, uint64_t number,
    uint64_t quotient, uint64_t clerk)
{
    double hours[3];
    uint64_t bits[3], place[4], answer;

    fill(hours, sizeof hours, 0xA5);
    answer = side->hours((const row *)book, rows, version, type, hours, place);
    memcpy(bits, hours, sizeof bits);
    return answered(answer, place, number, 0, 0, 0) && bits[0] == quotient && bits[1] == clerk
        && bits[2] == 0xa5a5a5a5a5a5a5a5;
}

static int season_hours_are(const struct side *side, size_t rows, const struct season_edge *edge, uint64_t quotient)
{
    double hours[2];
    uint64_t bits[2], place[4], answer;

    fill(hours, sizeof hours, 0xA5);
    answer = side->season_hours((const row *)book, rows, edge->version, edge->type, edge->first, edge->last, hours, place);
    memcpy(bits, hours, sizeof bits);
    return answered(answer, place, edge->number, 0, 0, 0) && bits[0] == quotient && bits[1] == 0xa5a5a5a5a5a5a5a5;
}

/* Block number n of type 4, on days of type 5. */
static void set_block(size_t n, uint64_t seconds)
{
    static const uint64_t block[NUMBERS] = {1, 5, 3, 0, 4, 20, 1, 0, 31, 2, 0};

    memcpy(book[BLOCKS_AT + n], block, sizeof block);
    book[BLOCKS_AT + n][3] = n;
    book[BLOCKS_AT + n][10] = seconds;
}

/* The whole case's book without its blocks. */
static void begin_blocks(struct run *run)
{
    uint64_t place[4];

    read_into_book(run->side, whole_case, place);
    memset(book[BLOCKS_AT], 0, TABLE_ROWS * sizeof book[0]);
}

static void run_hours(struct run *run)
{
    size_t i, n;

    for (i = 0; i < sizeof hours_edges / sizeof hours_edges[0]; i++) {
        const struct hours_edge *edge = &hours_edges[i];

        begin_blocks(run);
        for (n = 0; n < edge->blocks; n++)
            set_block(n, edge->seconds[n]);
        memcpy(before, book, sizeof before);
        tell(run, edge->words, hours_are(run->side, BOOK_ROWS, 1, 4, 0, edge->quotient, edge->clerk));
        tell(run, "hours leave the book as it is", memcmp(before, book, sizeof before) == 0);
    }
    begin_blocks(run);
    for (n = 0; n < TABLE_ROWS; n++)
        set_block(n, 999999);
    tell(run, "512 blocks of 999,999 seconds",
        hours_are(run->side, BOOK_ROWS, 1, 4, 0, 0x41015c70a3d70a3d, 0x41015c70a3d70a0f));
    book[BLOCKS_AT + 511][10] = 2;
    tell(run, "511 of them, and then two seconds",
        hours_are(run->side, BOOK_ROWS, 1, 4, 0, 0x410153c26ca86420, 0x410153c26ca863f2));
    book[BLOCKS_AT + 511][10] = 999999;
    book[BLOCKS_AT][10] = 2;
    tell(run, "two seconds, and then 511 of them",
        hours_are(run->side, BOOK_ROWS, 1, 4, 0, 0x410153c26ca86420, 0x410153c26ca863f1));
    for (n = 0; n < TABLE_ROWS; n++)
        set_block(n, 1);
    tell(run, "512 blocks of one second",
        hours_are(run->side, BOOK_ROWS, 1, 4, 0, 0x3fc23456789abcdf, 0x3fc23456789abcd6));
}

/* "in rising key order": by version, day type, depot and block as numbers, wherever the rows stand in the text and whenever
 * they came into the book. The blocks have 1, 2 and 3 seconds, and the sum tells whether the one comes last. */
#define ONE_LAST 0x3f5b4e81b4e81b4f
#define ONE_SOONER 0x3f5b4e81b4e81b4e
#define BLOCK(key, type, seconds) "1;" key ";" type ";20;1;0;31;2;" seconds "\n"
#define LINE(kind, key, seconds) kind "\t1\t5\t3\t" key "\t4\t20\t1\t0\t31\t2\t" seconds "\n"

struct order_edge {
    const char *words;
    struct text text;
    uint64_t clerk;
};

static const struct order_edge text_orders[] = {
    {"rows by falling key", T(BLOCK_HEADER BLOCK("5;3;3", "4", "1") BLOCK("5;3;2", "4", "3") BLOCK("5;3;1", "4", "2")),
        ONE_LAST},
    {"block 10 behind blocks 8 and 9",
        T(BLOCK_HEADER BLOCK("5;3;10", "4", "1") BLOCK("5;3;8", "4", "2") BLOCK("5;3;9", "4", "3")), ONE_LAST},
    {"day type 6 behind day type 5",
        T(BLOCK_HEADER BLOCK("6;3;1", "4", "1") BLOCK("5;3;20", "4", "2") BLOCK("5;3;21", "4", "3")), ONE_LAST},
    {"a block of another type between them",
        T(BLOCK_HEADER BLOCK("5;3;1", "4", "2") BLOCK("5;3;2", "7", "1") BLOCK("5;3;3", "4", "3") BLOCK("5;3;4", "4", "1")),
        ONE_LAST},
    {"rows by rising key", T(BLOCK_HEADER BLOCK("5;3;1", "4", "1") BLOCK("5;3;2", "4", "2") BLOCK("5;3;3", "4", "3")),
        ONE_SOONER},
};

/* One behind the other, on the last of those. */
static const struct order_edge slip_orders[] = {
    {"a slip moves a block to the end", T("D\t1\t5\t3\t1\n" LINE("A", "4", "1")), ONE_LAST},
    {"the block that was added last comes first", T("D\t1\t5\t3\t4\n" LINE("A", "1", "1")), ONE_SOONER},
    {"blocks are replaced in their places", T(LINE("R", "3", "1") LINE("R", "1", "2") LINE("R", "2", "3")), ONE_LAST},
};

static void run_hours_order(struct run *run)
{
    struct text texts[TABLES];
    uint64_t place[4];
    size_t i;

    memcpy(texts, whole_case, sizeof texts);
    for (i = 0; i < sizeof text_orders / sizeof text_orders[0]; i++) {
        texts[part_of(VEHICLE_BLOCK)] = text_orders[i].text;
        read_into_book(run->side, texts, place);
        tell(run, text_orders[i].words,
            hours_are(run->side, BOOK_ROWS, 1, 4, 0, 0x3f5b4e81b4e81b4f, text_orders[i].clerk));
    }
    for (i = 0; i < sizeof slip_orders / sizeof slip_orders[0]; i++) {
        slip_on_book(run->side, slip_orders[i].text, place);
        tell(run, slip_orders[i].words,
            hours_are(run->side, BOOK_ROWS, 1, 4, 0, 0x3f5b4e81b4e81b4f, slip_orders[i].clerk));
    }
}

/* A type of the whole case's number in another version, and an hour's block of it. */
static void run_hours_of_versions(struct run *run)
{
    static const uint64_t block[NUMBERS] = {2, 5, 3, 101, 4, 20, 1, 0, 20, 1, 3600}, key[3] = {2, 20, 1};
    uint64_t place[4];

    read_into_book(run->side, whole_case, place);
    book[first_row(VEHICLE_TYPE) + 2][0] = 2;
    book[first_row(VEHICLE_TYPE) + 2][1] = 4;
    book[first_row(DEPOT) + 1][0] = 2;
    book[first_row(DEPOT) + 1][1] = 3;
    memcpy(book[first_row(STOP) + 2], key, 2 * sizeof key[0]);
    memcpy(book[POINTS_AT + 2], key, sizeof key);
    memcpy(book[BLOCKS_AT + 3], block, sizeof block);
    tell(run, "hours of version 1", hours_are(run->side, BOOK_ROWS, 1, 4, 0, 0x40258e38e38e38e4, 0x40258e38e38e38e4));
    tell(run, "hours of version 2", hours_are(run->side, BOOK_ROWS, 2, 4, 0, 0x3ff0000000000000, 0x3ff0000000000000));
}

/* The whole case, before and after its slip; 15 and 16. */
static void run_hours_asked(struct run *run)
{
    static const struct text slip = T(WHOLE_SLIP), night = T("A\t1\t7\t3\t103\t7\t20\t1\t80000\t31\t2\t3600\n");
    uint64_t place[4];

    read_into_book(run->side, whole_case, place);
    tell(run, "hours of type 4", hours_are(run->side, BOOK_ROWS, 1, 4, 0, 0x40258e38e38e38e4, 0x40258e38e38e38e4));
    tell(run, "hours of type 7", hours_are(run->side, BOOK_ROWS, 1, 7, 0, 0x3ff00123456789ac, 0x3ff00123456789ac));
    tell(run, "hours: no type 5", hours_are(run->side, BOOK_ROWS, 1, 5, 15, 0, 0));
    tell(run, "hours: no type 4 of version 2", hours_are(run->side, BOOK_ROWS, 2, 4, 15, 0, 0));
    tell(run, "hours: no type 0 of version 0", hours_are(run->side, BOOK_ROWS, 0, 0, 15, 0, 0));
    tell(run, "hours: no type 2^32 + 4", hours_are(run->side, BOOK_ROWS, 1, 4294967300u, 15, 0, 0));
    slip_on_book(run->side, slip, place);
    tell(run, "nine hours after the slip", hours_are(run->side, BOOK_ROWS, 1, 4, 0, 0x4022000000000000, 0x4022000000000000));
    tell(run, "no hours after the slip", hours_are(run->side, BOOK_ROWS, 1, 7, 0, 0, 0));
    slip_on_book(run->side, night, place);
    tell(run, "hours into the next day", hours_are(run->side, BOOK_ROWS, 1, 7, 0, 0x400638e38e38e38e, 0x400638e38e38e38e));
    book[BLOCKS_AT + 511][0] = 1;
    tell(run, "hours: 16", hours_are(run->side, BOOK_ROWS, 1, 4, 16, 0, 0));
    tell(run, "hours: 16 before 15", hours_are(run->side, BOOK_ROWS, 1, 5, 16, 0, 0));
}

struct season_hours_edge {
    struct season_edge season;
    uint64_t quotient;
};

static const struct season_hours_edge season_hours_edges[] = {
    {{"hours of all days", 1, 4, 16000101, 99991231, 0, 3 * 28800 + 2 * 10000}, 0x403d8e38e38e38e4},
    {{"hours of all days of type 7", 1, 7, 16000101, 99991231, 0, 3 * 3601}, 0x400801b4e81b4e82},
    {{"hours of the first day to the last", 1, 4, 20240101, 20241231, 0, 3 * 28800 + 2 * 10000}, 0x403d8e38e38e38e4},
    {{"hours without the first day", 1, 4, 20240102, 20241231, 0, 2 * 28800 + 2 * 10000}, 0x40358e38e38e38e4},
    {{"hours of one day", 1, 4, 20240101, 20240101, 0, 28800}, 0x4020000000000000},
    {{"hours of one day of the other type", 1, 4, 20240229, 20240229, 0, 10000}, 0x400638e38e38e38e},
    {{"hours of two days", 1, 4, 20240101, 20240102, 0, 38800}, 0x40258e38e38e38e4},
    {{"hours of a day that the calendar lacks", 1, 4, 20240105, 20240105, 0, 0}, 0},
    {{"hours where the last is before the first", 1, 4, 20240102, 20240101, 0, 0}, 0},
    {{"hours: first is 29 February 2023", 1, 4, 20230229, 20240101, 23, 0}, 0},
    {{"hours: last is 30 February 2024", 1, 4, 20240101, 20240230, 23, 0}, 0},
    {{"hours: no date, and the last before the first", 1, 4, 20240230, 20240101, 23, 0}, 0},
    {{"hours: 15 before 23", 1, 5, 0, 0, 15, 0}, 0},
    {{"hours: no type 4 of version 2", 2, 4, 16000101, 99991231, 15, 0}, 0},
};

/* "Calendar sums go by the first rule alone": one second on three days is not three rounded ones, nor are blocks of one second
 * and of two on one day their sum. */
static void run_season_hours(struct run *run)
{
    static const struct season_edge one_day = {"a season's blocks", 1, 4, 20240101, 20240101, 0, 3},
                                    three_days = {"a season's days", 1, 4, 20240101, 20241231, 0, 3},
                                    broken = {"hours: 16 before 15 and 23", 1, 5, 0, 0, 16, 0};
    struct text texts[TABLES];
    uint64_t place[4];
    size_t i;

    season_case(texts);
    read_into_book(run->side, texts, place);
    memcpy(before, book, sizeof before);
    for (i = 0; i < sizeof season_hours_edges / sizeof season_hours_edges[0]; i++) {
        const struct season_hours_edge *edge = &season_hours_edges[i];

        tell(run, edge->season.words,
            season_is(run->side, &edge->season) && season_hours_are(run->side, BOOK_ROWS, &edge->season, edge->quotient));
    }
    tell(run, "a season's hours leave the book as it is", memcmp(before, book, sizeof before) == 0);
    memset(book[BLOCKS_AT], 0, TABLE_ROWS * sizeof book[0]);
    set_block(0, 1);
    tell(run, three_days.words,
        season_is(run->side, &three_days) && season_hours_are(run->side, BOOK_ROWS, &three_days, 0x3f4b4e81b4e81b4f));
    set_block(1, 2);
    tell(run, one_day.words,
        season_is(run->side, &one_day) && season_hours_are(run->side, BOOK_ROWS, &one_day, 0x3f4b4e81b4e81b4f));
    book[CALENDAR_AT + 799][2] = 1;
    tell(run, broken.words, season_hours_are(run->side, BOOK_ROWS, &broken, 0));
}

/* 512 blocks of 999,999 seconds on 800 days. */
static void run_greatest_season(struct run *run)
{
    static const struct season_edge greatest = {"the greatest season", 1, 4, 16000101, 99991231, 0, 409599590400u};
    static const struct season_edge half = {"half of it", 1, 4, 16000101, 20010308, 0, 204799795200u};
    size_t i;

    begin_blocks(run);
    for (i = 0; i < TABLE_ROWS; i++)
        set_block(i, 999999);
    for (i = 0; i < 800; i++) {
        book[CALENDAR_AT + i][0] = 1;
        book[CALENDAR_AT + i][1] = day_numbered(i);
        book[CALENDAR_AT + i][2] = 5;
    }
    tell(run, greatest.words, season_is(run->side, &greatest));
    tell(run, "its hours", season_hours_are(run->side, BOOK_ROWS, &greatest, 0x419b207000000000));
    tell(run, half.words, day_numbered(399) == half.last && season_is(run->side, &half));
    book[CALENDAR_AT + 799][2] = 6;
    tell(run, "the hours of 799 days", season_hours_are(run->side, BOOK_ROWS, &greatest, 0x419b17c1c7ae147b));
}

/* 7/13: "read last": every fault of a block comes before one of the calendar. */
static void run_calendar_last(struct run *run)
{
    static const struct text faulty = T(BLOCK_HEADER BLOCK_101 "1;5;9;102;7;31;2;21600;20;1;25201\n"), nothing = T(""),
                             no_date = T(CALENDAR "1;20230229;5\n"), no_header = T("VERSION;DAY\n");
    struct text texts[TABLES];

    memcpy(texts, whole_case, sizeof texts);
    texts[4] = faulty;
    texts[5] = nothing;
    tell(run, "C7-01 a block's 10 before a calendar of length 0", is_read(run->side, texts, 5, 1, 1, 10, 4, 3, 3));
    texts[5] = no_date;
    tell(run, "C7-01 a block's 10 before a day's 21", is_read(run->side, texts, 5, 1, 1, 10, 4, 3, 3));
    texts[4] = nothing;
    texts[5] = no_header;
    tell(run, "C7-01 the blocks' 2 before the calendar's 2", is_read(run->side, texts, 5, 1, 1, 2, 4, 1, 1));
    texts[4] = whole_case[4];
    tell(run, "C7-01 the calendar's 2", is_read(run->side, texts, 5, 1, 1, 2, 7, 1, 3));
    texts[5] = no_date;
    tell(run, "C7-01 a day's 21", is_read(run->side, texts, 5, 1, 1, 21, 7, 2, 2));
}

/* ---- The writer */

static void run_writer(struct run *run)
{
    struct text texts[TABLES];
    uint64_t place[4], answer, length[1];
    size_t exact = strlen(BLOCKS);
    size_t i;

    read_into_book(run->side, whole_case, place);
    tell(run, "the whole case is written as it came", writes(run->side, BLOCK_ROWS));
    fill(out, sizeof out, 0xEE);
    answer = run->side->write((const row *)book, BOOK_ROWS, out, exact - 1, length, place);
    for (i = 0; i < sizeof out && out[i] == 0xEE; i++)
        ;
    tell(run, "an output one byte short", answered(answer, place, 14, 0, 0, 0) && length[0] == 0 && i == sizeof out);
    answer = run->side->write((const row *)book, BOOK_ROWS, out, exact, length, place);
    tell(run, "an output of exact length",
        answered(answer, place, 0, 0, 0, 0) && length[0] == exact && memcmp(out, BLOCKS, exact) == 0 && out[exact] == 0xEE);
    answer = run->side->write((const row *)book, BOOK_ROWS - 1, out, 0, length, place);
    tell(run, "16 before 14", answered(answer, place, 16, 0, 0, 0) && length[0] == 0);
    memset(book, 0, sizeof book);
    tell(run, "A-47 an empty book", writes(run->side, ""));
    memcpy(texts, whole_case, sizeof texts);
    texts[4] = (struct text)T("END_OF_BLOCK;VEH_TYPE_NR;BLOCK_NR;DEPOT_NR;DAY_TYPE_NR;VERSION;X;BEGIN_OF_BLOCK;ARR_STOP_NR;"
                              "\"DEP_STOP_NR\";DEP_STOPPING_POINT_NR;ARR_STOPPING_POINT_NR\r\n"
                              "00009;04;10;3;5;\"01\";;7;20;31;02;01\r\n8;07;9;3;5;1;\"\"\"\";7;20;31;2;1");
    read_into_book(run->side, texts, place);
    tell(run, "written by rising key, without zeros",
        writes(run->side, "1;5;3;9;7;31;2;7;20;1;8\n1;5;3;10;4;31;2;7;20;1;9\n"));
}

/* The widest book that there can be: 512 blocks of which every number has as many digits as it can have. A stop has five,
 * so the two columns of six digits that name one have five too. */
static void run_widest_book(struct run *run)
{
    static const uint64_t widest[NUMBERS] = {99, 999999999, 99999, 99999000, 99, 99999, 99, 999999, 99999, 99, 999999};
    uint64_t place[4], answer, length[1];
    uint64_t i;

    memset(book, 0, sizeof book);
    for (i = 0; i < part_of(VEHICLE_BLOCK); i++) {
        book[512 * i][0] = 99;
        book[512 * i][1] = i == 0 ? 99 : 99999;
    }
    book[POINTS_AT][2] = 99;
    for (i = 0; i < 512; i++) {
        memcpy(book[BLOCKS_AT + i], widest, sizeof widest);
        book[BLOCKS_AT + i][3] += i;
    }
    answer = run->side->write((const row *)book, BOOK_ROWS, out, sizeof out, length, place);
    tell(run, "A-30 the widest book",
        answered(answer, place, 0, 0, 0, 0) && length[0] == strlen(BLOCK_HEADER) + 512 * (52 + 11) && length[0] <= 34000);
}

/* ---- Lent lengths */

/* A slip with the standing book and work lent at these lengths: 16, and what each holds then. */
static int lent(const struct side *side, size_t book_rows, size_t work_rows, int work_stays)
{
    uint64_t place[4];
    uint64_t answer;
    size_t i;
    const uint8_t *bytes = (const uint8_t *)work;

    memcpy(before, book, sizeof before);
    fill(work, sizeof work, 0x5A);
    answer = side->slip((const uint8_t *)"x", 1, book, book_rows, work, work_rows, place);
    for (i = 0; i < sizeof work && bytes[i] == 0x5A; i++)
        ;
    return answered(answer, place, 16, 0, 0, 0) && memcmp(before, book, sizeof before) == 0
        && (work_stays ? i == sizeof work : work_is_zero());
}

static void run_lengths(struct run *run)
{
    static const struct season_edge too_short = {"", 1, 4, 16000101, 99991231, 16, 0};
    uint64_t place[4], answer, sum[2], seven[7], seconds[1];
    size_t lengths[] = {0, 1, 512, 2048, 2561, BOOK_ROWS - 1, BOOK_ROWS + 1};
    size_t i;

    for (i = 0; i < sizeof lengths / sizeof lengths[0]; i++) {
        fill(book, sizeof book, 0xA5);
        memcpy(before, book, sizeof before);
        answer = side_read(run->side, by(), whole_case, book, lengths[i], place);
        tell(run, "A-28 reading into a book of another length",
            answered(answer, place, 16, 0, 0, 0) && memcmp(before, book, sizeof before) == 0);
        read_into_book(run->side, whole_case, place);
        tell(run, "A-28 slip with a book of another length", lent(run->side, lengths[i], WORK_ROWS, 0));
        tell(run, "A-28 slip with both of another length", lent(run->side, lengths[i], WORK_ROWS - 1, 1));
        answer = run->side->type((const row *)book, lengths[i], 1, 4, sum, place);
        tell(run, "type question to a book of another length", answered(answer, place, 16, 0, 0, 0) && !sum[0] && !sum[1]);
        answer = run->side->block((const row *)book, lengths[i], 1, 5, 3, 101, seven, place);
        tell(run, "block question to a book of another length", answered(answer, place, 16, 0, 0, 0) && !seven[0]);
        answer = run->side->season((const row *)book, lengths[i], 1, 4, 16000101, 99991231, seconds, place);
        tell(run, "season question to a book of another length", answered(answer, place, 16, 0, 0, 0) && !seconds[0]);
        tell(run, "hours of a book of another length", hours_are(run->side, lengths[i], 1, 4, 16, 0, 0));
        tell(run, "a season's hours of a book of another length", season_hours_are(run->side, lengths[i], &too_short, 0));
    }
    read_into_book(run->side, whole_case, place);
    tell(run, "A-28 slip with a working area too short", lent(run->side, BOOK_ROWS, WORK_ROWS - 1, 1));
    tell(run, "A-28 slip with a working area too long", lent(run->side, BOOK_ROWS, WORK_ROWS + 1, 1));
    tell(run, "A-28 slip with no working area", lent(run->side, BOOK_ROWS, 0, 1));
}

/* ---- The book rule */

/* One number of the whole case's book changed, and whether the book is then still one that a delivery leaves. */
struct poke {
    const char *words;
    size_t row, column;
    uint64_t number;
    int kept;
};

static const struct poke pokes[] = {
    {"nothing changed", 0, 0, 1, 1},
    {"another free type", 1, 1, 8, 0}, /* type 7 has a block */
    {"types out of order", 0, 1, 8, 0},
    {"types of equal key", 0, 1, 7, 0},
    {"type of version 0", 0, 0, 0, 0},
    {"type of version 100", 1, 0, 100, 0},
    {"type number of 9 digits", 1, 1, 100000000, 0},
    {"something behind a type's key", 0, 2, 1, 0},
    {"something at a type's row end", 1, 10, 1, 0},
    {"something in the types' unused room", 511, 10, 1, 0},
    {"a type more", 2, 0, 2, 1}, /* 2, 0 is a key that a delivery can have */
    {"a type number without a version", 2, 1, 2, 0},
    {"depot number of 6 digits", 512 + 1, 0, 100, 0},
    {"a depot more", 512 + 1, 0, 1, 0}, /* 1, 0 comes before 1, 3 */
    {"a depot of a later version", 512 + 1, 0, 99, 1},
    {"a depot changed", 512, 1, 4, 0},
    {"stop 0", 1024, 1, 0, 0},
    {"stop 100000", 1024 + 1, 1, 100000, 0},
    {"a stop of number 0", 1024 + 2, 0, 2, 0},
    {"something in the stops' unused room", 1024 + 100, 5, 7, 0},
    {"a stop changed", 1024 + 1, 1, 32, 0},
    {"point's stop without row", POINTS_AT, 1, 19, 0},
    {"point's version without stops", POINTS_AT + 1, 0, 2, 0},
    {"points out of order", POINTS_AT, 1, 31, 0},
    {"point of version 0", POINTS_AT, 0, 0, 0},
    {"point of version 100", POINTS_AT + 1, 0, 100, 0},
    {"a point changed", POINTS_AT, 2, 2, 0},
    {"another point changed", POINTS_AT + 1, 2, 99, 0},
    {"point 100", POINTS_AT + 1, 2, 100, 0},
    {"something behind a point's key", POINTS_AT, 3, 1, 0},
    {"something at a point's row end", POINTS_AT + 1, 10, 1, 0},
    {"something in the points' unused room", POINTS_AT + 2, 2, 1, 0},
    {"a point of stop 0", POINTS_AT + 2, 0, 2, 0},
    {"something in the points' last row", POINTS_AT + 511, 10, 1, 0},
    {"block's day type of 10 digits", BLOCKS_AT + 2, 1, 1000000000, 0},
    {"block's day type changed", BLOCKS_AT + 2, 1, 999999999, 1},
    {"blocks of equal key", BLOCKS_AT + 1, 3, 101, 0},
    {"blocks out of order", BLOCKS_AT + 1, 3, 100, 0},
    {"block's number of 9 digits", BLOCKS_AT + 2, 3, 100000000, 0},
    {"block's version without tables", BLOCKS_AT + 2, 0, 2, 0},
    {"block's depot without row", BLOCKS_AT + 2, 2, 4, 0},
    {"block's type without row", BLOCKS_AT + 2, 4, 5, 0},
    {"block's other type", BLOCKS_AT + 2, 4, 7, 1},
    {"block's first stop without row", BLOCKS_AT + 2, 5, 21, 0},
    {"block's last stop without row", BLOCKS_AT + 2, 8, 21, 0},
    {"block's point without row", BLOCKS_AT + 2, 6, 2, 0},
    {"block's last point without row", BLOCKS_AT + 2, 9, 2, 0},
    {"block's point 99", BLOCKS_AT + 2, 6, 99, 0},
    {"block's other stop without its point", BLOCKS_AT + 2, 5, 31, 0},
    {"block's point 100", BLOCKS_AT + 2, 6, 100, 0},
    {"block's last point 100", BLOCKS_AT + 2, 9, 100, 0},
    {"BEGIN equal to END", BLOCKS_AT + 2, 7, 90000, 1},
    {"BEGIN above END", BLOCKS_AT + 2, 7, 90001, 0},
    {"END 999999", BLOCKS_AT + 2, 10, 999999, 1},
    {"END 1000000", BLOCKS_AT + 2, 10, 1000000, 0},
    {"END 2^64 - 1", BLOCKS_AT + 2, 10, UINT64_MAX, 0},
    {"a hole between blocks", BLOCKS_AT + 1, 0, 0, 0},
    {"something in the blocks' unused room", 2559, 0, 1, 0},
    {"a number alone in the blocks' unused room", 2559, 10, 1, 0},
    {"a day type without a day in the calendar", CALENDAR_AT, 2, 5, 0},
    {"a version without a day in the calendar", CALENDAR_AT, 0, 1, 0},
    {"something in the calendar's unused room", CALENDAR_AT + 400, 1, 20240101, 0},
    {"something in the calendar's row 513", CALENDAR_AT + 512, 0, 1, 0},
    {"something in the calendar's last row", CALENDAR_AT + 799, 10, 1, 0},
    {"the row of marks says 2.1", MARKS, 0, 0, 1},
    {"the row of marks says 2.3", MARKS, 0, 1, 1},
    {"the row of marks says 2", MARKS, 0, 2, 0},
    {"the row of marks says 21", MARKS, 0, 21, 0},
    {"the row of marks says 23", MARKS, 0, 23, 0},
    {"the row of marks says 2^32", MARKS, 0, 4294967296u, 0},
    {"the row of marks says 2^64 - 1", MARKS, 0, UINT64_MAX, 0},
    {"a second mark", MARKS, 1, 1, 0},
    {"a last mark", MARKS, 10, 1, 0},
};

/* Whether every function that looks at a book finds the standing one kept, or broken, and leaves it as it is. */
static int book_is_kept(const struct side *side, int kept)
{
    static const struct text slip = T("");
    uint64_t place[4], sum[2], seven[7], seconds[1], length[1], number = kept ? 0 : 16;
    double hours[2];
    uint64_t answer;
    int good;

    memcpy(before, book, sizeof before);
    answer = slip_on_book(side, slip, place);
    good = answered(answer, place, number, 0, 0, 0) && work_is_zero();
    answer = side->type((const row *)book, BOOK_ROWS, 1, 4, sum, place);
    good = good && answered(answer, place, number, 0, 0, 0);
    answer = side->block((const row *)book, BOOK_ROWS, 1, 5, 3, 101, seven, place);
    good = good && answered(answer, place, number, 0, 0, 0);
    answer = side->season((const row *)book, BOOK_ROWS, 1, 4, 20240101, 20241231, seconds, place);
    good = good && answered(answer, place, number, 0, 0, 0);
    answer = side->hours((const row *)book, BOOK_ROWS, 1, 4, hours, place);
    good = good && answered(answer, place, number, 0, 0, 0);
    answer = side->season_hours((const row *)book, BOOK_ROWS, 1, 4, 20240101, 20241231, hours, place);
    good = good && answered(answer, place, number, 0, 0, 0);
    answer = side->write((const row *)book, BOOK_ROWS, out, sizeof out, length, place);
    good = good && answered(answer, place, number, 0, 0, 0) && (length[0] == 0) == (number == 16);
    return good && memcmp(before, book, sizeof before) == 0;
}

static void run_poke(struct run *run, const struct poke *poke)
{
    uint64_t place[4];

    read_into_book(run->side, whole_case, place);
    book[poke->row][poke->column] = poke->number;
    tell(run, poke->words, book_is_kept(run->side, poke->kept));
}

/* A stop point behind those of the whole case, which no block names: only the rule of the points themselves can break. */
struct further_point {
    const char *words;
    uint64_t key[3];
    int kept;
};

static const struct further_point further_points[] = {
    {"C1-07 another point of a stop", {1, 31, 3}, 1},
    {"C1-07 point 99", {1, 31, 99}, 1},
    {"C1-07 point 100", {1, 31, 100}, 0},
    {"C1-07 a point twice", {1, 31, 2}, 0},
    {"C1-07 a point below the last one", {1, 31, 1}, 0},
    {"C1-07 a point of a stop below the last one's", {1, 20, 9}, 0},
    {"C1-07 a point whose stop is not there", {1, 32, 0}, 0},
    {"C1-07 a point whose stop is of another version", {2, 31, 2}, 0},
    {"C1-07 a point of stop 100000", {1, 100000, 2}, 0},
};

static void run_further_point(struct run *run, const struct further_point *point)
{
    uint64_t place[4];

    read_into_book(run->side, whole_case, place);
    memcpy(book[POINTS_AT + 2], point->key, sizeof point->key);
    tell(run, point->words, book_is_kept(run->side, point->kept));
}

/* Days in the calendar of the whole case. */
struct calendar_rows {
    const char *words;
    uint64_t days[3][4];
    int kept;
};

static const struct calendar_rows calendar_rows[] = {
    {"a day", {{1, 20240229, 5}}, 1},
    {"days by rising key", {{1, 16000101, 999999999}, {1, 99991231, 0}, {99, 16000101, 5}}, 1},
    {"days of equal key", {{1, 20240101, 5}, {1, 20240101, 6}}, 0},
    {"days out of order", {{1, 20240102, 5}, {1, 20240101, 5}}, 0},
    {"versions out of order", {{2, 20240101, 5}, {1, 20240102, 5}}, 0},
    {"a hole between days", {{1, 20240101, 5}, {0}, {1, 20240103, 5}}, 0},
    {"a hole in front", {{0}, {1, 20240101, 5}}, 0},
    {"a day of version 0", {{0, 20240101, 5}}, 0},
    {"a day of version 100", {{100, 20240101, 5}}, 0},
    {"a day type of 10 digits", {{1, 20240101, 1000000000}}, 0},
    {"a day type of 2^64 - 1", {{1, 20240101, UINT64_MAX}}, 0},
    {"something behind a day", {{1, 20240101, 5, 1}}, 0},
    {"29 February 1600", {{1, 16000229, 5}}, 1},
    {"29 February 1700", {{1, 17000229, 5}}, 0},
    {"29 February 1900", {{1, 19000229, 5}}, 0},
    {"29 February 2000", {{1, 20000229, 5}}, 1},
    {"29 February 2023", {{1, 20230229, 5}}, 0},
    {"30 February 2024", {{1, 20240230, 5}}, 0},
    {"31 December 1599", {{1, 15991231, 5}}, 0},
    {"31 December 9999", {{1, 99991231, 5}}, 1},
    {"day 32", {{1, 99991232, 5}}, 0},
    {"year 10000", {{1, 100000101, 5}}, 0},
    {"2^32 and a day", {{1, 4294967296u + 20240101, 5}}, 0},
    {"2^64 - 1 for a day", {{1, UINT64_MAX, 5}}, 0},
    {"the last of three is no date", {{1, 20240101, 5}, {1, 20240102, 5}, {1, 20240132, 5}}, 0},
};

static void run_calendar_rows(struct run *run, const struct calendar_rows *rows)
{
    uint64_t place[4];
    size_t i;

    read_into_book(run->side, whole_case, place);
    for (i = 0; i < 3; i++)
        memcpy(book[CALENDAR_AT + i], rows->days[i], sizeof rows->days[i]);
    tell(run, rows->words, book_is_kept(run->side, rows->kept));
}

/* "16; 1": a book that breaks the rule and a slip that is too long. */
static void run_book_before_slip(struct run *run)
{
    struct growing slip;
    uint64_t place[4], answer;

    read_into_book(run->side, whole_case, place);
    book[BOOK_ROWS - 1][10] = 1;
    slip = slip_of_65536();
    put(&slip, "x");
    answer = slip_on_book(run->side, done(&slip), place);
    tell(run, "slip: 16 before 1", answered(answer, place, 16, 0, 0, 0) && work_is_zero());
}

/* ---- 2/13: one block by its two times, in a reading, on a slip, in a lent book and in a sum */

struct times {
    const char *words;
    uint64_t begin, end;
    int kept; /* or 11 */
    uint64_t seconds;
};

static const struct times times_edges[] = {
    {"END equal to BEGIN", 500, 500, 1, 0},
    {"C2-01 END one below BEGIN on one day", 500, 499, 1, 86399},
    {"C2-01 from 1 to 0", 1, 0, 1, 86399},
    {"C2-02 from 80,000 to 3,600", 80000, 3600, 1, 10000},
    {"C2-02 from the last second to the first", 86399, 0, 1, 1},
    {"C2-02 from 86,399 to 86,398", 86399, 86398, 1, 86399},
    {"C2-02 from 86,399 to 86,399", 86399, 86399, 1, 0},
    {"C2-02 from 86,399 to 86,400", 86399, 86400, 1, 1},
    {"C2-02 from 86,400 to 86,400", 86400, 86400, 1, 0},
    {"C2-02 from 80,000 to 90,000", 80000, 90000, 1, 10000},
    {"C2-02 from 0 to 86,399", 0, 86399, 1, 86399},
    {"C2-02 from 0 to 86,400", 0, 86400, 1, 86400},
    {"C2-02 from 0 to 999,999", 0, 999999, 1, 999999},
    {"C2-02 from 86,400 to 86,399", 86400, 86399, 0, 0},
    {"C2-02 from 86,400 to 0", 86400, 0, 0, 0},
    {"C2-02 from 86,401 to 86,400", 86401, 86400, 0, 0},
    {"C2-02 from 90,000 to 80,000", 90000, 80000, 0, 0},
    {"C2-02 from 999,999 to 999,998", 999999, 999998, 0, 0},
    {"C2-02 from 999,999 to 0", 999999, 0, 0, 0},
};

/* Block 101 of the whole case with these times, and this between its numbers. */
static void put_block(struct growing *text, const struct times *times, const char *between)
{
    const uint64_t numbers[NUMBERS] = {1, 5, 3, 101, 4, 20, 1, times->begin, 31, 2, times->end};
    size_t i;

    for (i = 0; i < NUMBERS; i++) {
        put(text, i > 0 ? between : "");
        put_number(text, numbers[i], 0);
    }
    put(text, "\n");
}

static void run_times(struct run *run, const struct times *times)
{
    struct growing blocks = {big[VEHICLE_BLOCK], 0};
    struct growing slip = {big[SLIP], 0};
    struct text texts[TABLES];
    uint64_t place[4], answer;
    uint64_t number = times->kept ? 0 : 11;
    uint64_t column = number;
    const char *row_written = (const char *)big[VEHICLE_BLOCK] + strlen(BLOCK_HEADER);
    int good;

    memcpy(texts, whole_case, sizeof texts);
    put(&blocks, BLOCK_HEADER);
    put_block(&blocks, times, ";");
    texts[part_of(VEHICLE_BLOCK)] = done(&blocks);
    answer = read_into_book(run->side, texts, place);
    good = answered(answer, place, number, 4, number ? 2 : 0, column);
    big[VEHICLE_BLOCK][blocks.length] = 0;
    if (times->kept) /* C2-03: the numbers are written as they were delivered */
        good = good && type_is(run->side, 1, 4, 0, times->seconds, 1) && writes(run->side, row_written);
    else
        good = good && book_is(zeros);
    tell(run, times->words, good);

    read_into_book(run->side, whole_case, place);
    put(&slip, "R\t");
    put_block(&slip, times, "\t");
    answer = slip_on_book(run->side, done(&slip), place);
    good = answered(answer, place, number, 5, number ? 1 : 0, column) && work_is_zero();
    /* block 6/101 of the same type has 10,000, block 101 as it was 28,800 */
    tell(run, times->words, good && type_is(run->side, 1, 4, 0, 10000 + (times->kept ? times->seconds : 28800), 2));

    read_into_book(run->side, whole_case, place);
    book[BLOCKS_AT][7] = times->begin;
    book[BLOCKS_AT][10] = times->end;
    tell(run, times->words, book_is_kept(run->side, times->kept));
}

/* ---- 4/13: what is wrong with a cell, at every column */

/* A cell as it stands in a table's text, and its number: 19, 20, 8, 21, or 0 where it passes. */
struct cell_content {
    const char *cell;
    uint64_t number;
};

enum { MOST_CONTENTS = 26, MOST_ALIKE = 6 };

/* Columns of the same rules, and contents for each of them. */
struct columns_edge {
    const char *words;
    struct {
        unsigned table;
        uint64_t column;
    } of[MOST_ALIKE];
    struct cell_content contents[MOST_CONTENTS];
};

#define QUOTES "\"\"\"\"" /* two doubled ones, which are two bytes of content */

static const struct columns_edge columns_edges[] = {
    {"d2, 1 to 99, required", {{1, 1}, {2, 1}, {3, 1}, {4, 1}, {6, 1}, {7, 1}},
        {{"", 19}, {"\"\"", 19}, {"1", 0}, {"01", 0}, {"99", 0}, {"\"99\"", 0}, {"0", 21}, {"00", 21}, {"\"0\"", 21},
            {"100", 20}, {"000", 20}, {"001", 20}, {"\"100\"", 20}, {"x", 8}, {"xy", 8}, {"1x", 8}, {"x1", 8}, {"-1", 8},
            {" 1", 8}, {"xyz", 20}, {"-10", 20}, {"99x", 20}, {"\"1\"\"\"", 8}, {"\"1\"\"2\"", 20}, {"\"" QUOTES "\"", 8},
            {"\"" QUOTES "x\"", 20}}},
    {"d2, required", {{4, 5}, {4, 7}, {4, 10}, {6, 3}},
        {{"", 19}, {"\"\"", 19}, {"0", 0}, {"00", 0}, {"99", 0}, {"\"07\"", 0}, {"007", 20}, {"000", 20}, {"100", 20},
            {"x", 8}, {"9x", 8}, {"/9", 8}, {"9:", 8}, {"99x", 20}, {"xyz", 20}, {"\"9\"\"\"", 8}, {"\"9\"\"9\"", 20}}},
    {"d3, optional", {{1, 3}, {1, 4}, {1, 5}},
        {{"", 0}, {"\"\"", 0}, {"0", 0}, {"000", 0}, {"999", 0}, {"0000", 20}, {"1000", 20}, {"x", 8}, {"xyz", 8},
            {"wxyz", 20}, {"\"1\"\"2\"", 8}, {"\"12\"\"3\"", 20}}},
    {"d4, optional", {{1, 8}, {1, 9}, {1, 10}},
        {{"", 0}, {"\"\"", 0}, {"0", 0}, {"0000", 0}, {"9999", 0}, {"00001", 20}, {"10000", 20}, {"x", 8}, {"wxyz", 8},
            {"vwxyz", 20}, {"\"12\"\"3\"", 8}, {"\"12\"\"34\"", 20}}},
    {"d5, required", {{2, 2}, {4, 3}},
        {{"", 19}, {"\"\"", 19}, {"0", 0}, {"00003", 0}, {"99999", 0}, {"000003", 20}, {"100000", 20}, {"1e1", 8},
            {"vwxyz", 8}, {"uvwxyz", 20}, {"99999x", 20}, {"\"12\"\"34\"", 8}, {"\"123\"\"45\"", 20}}},
    {"d5, 1 to 99999, required", {{3, 2}, {6, 2}},
        {{"", 19}, {"\"\"", 19}, {"1", 0}, {"00001", 0}, {"99999", 0}, {"0", 21}, {"00000", 21}, {"\"0\"", 21},
            {"000000", 20}, {"000001", 20}, {"100000", 20}, {"x", 8}, {"0x", 8}, {"vwxyz", 8}, {"uvwxyz", 20},
            {"\"12\"\"34\"", 8}, {"\"123\"\"45\"", 20}}},
    {"d6, required", {{4, 8}, {4, 11}},
        {{"", 19}, {"\"\"", 19}, {"0", 0}, {"000020", 0}, {"999999", 0}, {"0000020", 20}, {"1000000", 20},
            {"4294967316", 20}, {"99999x", 8}, {"uvwxyz", 8}, {"999999x", 20}, {"tuvwxyz", 20}, {"\"123\"\"45\"", 8},
            {"\"123\"\"456\"", 20}}},
    {"d8, required", {{1, 2}, {4, 4}},
        {{"", 19}, {"\"\"", 19}, {"0", 0}, {"00000007", 0}, {"99999999", 0}, {"000000007", 20}, {"100000000", 20},
            {"4294967303", 20}, {"1.5", 8}, {"stuvwxyz", 8}, {"rstuvwxyz", 20}, {"\"1234\"\"567\"", 8},
            {"\"1234\"\"5678\"", 20}}},
    {"d8, a date, required", {{7, 2}},
        {{"", 19}, {"\"\"", 19}, {"20240101", 0}, {"\"20240101\"", 0}, {"16000101", 0}, {"99991231", 0}, {"15991231", 21},
            {"16000100", 21}, {"00000000", 21}, {"0", 21}, {"99991232", 21}, {"99999999", 21}, {"2024101", 21}, {"9991231", 21},
            {"\"2024101\"", 21}, {"020240101", 20}, {"202401010", 20}, {"100000101", 20}, {"4315207397", 20},
            {"18446744073729791717", 20}, {"2024-1-1", 8}, {"2024010x", 8}, {"2024-01-01", 20}, {"x20240101", 20},
            {"\"2024\"\"101\"", 8}, {"\"2024\"\"0101\"", 20}}},
    {"the months", {{7, 2}},
        {{"20240131", 0}, {"20240132", 21}, {"20240331", 0}, {"20240332", 21}, {"20240430", 0}, {"20240431", 21},
            {"20240531", 0}, {"20240532", 21}, {"20240630", 0}, {"20240631", 21}, {"20240731", 0}, {"20240732", 21},
            {"20240831", 0}, {"20240832", 21}, {"20240930", 0}, {"20240931", 21}, {"20241031", 0}, {"20241032", 21},
            {"20241130", 0}, {"20241131", 21}, {"20241231", 0}, {"20241232", 21}, {"20240001", 21}, {"20241301", 21},
            {"20240100", 21}, {"20240199", 21}}},
    {"C7-04 leap years", {{7, 2}},
        {{"16000229", 0}, {"16000230", 21}, {"16000228", 0}, {"16040229", 0}, {"17000228", 0}, {"17000229", 21},
            {"18000229", 21}, {"19000229", 21}, {"19000228", 0}, {"20000229", 0}, {"20000230", 21}, {"20220229", 21},
            {"20230229", 21}, {"20240229", 0}, {"20240230", 21}, {"21000229", 21}, {"24000229", 0}, {"96000229", 0},
            {"99000229", 21}, {"99960229", 0}, {"99980229", 21}, {"99990228", 0}, {"99990229", 21}}},
    {"d9, required", {{4, 2}, {7, 3}},
        {{"", 19}, {"\"\"", 19}, {"0", 0}, {"000000005", 0}, {"999999999", 0}, {"0000000005", 20}, {"1000000000", 20},
            {"18446744073709551621", 20}, {"x", 8}, {"rstuvwxyz", 8}, {"qrstuvwxyz", 20}, {"\"1234\"\"5678\"", 8},
            {"\"1234\"\"56789\"", 20}}},
    {"c4, optional", {{1, 7}},
        {{"", 0}, {"\"\"", 0}, {" ", 0}, {"abcd", 0}, {"abcde", 20}, {"1234", 0}, {"12345", 20}, {"\"ab;c\"", 0},
            {"\"abc\"\"\"", 0}, {"\"abcd\"\"\"", 20}, {"\"" QUOTES QUOTES "\"", 0}, {"\"" QUOTES QUOTES "x\"", 20},
            {"\xC3\xA4\xC3\xA4", 0}, {"\xC3\xA4\xC3\xA4x", 20}}},
    {"c40, optional", {{1, 6}},
        {{"", 0}, {"\"\"", 0}, {"-1", 0}, {TEN TEN TEN TEN, 0}, {TEN TEN TEN TEN "x", 20},
            {"\"" TEN TEN TEN "012345678\"\"\"", 0}, {"\"" TEN TEN TEN TEN "\"\"\"", 20}}},
};

static const struct columns_edge columns_edges_21[] = {
    {"d1, 0 to 2, optional", {{1, 11}},
        {{"", 0}, {"\"\"", 0}, {"0", 0}, {"2", 0}, {"\"2\"", 0}, {"3", 21}, {"9", 21}, {"\"3\"", 21}, {"00", 20}, {"02", 20},
            {"10", 20}, {"x", 8}, {"-", 8}, {" ", 8}, {"xy", 20}, {"-1", 20}, {"1 ", 20}, {"\"\"\"\"", 8},
            {"\"" QUOTES "\"", 20}}},
    {"c50, required", {{3, 3}},
        {{"", 19}, {"\"\"", 19}, {" ", 0}, {"0", 0}, {"-1", 0}, {"\"\"\"\"", 0}, {TEN TEN TEN TEN TEN, 0},
            {TEN TEN TEN TEN TEN "x", 20}, {"\"" TEN TEN TEN TEN "012345678\"\"\"", 0},
            {"\"" TEN TEN TEN TEN TEN "\"\"\"", 20}}},
    {"d6, required", {{4, 6}, {4, 9}},
        {{"", 19}, {"\"\"", 19}, {"0", 0}, {"000020", 0}, {"999999", 0}, {"0000020", 20}, {"1000000", 20},
            {"4294967316", 20}, {"99999x", 8}, {"uvwxyz", 8}, {"999999x", 20}, {"tuvwxyz", 20}, {"\"123\"\"45\"", 8},
            {"\"123\"\"456\"", 20}}},
};

#define LETTERS_250 FIFTY FIFTY FIFTY FIFTY FIFTY

static const struct columns_edge columns_edges_23[] = {
    {"d1, 0 to 7, optional", {{1, 11}},
        {{"", 0}, {"\"\"", 0}, {"0", 0}, {"1", 0}, {"2", 0}, {"3", 0}, {"4", 0}, {"5", 0}, {"6", 0}, {"7", 0}, {"\"7\"", 0},
            {"8", 21}, {"9", 21}, {"\"8\"", 21}, {"00", 20}, {"07", 20}, {"10", 20}, {"x", 8}, {"\"\n\"", 8},
            {"\"\r\n\"", 20}, {"\"7\n\"", 20}, {"\"\"\"\"", 8}}},
    {"c10, optional", {{1, 12}},
        {{"", 0}, {"\"\"", 0}, {" ", 0}, {TEN, 0}, {TEN "x", 20}, {"\"" TEN "\"", 0}, {"\"012345678\"\"\"", 0},
            {"\"" TEN "\"\"\"", 20}, {"\"012345678\n\"", 0}, {"\"" TEN "\n\"", 20}, {"\"01234567\r\n\"", 0},
            {"\"012345678\r\n\"", 20}, {"\"\n\n\n\n\n\n\n\n\n\n\"", 0}, {"\"\n\n\n\n\n\n\n\n\n\n\n\"", 20}}},
    {"c255, required", {{3, 3}},
        {{"", 19}, {"\"\"", 19}, {" ", 0}, {"\"\n\"", 0}, {"\"\r\n\"", 0}, {FIFTY, 0}, {FIFTY "x", 0}, {LETTERS_250 "abcde", 0},
            {LETTERS_250 "abcdef", 20}, {"\"" LETTERS_250 "abcd\"\"\"", 0}, {"\"" LETTERS_250 "abcde\"\"\"", 20},
            {"\"" LETTERS_250 "abcd\n\"", 0}, {"\"" LETTERS_250 "abcd\r\n\"", 20}, {"\"" LETTERS_250 "abc\r\n\"", 0}}},
    {"d5, 1 to 99999, required, of a block", {{4, 6}, {4, 9}},
        {{"", 19}, {"\"\"", 19}, {"1", 0}, {"00001", 0}, {"99999", 0}, {"0", 21}, {"00000", 21}, {"\"0\"", 21},
            {"000000", 20}, {"000020", 20}, {"100000", 20}, {"999999", 20}, {"x", 8}, {"0x", 8}, {"vwxyz", 8}, {"uvwxyz", 20},
            {"\"20\n\"", 8}, {"\"\n\"", 8}, {"\"200\r\n\"", 8}, {"\"2000\r\n\"", 20}}},
    {"d8, a date, with breaks", {{7, 2}},
        {{"\"2024101\n\"", 8}, {"\"202411\r\n\"", 8}, {"\"20240101\n\"", 20}, {"\"2024\n0101\"", 20}, {"\"\n\"", 8}}},
    {"d2, 1 to 99, required, with breaks", {{1, 1}, {2, 1}, {3, 1}, {4, 1}, {6, 1}, {7, 1}},
        {{"\"1\n\"", 8}, {"\"\n1\"", 8}, {"\"\n\"", 8}, {"\"\n\n\"", 8}, {"\"\r\n\"", 8}, {"\"1\r\n\"", 20},
            {"\"1\n2\"", 20}, {"\"\r\n\n\"", 20}, {"\"0\n\"", 8}}},
    {"c40, optional, with breaks", {{1, 6}},
        {{"\"\n\"", 0}, {"\"" TEN TEN TEN "01234567\r\n\"", 0}, {"\"" TEN TEN TEN "012345678\r\n\"", 20}}},
};

/* A good row of each table, cell by cell: that of the whole case, with something in the optional columns. */
static const char *const good_row[LAST_TABLE + 1][MOST_COLUMNS] = {
    [VEHICLE_TYPE] = {"1", "4", "40", "8", "2", "solo", "SL", "1200", "2550", "3000", "1", "B12"},
    [DEPOT] = {"1", "3"},
    [STOP] = {"1", "20", "Yard"},
    [STOP_POINT] = {"1", "20", "1"},
    [VEHICLE_BLOCK] = {"1", "5", "3", "101", "4", "20", "1", "18000", "31", "2", "46800"},
    [DAY_TYPE_CALENDAR] = {"1", "20240229", "5"},
};

/* The cells of that row, this one in one column, this between them. */
static void put_row(struct growing *text, unsigned t, uint64_t columns, uint64_t column, const char *cell,
    const char *between)
{
    uint64_t c;

    for (c = 1; c <= columns; c++) {
        put(text, c > 1 ? between : "");
        put(text, c == column ? cell : good_row[t][c - 1]);
    }
    put(text, "\n");
}

/* A table with all its columns and that row. */
static struct text table_with_cell(unsigned t, uint64_t column, const char *cell)
{
    struct growing text = {big[t], 0};
    uint64_t c;

    for (c = 0; c < tables[edition][t].column_count; c++) {
        put(&text, c > 0 ? ";" : "");
        put(&text, tables[edition][t].columns[c].name);
    }
    put(&text, "\n");
    put_row(&text, t, tables[edition][t].column_count, column, cell, ";");
    return done(&text);
}

static int is_cell_fault(uint64_t number)
{
    return number == 8 || (number >= 19 && number <= 21);
}

/* The bytes of a text's first line, its line feed with them. */
static size_t header_bytes(struct text text)
{
    size_t n = 1;

    while (text.bytes[n - 1] != '\n')
        n++;
    return n;
}

/* A reading, whole and by radio, the row byte by byte. Where the cell passes, a key or a reference may be wrong with the row;
 * that comes later. */
static int is_read_cell(const struct side *side, struct text text, unsigned t, uint64_t column, uint64_t number)
{
    size_t first = header_bytes(text);
    struct text texts[TABLES];
    uint64_t place[4];

    memcpy(texts, whole_case, sizeof texts);
    texts[part_of(t)] = text;
    if (number)
        return is_read(side, texts, part_of(t), first, 1, number, t, 2, column);
    read_into_book(side, texts, place);
    return !is_cell_fault(place[0])
        && is_read(side, texts, part_of(t), first, 1, place[0], place[1], place[2], place[3]);
}

static int is_asked_cell(const struct side *side, struct text text, unsigned t, uint64_t column, uint64_t number)
{
    uint64_t place[4], got[4];
    uint64_t answer = side->cell(by(), text.bytes, text.length, t, 2, column, got, place);

    return answered(answer, place, number, t, number ? 2 : 0, number ? column : 0) && (number == 0 || got[0] == 0);
}

/* The bytes as a field of each kind of slip line that has the column. */
static int is_slip_field(const struct side *side, uint64_t column, const char *field, uint64_t number)
{
    static const char *const kinds[] = {"A\t", "R\t", "D\t"};
    int good = 1;
    size_t k;

    for (k = 0; k < 3 && good; k++) {
        struct growing slip = {big[SLIP], 0};
        uint64_t fields = k < 2 ? NUMBERS : 4;
        uint64_t place[4], answer;

        if (column > fields)
            continue;
        put(&slip, kinds[k]);
        put_row(&slip, VEHICLE_BLOCK, fields, column, field, "\t");
        read_into_book(side, whole_case, place);
        answer = slip_on_book(side, done(&slip), place);
        good = number ? answered(answer, place, number, SLIP, 1, column) : !is_cell_fault(answer);
    }
    return good;
}

/* In a reading, in the cell question and, where it has no quotes, on a slip. */
static void run_content(struct run *run, const char *words, unsigned t, uint64_t column, const struct cell_content *content)
{
    struct text text = table_with_cell(t, column, content->cell);
    int good = is_read_cell(run->side, text, t, column, content->number)
        && is_asked_cell(run->side, text, t, column, content->number);

    if (t == VEHICLE_BLOCK && content->cell[0] != '"')
        good = good && is_slip_field(run->side, column, content->cell, content->number);
    if (!good)
        printf("  table %u, column %" PRIu64 ": %s\n", t, column, content->cell);
    tell(run, words, good);
}

static void run_columns(struct run *run, const struct columns_edge *edge)
{
    size_t i, k;

    for (i = 0; i < MOST_ALIKE && edge->of[i].table; i++)
        for (k = 0; k < MOST_CONTENTS && edge->contents[k].cell; k++)
            run_content(run, edge->words, edge->of[i].table, edge->of[i].column, &edge->contents[k]);
}

/* "8 by column number": the lowest column with any of the four, wherever it stands on the line. */
static void run_lowest_columns(struct run *run)
{
    static const struct cell_content versions[] = {{"", 19}, {"100", 20}, {"x", 8}, {"0", 21}};
    static const struct cell_content stops[] = {{"", 19}, {"100000", 20}, {"x", 8}, {"0", 21}};
    static const char *const headers[] = {"VERSION;STOP_NR;STOP_NAME\n", "STOP_NR;VERSION;STOP_NAME\n"};
    size_t v, n, order;

    for (v = 0; v < 4; v++)
        for (n = 0; n < 4; n++)
            for (order = 0; order < 2; order++) {
                struct growing text = {big[STOP], 0};

                put(&text, headers[order]);
                put(&text, order == 0 ? versions[v].cell : stops[n].cell);
                put(&text, ";");
                put(&text, order == 0 ? stops[n].cell : versions[v].cell);
                put(&text, ";\n");
                tell(run, "C4-05 the lowest column",
                    is_read_cell(run->side, done(&text), STOP, 1, versions[v].number)
                        && is_asked_cell(run->side, done(&text), STOP, 1, versions[v].number)
                        && is_asked_cell(run->side, done(&text), STOP, 2, stops[n].number)
                        && is_asked_cell(run->side, done(&text), STOP, 3, 19));
            }
}

/* The same on a slip. */
static void run_lowest_fields(struct run *run)
{
    static const struct cell_content versions[] = {{"", 19}, {"100", 20}, {"x", 8}, {"0", 21}, {"1", 0}};
    static const struct cell_content days[] = {{"", 19}, {"1234567890", 20}, {"x", 8}, {"5", 0}};
    size_t v, d;

    for (v = 0; v < 5; v++)
        for (d = 0; d < 4; d++) {
            struct growing slip = {big[SLIP], 0};
            uint64_t number = versions[v].number ? versions[v].number : days[d].number ? days[d].number : 20;
            uint64_t column = versions[v].number ? 1 : days[d].number ? 2 : 3;
            uint64_t place[4], answer;

            put(&slip, "D\t");
            put(&slip, versions[v].cell);
            put(&slip, "\t");
            put(&slip, days[d].cell);
            put(&slip, "\t000003\t\n");
            read_into_book(run->side, whole_case, place);
            answer = slip_on_book(run->side, done(&slip), place);
            tell(run, "C4-05 the lowest column of a slip line", answered(answer, place, number, SLIP, 1, column));
        }
}

/* ---- 3/13: lines of 2,048 bytes and some more */

/* A line of the depots that long, its line end left out: the header or the first row. By a cell of an unknown column, quoted
 * or not, behind this beginning; in quotes there may be line breaks in it. Behind a line feed a row follows. */
struct long_line {
    int is_row;
    enum { BARE, QUOTED, BROKEN_UP, SHAPES } shape;
    size_t length;
    const char *end;
};

enum { BREAKS = 3 }; /* in a line that is broken up */

static struct text long_depots(const struct long_line *line, const char *beginning)
{
    struct growing text = {big[DEPOT], 0};
    size_t end = line->length;

    if (line->is_row) {
        put(&text, "VERSION;DEPOT_NR;X\n");
        end += text.length;
    }
    put(&text, beginning);
    if (line->shape != BARE) {
        put(&text, "\"");
        fill_up(&text, end - 1);
        memcpy(text.bytes + end - 5, "\"\"", 2); /* a doubled quote close to the closing one */
        if (line->shape == BROKEN_UP) {
            text.bytes[end - 900] = '\n';
            memcpy(text.bytes + end - 800, "\r\n", 2);
            text.bytes[end - 2] = '\n'; /* and a break before that */
        }
        put(&text, "\"");
    } else {
        fill_up(&text, end);
    }
    put(&text, line->end);
    if (strlen(line->end) > 0 && line->end[strlen(line->end) - 1] == '\n')
        put(&text, "1;7;\n");
    return done(&text);
}

/* The whole case without blocks, so that no depot is missed. */
static void depots_alone(struct text texts[TABLES], struct text depots)
{
    memcpy(texts, whole_case, TABLES * sizeof texts[0]);
    texts[1] = depots;
    texts[4] = (struct text)T(BLOCK_HEADER);
}

static void run_long_line(struct run *run, const struct long_line *line)
{
    struct text depots = long_depots(line, line->is_row ? "1;3;" : "VERSION;DEPOT_NR;");
    struct text texts[TABLES];
    uint64_t place[4], got[4], answer;
    int bare_return = strcmp(line->end, "\r") == 0; /* it stands before no line feed, and so it counts */
    uint64_t at_line = line->is_row ? 2 : 1;
    uint64_t number = line->length + (size_t)bare_return > 2048 ? 17 : bare_return ? 6 : 0;
    uint64_t column = number == 6 ? 3 : 0;
    size_t start = line->is_row ? strlen("VERSION;DEPOT_NR;X\n") : 0;
    uint64_t asked = 2 + (line->shape == BROKEN_UP && !line->is_row ? BREAKS : 0);
    int good;

    depots_alone(texts, depots);
    good = is_read(run->side, texts, 1, start + 2044, 1, number, 2, number ? at_line : 0, column);
    good = good && is_read(run->side, texts, 1, start + line->length, 1, number, 2, number ? at_line : 0, column);
    /* a cell of the line itself, or of the row behind the header, where there is one */
    answer = run->side->cell(by(), depots.bytes, depots.length, 2, asked, 2, got, place);
    if (number == 0 && !line->is_row && *line->end == 0)
        good = good && answered(answer, place, 15, 0, 0, 0);
    else
        good = good && answered(answer, place, number, 2, number ? at_line : 0, column) && got[0] == (number == 0)
            && got[1] == (number ? 0 : line->is_row ? 3 : 7);
    if (!good)
        printf("  a %s of %" PRIu64 " bytes\n", line->is_row ? "row" : "header", (uint64_t)line->length);
    tell(run, "A-03 a long line", good);
}

static void run_long_lines(struct run *run)
{
    static const char *const ends[] = {"\n", "\r\n", "", "\r"};
    int shapes = edition == DINO_23 ? SHAPES : BROKEN_UP;
    struct long_line line;
    size_t end;
    int shape;

    for (line.is_row = 0; line.is_row < 2; line.is_row++)
        for (shape = 0; shape < shapes; shape++)
            for (end = 0; end < 4; end++)
                for (line.length = 2047; line.length <= 2050; line.length++) {
                    line.shape = shape;
                    line.end = ends[end];
                    run_long_line(run, &line);
                }
}

/* 5/13: "an unclosed one runs to the text's end", "and 17 counts the row": every byte up to there, of a last line feed too. */
static void run_open_row(struct run *run, int is_row, int is_first, size_t length, const char *end)
{
    static const char *const beginnings[2][2] = {{"VERSION;\"DEPOT_NR\n1;3\n", "\"VERSION;DEPOT_NR\n1;3\n"},
        {"1;\"3\n1;4\n", "\"1\n1;4\n"}};
    struct growing text = {big[DEPOT], 0};
    struct text texts[TABLES];
    uint64_t number = length > 2048 ? 17 : 6;
    uint64_t at_line = is_row ? 2 : 1;
    uint64_t column = number == 17 ? 0 : is_first ? 1 : 2;
    uint64_t line, answer, place[4], got[4];
    size_t start;
    int good;

    put(&text, is_row ? D : "");
    start = text.length;
    put(&text, beginnings[is_row][is_first]);
    fill_up(&text, start + length - strlen(end));
    put(&text, end);
    depots_alone(texts, done(&text));
    good = is_read(run->side, texts, 1, start + 2040, 1, number, 2, at_line, column);
    for (line = 2; line < 6; line++) { /* on every line: it starts there, or above */
        answer = run->side->cell(by(), text.bytes, text.length, 2, line, 1, got, place);
        good = good && answered(answer, place, number, 2, at_line, column) && got[0] == 0;
    }
    answer = run->side->cell(by(), text.bytes, text.length, 2, 1, 1, got, place);
    good = good && answered(answer, place, is_row ? 15 : number, is_row ? 0 : 2, is_row ? 0 : at_line, is_row ? 0 : column);
    if (!good)
        printf("  %" PRIu64 " bytes\n", (uint64_t)length);
    tell(run, "C5-07 a row whose quotes stay open", good);
}

static void run_open_rows(struct run *run)
{
    static const char *const ends[] = {"", "\n", "\r\n", "\r", "\n\n", "\"\""};
    size_t length, end;
    int way;

    for (way = 0; way < 4; way++)
        for (end = 0; end < sizeof ends / sizeof ends[0]; end++)
            for (length = 2046; length <= 2051; length++)
                run_open_row(run, way / 2, way % 2, length, ends[end]);
}

/* Row 513 behind rows with breaks: 5 on the line that it starts on. And 17 of rows above before a cell's answer. */
static void run_broken_tables(struct run *run)
{
    struct growing text = {big[DEPOT], 0};
    struct text texts[TABLES];
    uint64_t i, answer, place[4], got[4];

    put(&text, "VERSION;DEPOT_NR;\"X\n\"\n");
    for (i = 1; i <= 512; i++) {
        put(&text, "1;");
        put_number(&text, i, 0);
        put(&text, i % 2 ? ";\"\r\n\"\n" : ";\n");
    }
    depots_alone(texts, done(&text));
    tell(run, "C5-04 512 rows on 770 lines", is_read(run->side, texts, 1, 30, LONG_PART, 0, 0, 0, 0));
    put(&text, "1;513;\n");
    depots_alone(texts, done(&text));
    tell(run, "C5-04 row 513 is on line 771", is_read(run->side, texts, 1, 30, LONG_PART, 5, 2, 771, 0));
    answer = run->side->cell(by(), text.bytes, text.length, 2, 771, 2, got, place);
    tell(run, "C5-05 a cell of row 513", answered(answer, place, 0, 0, 0, 0) && got[0] == 1 && got[1] == 513);
    put(&text, "1;\"");
    depots_alone(texts, done(&text));
    tell(run, "C5-04 row 513 before row 514's 6", is_read(run->side, texts, 1, 30, LONG_PART, 5, 2, 771, 0));
    answer = run->side->cell(by(), text.bytes, text.length, 2, 773, 2, got, place);
    tell(run, "C5-05 row 514's 6 before the line's 15", answered(answer, place, 6, 2, 772, 2));
    text.length = 0;
    put(&text, "VERSION;DEPOT_NR;X\n1;3;\"\n\"\n1;4;\"");
    fill_up(&text, text.length + 3000);
    put(&text, "\"\n1;5;\n1;6;a\"\n1;7;\n");
    for (i = 5; i <= 9; i++) {
        answer = run->side->cell(by(), text.bytes, text.length, 2, i, 2, got, place);
        tell(run, "C5-05 17 above before all else", answered(answer, place, 17, 2, 4, 0));
    }
    answer = run->side->cell(by(), text.bytes, text.length, 2, 3, 2, got, place);
    tell(run, "C5-05 15 before a 17 below", answered(answer, place, 15, 0, 0, 0));
}

/* 17 before what else is wrong with the line. */
struct long_order {
    const char *words;
    int is_row;
    const char *beginning;
    uint64_t number, column; /* the answer to a line of 2,048 bytes */
};

static const struct long_order long_orders[] = {
    {"C3-01 header: 17 before 6", 0, "VERSION;DEPOT_NR;a\";", 6, 3},
    {"C3-01 header: 17 before 6 by a byte", 0, "VERSION\t;DEPOT_NR;", 6, 1},
    {"C3-01 header: 17 before 4", 0, "VERSION;DEPOT_NR;" TEN_CELLS TEN_CELLS TEN_CELLS, 4, 0},
    {"C3-01 header: 17 before 3", 0, "VERSION;DEPOT_NR;DEPOT_NR;", 3, 2},
    {"C3-01 header: 17 before 2", 0, "VERSION;", 2, 2},
    {"C3-01 row: 17 before 6", 1, "1;3;\"a\"", 6, 3},
    {"C3-01 row: 17 before 7", 1, "1;3;;", 7, 0},
    {"C3-01 row: 17 before 8", 1, "x;3;", 8, 1},
    {"C3-01 row: 17 before 8, a number", 1, "1;", 7, 0},
    {"C3-01 row: 17 before 19", 1, ";3;", 19, 1},
    {"C3-01 row: 17 before 20", 1, "1;000003;", 20, 2},
    {"C3-01 row: 17 before 21", 1, "0;3;", 21, 1},
};

static void run_long_order(struct run *run, const struct long_order *order)
{
    struct long_line line = {order->is_row, BARE, 2048, "\n"};
    uint64_t at_line = order->is_row ? 2 : 1;
    uint64_t place[4], got[4], answer;
    struct text texts[TABLES];
    int good;

    depots_alone(texts, long_depots(&line, order->beginning));
    good = is_read(run->side, texts, 1, 1000, LONG_PART, order->number, 2, at_line, order->column);
    line.length = 2049;
    depots_alone(texts, long_depots(&line, order->beginning));
    good = good && is_read(run->side, texts, 1, 1000, LONG_PART, 17, 2, at_line, 0);
    answer = run->side->cell(by(), texts[1].bytes, texts[1].length, 2, 2, 1, got, place);
    good = good && answered(answer, place, 17, 2, at_line, 0) && got[0] == 0;
    /* the row behind it: "Other rows .. do not matter", but by 2.3 "a 6 or 17 in a row above comes first" */
    if (order->is_row) {
        answer = run->side->cell(by(), texts[1].bytes, texts[1].length, 2, 3, 2, got, place);
        if (edition == DINO_23)
            good = good && answered(answer, place, 17, 2, 2, 0) && got[0] == 0;
        else
            good = good && answered(answer, place, 0, 0, 0, 0) && got[0] == 1 && got[1] == 7;
    }
    tell(run, order->words, good);
}

/* An earlier line's fault before a later line's 17, and no 17 on a slip. */
static void run_long_elsewhere(struct run *run)
{
    struct growing slip = {big[SLIP], 0};
    struct growing depots = {big[DEPOT], 0};
    struct text texts[TABLES];
    uint64_t place[4], got[4], answer;

    put(&depots, D "1;3\n1;3\n");
    fill_up(&depots, depots.length + 3000);
    depots_alone(texts, done(&depots));
    tell(run, "C3-01 an earlier 9 before a later 17", is_read(run->side, texts, 1, 20, 100, 9, 2, 3, 0));
    answer = run->side->cell(by(), depots.bytes, depots.length, 2, 5, 2, got, place);
    if (edition == DINO_23)
        tell(run, "C5-05 a 17 above before the line's 15", answered(answer, place, 17, 2, 4, 0));
    else
        tell(run, "C3-01 the line's 15 before its 17", answered(answer, place, 15, 0, 0, 0));
    texts[0] = (struct text)T(V "\n1;4\n");
    tell(run, "C3-01 an earlier table's 7 before a later 17", is_read(run->side, texts, 1, 20, 100, 7, 1, 2, 0));
    read_into_book(run->side, whole_case, place);
    fill_up(&slip, 2100);
    answer = slip_on_book(run->side, done(&slip), place);
    tell(run, "C3-03 a long line on a slip is 12", answered(answer, place, 12, 5, 1, 0));
    slip.length = 0;
    put(&slip, "D\t");
    fill_up(&slip, 2100);
    put(&slip, "\t5\t3\t101\n");
    answer = slip_on_book(run->side, done(&slip), place);
    tell(run, "C3-03 a long field on a slip is 20", answered(answer, place, 20, 5, 1, 1));
}

/* ---- 3/13: what is announced and what comes */

struct announced_edge {
    const char *words;
    unsigned table;
    uint64_t announced;
    struct text text;
    uint64_t number, line, column;
};

#define LENGTH(s) (sizeof(s) - 1)

static const struct announced_edge announced_edges[] = {
    {"as announced", 2, LENGTH(DEPOTS), T(DEPOTS), 0, 0, 0},
    {"C3-04 a byte fewer", 2, LENGTH(DEPOTS) + 1, T(DEPOTS), 18, 0, 0},
    {"C3-04 a byte more", 2, LENGTH(DEPOTS) - 1, T(DEPOTS), 18, 0, 0},
    {"C3-04 a byte fewer of table 1", 1, LENGTH(TYPES) + 1, T(TYPES), 18, 0, 0},
    {"C3-04 a byte more of table 3", 3, LENGTH(STOPS) - 1, T(STOPS), 18, 0, 0},
    {"C3-04 a byte more of table 6", 6, LENGTH(POINTS) - 1, T(POINTS), 18, 0, 0},
    {"C3-04 a byte fewer of table 4", 4, LENGTH(BLOCKS) + 1, T(BLOCKS), 18, 0, 0},
    {"C3-04 a byte more of table 4", 4, LENGTH(BLOCKS) - 1, T(BLOCKS), 18, 0, 0},
    {"C3-04 a byte fewer of table 7", 7, LENGTH(CALENDAR) + 1, T(CALENDAR), 18, 0, 0},
    {"C3-04 a byte more of table 7", 7, LENGTH(CALENDAR) - 1, T(CALENDAR), 18, 0, 0},
    {"nothing came of table 7", 7, LENGTH(CALENDAR), T(""), 18, 0, 0},
    {"C3-06 18 in place of 21 of a day", 7, LENGTH(CALENDAR) + 13, T(CALENDAR "1;20230229;5\n1"), 18, 0, 0},
    {"C3-05 65,537 announced of table 7", 7, 65537, T(CALENDAR), 1, 0, 0},
    {"C3-11 0 announced of table 7", 7, 0, T(""), 2, 1, 1},
    {"nothing came", 2, LENGTH(DEPOTS), T(""), 18, 0, 0},
    {"C3-07 nothing was announced", 2, 0, T(DEPOTS), 18, 0, 0},
    {"C3-07 one byte, none announced", 2, 0, T("\n"), 18, 0, 0},
    {"C3-06 18 in place of 2", 2, 1, T(""), 18, 0, 0},
    {"C3-06 18 in place of a header's 6", 2, 3, T("\"\n"), 18, 0, 0},
    {"C3-06 18 in place of a row's 6", 2, LENGTH(D) + 3, T(D "\"\n1;3\n"), 18, 0, 0},
    {"C3-06 18 in place of 8", 2, LENGTH(D) + 5, T(D "1;x\n"), 18, 0, 0},
    {"C3-06 18 in place of 20", 2, LENGTH(D) + 10, T(D "1;000003\n"), 18, 0, 0},
    {"C3-06 18 in place of 9", 2, LENGTH(D) + 8, T(D "1;3\n1;3\n1"), 18, 0, 0},
    {"a fault in the surplus alone", 2, LENGTH(DEPOTS), T(DEPOTS "\""), 18, 0, 0},
    {"C3-05 65,537 announced, nothing came", 2, 65537, T(""), 1, 0, 0},
    {"C3-05 65,537 announced, a good table came", 2, 65537, T(DEPOTS), 1, 0, 0},
    {"C3-05 2^32 more announced", 2, 4294967296u + LENGTH(DEPOTS), T(DEPOTS), 1, 0, 0},
    {"C3-05 2^64 - 1 announced", 2, UINT64_MAX, T(DEPOTS), 1, 0, 0},
    {"C3-05 65,537 announced of table 4", 4, 65537, T(BLOCKS), 1, 0, 0},
    {"65,536 announced, fewer came", 2, 65536, T(DEPOTS), 18, 0, 0},
    {"C3-11 0 announced, nothing came", 2, 0, T(""), 2, 1, 1},
    {"1 announced, a line feed", 2, 1, T("\n"), 2, 1, 1},
    {"1 announced, a carriage return", 2, 1, T("\r"), 6, 1, 1},
};

/* Sends the whole case with one table like that; the verdict stands from its close on, and no other comes before. */
static void run_announced(struct run *run, const struct announced_edge *edge)
{
    const struct side *side = run->side;
    size_t size;
    int good = 1;

    for (size = 1; size < 100 && good; size += 98) {
        uint64_t place[4];
        size_t part, i;

        good = open_radio(side);
        part = part_of(edge->table);
        for (i = 0; i < TABLES && good; i++) {
            struct text text = i == part ? edge->text : whole_case[i];
            uint64_t number = i < part ? 0 : edge->number;
            uint64_t answer;

            good = announce(side, i == part ? edge->announced : text.length) && send_parts(side, text, size, size);
            answer = side->radio_close(&lent_radio, place);
            good = good && answered(answer, place, number, edge->table, number ? edge->line : 0, number ? edge->column : 0);
        }
        good = good && (edge->number == 0 || book_is(zeros));
    }
    tell(run, edge->words, good);
}

/* Two tables with something wrong: the first one's fault stays. */
static void run_two_faults(struct run *run)
{
    static const struct {
        const char *words;
        uint64_t first_announced, second_announced; /* 0: as long as the text */
        struct text first;
        uint64_t number, line, column; /* at table 1 */
    } two[] = {
        {"C3-06 an 8 of table 1 before table 2's 18", 0, 3, T(V "VEH_TYPE_SEATS\n1;4;x\n"), 8, 2, 3},
        {"C3-06 a 21 of table 1 before table 2's 18", 0, 3, T(V "VEH_TYPE_ACCESS_EQUIP\n1;4;8\n"), 21, 2, 11},
        {"C3-06 a 2 of table 1 before table 2's 1", 0, 65537, T("X"), 2, 1, 1},
        {"C3-06 an 18 of table 1 before table 2's 18", 3, 3, T(TYPES), 18, 0, 0},
        {"C3-06 an 18 of table 1 before table 2's 1", 3, 65537, T(TYPES), 18, 0, 0},
        {"C3-06 a 1 of table 1 before table 2's 18", 65537, 3, T(TYPES), 1, 0, 0},
    };
    const struct side *side = run->side;
    size_t k;

    for (k = 0; k < sizeof two / sizeof two[0]; k++) {
        uint64_t place[4], answer;
        int good = open_radio(side);
        size_t i;

        for (i = 0; i < TABLES; i++) {
            struct text text = i == 0 ? two[k].first : whole_case[i];
            uint64_t announced = i == 0 ? two[k].first_announced : i == 1 ? two[k].second_announced : 0;

            good = good && announce(side, announced ? announced : text.length) && send_parts(side, text, 5, 5);
            answer = side->radio_close(&lent_radio, place);
            good = good && answered(answer, place, two[k].number, 1, two[k].line, two[k].column);
        }
        tell(run, two[k].words, good && book_is(zeros));
    }
}

/* Endless surplus: what is counted must not run over. */
static void run_surplus(struct run *run)
{
    const struct text many = {big[SLIP], 65536};
    const struct side *side = run->side;
    uint64_t place[4], answer;
    int good = open_radio(side) && announce(side, 1);
    size_t i;

    fill(big[SLIP], 65536, '\n');
    for (i = 0; i < 20; i++)
        good = good && send_parts(side, many, 65536, 65536);
    answer = side->radio_close(&lent_radio, place);
    tell(run, "C3-07 much surplus", good && answered(answer, place, 18, 1, 0, 0));
}

/* ---- 3/13: turns, lengths, what is kept */

/* All that is kept, to be looked at again or taken up again. */
static struct kept_radio {
    row book[BOOK_ROWS + 1];
    uint64_t kept[RADIO_KEPT + 1];
    uint8_t lines[RADIO_LINES + 1];
    struct second_radio own;
} kept_before, kept_other;

static void keep_radio(struct kept_radio *kept)
{
    memcpy(kept->book, book, sizeof kept->book);
    memcpy(kept->kept, radio_kept, sizeof kept->kept);
    memcpy(kept->lines, radio_lines, sizeof kept->lines);
    kept->own = radio_own;
}

static void take_up(const struct kept_radio *kept)
{
    memcpy(book, kept->book, sizeof kept->book);
    memcpy(radio_kept, kept->kept, sizeof kept->kept);
    memcpy(radio_lines, kept->lines, sizeof kept->lines);
    radio_own = kept->own;
}

static int is_as_kept(const struct kept_radio *kept)
{
    return memcmp(kept->book, book, sizeof kept->book) == 0 && memcmp(kept->kept, radio_kept, sizeof kept->kept) == 0
        && memcmp(kept->lines, radio_lines, sizeof kept->lines) == 0;
}

enum radio_call { ANNOUNCE, PART, EMPTY_PART, CLOSE, OPEN, RADIO_CALLS };

static uint64_t make_call(const struct side *side, enum radio_call call, const struct radio *lent, uint64_t place[4])
{
    static const struct text some = T("VERSION;\"\r"), none = T("");

    switch (call) {
    case ANNOUNCE: return side->radio_announce(7, lent, place);
    case PART: return side->radio_part(some, lent, place);
    case EMPTY_PART: return side->radio_part(none, lent, place);
    case CLOSE: return side->radio_close(lent, place);
    default: return side->radio_open(by(), lent, place);
    }
}

/* Whether a call gives this number without a place, and changes nothing. */
static int does_nothing(const struct side *side, enum radio_call call, const struct radio *lent, uint64_t number)
{
    uint64_t place[4] = {9, 9, 9, 9};
    uint64_t answer;

    keep_radio(&kept_before);
    answer = make_call(side, call, lent, place);
    return answered(answer, place, number, 0, 0, 0) && is_as_kept(&kept_before);
}

/* Every call at every wrong length: 16, in turn or not. */
static int lengths_are_16(const struct side *side)
{
    static const size_t wrong_rows[] = {0, 1, BOOK_ROWS - 1, BOOK_ROWS + 1};
    static const size_t wrong_kept[] = {0, 1, RADIO_KEPT - 1, RADIO_KEPT + 1};
    static const size_t wrong_lines[] = {0, 1, RADIO_LINES - 1, RADIO_LINES + 1};
    int good = 1;
    size_t i;
    int call;

    for (call = 0; call < RADIO_CALLS; call++)
        for (i = 0; i < 4; i++) {
            struct radio lent = lent_radio;

            lent.lengths.rows = wrong_rows[i];
            good = good && does_nothing(side, (enum radio_call)call, &lent, 16);
            lent.lengths.lines = wrong_lines[i];
            good = good && does_nothing(side, (enum radio_call)call, &lent, 16);
            lent.lengths.rows = BOOK_ROWS;
            good = good && does_nothing(side, (enum radio_call)call, &lent, 16);
            lent.lengths.lines = RADIO_LINES;
            lent.lengths.kept = wrong_kept[i];
            good = good && does_nothing(side, (enum radio_call)call, &lent, 16);
        }
    return good;
}

/* At each point of a delivery: what is out of turn is 15, a wrong length 16, an empty part in its turn is accepted, and
 * nothing of that changes anything. */
static void run_turns(struct run *run)
{
    const struct side *side = run->side;
    uint64_t place[4];
    int out_of_turn, lengths, empty, good;
    size_t i;

    good = out_of_turn = lengths = empty = open_radio(side);
    for (i = 0; i <= TABLES; i++) {
        out_of_turn = out_of_turn && does_nothing(side, PART, &lent_radio, 15)
            && does_nothing(side, EMPTY_PART, &lent_radio, 15) && does_nothing(side, CLOSE, &lent_radio, 15);
        lengths = lengths && lengths_are_16(side);
        if (i == TABLES)
            break;
        good = good && announce(side, whole_case[i].length);
        empty = empty && does_nothing(side, EMPTY_PART, &lent_radio, 0);
        out_of_turn = out_of_turn && does_nothing(side, ANNOUNCE, &lent_radio, 15);
        good = good && send_parts(side, whole_case[i], whole_case[i].length - 1, 1);
        empty = empty && does_nothing(side, EMPTY_PART, &lent_radio, 0);
        out_of_turn = out_of_turn && does_nothing(side, ANNOUNCE, &lent_radio, 15);
        lengths = lengths && lengths_are_16(side);
        side->radio_close(&lent_radio, place);
    }
    out_of_turn = out_of_turn && does_nothing(side, ANNOUNCE, &lent_radio, 15);
    tell(run, "C3-10 calls out of turn", out_of_turn);
    tell(run, "C3-15 calls at wrong lengths", lengths);
    tell(run, "empty parts", empty);
    tell(run, "the delivery between them",
        good && answered(place[0], place, 0, 0, 0, 0) && writes(side, BLOCK_ROWS) && type_is(side, 1, 4, 0, 38800, 2));
}

/* The rest of the whole case, from the second table on. */
static int finish_whole_case(const struct side *side)
{
    uint64_t place[4] = {9, 9, 9, 9};
    int good = 1;
    size_t i;

    for (i = 1; i < TABLES && good; i++) {
        good = announce(side, whole_case[i].length) && send_parts(side, whole_case[i], 7, 7);
        side->radio_close(&lent_radio, place);
    }
    return good && answered(place[0], place, 0, 0, 0, 0) && writes(side, BLOCK_ROWS);
}

static int begin_whole_case(const struct side *side)
{
    uint64_t place[4];
    int good = open_radio(side) && announce(side, whole_case[0].length) && send_parts(side, whole_case[0], 9, 4);

    return answered(side->radio_close(&lent_radio, place), place, 0, 0, 0, 0) && good;
}

/* A delivery that is begun anew, laid aside, taken up twice, and one beside it. */
static void run_kept_radio(struct run *run)
{
    const struct side *side = run->side;
    uint64_t place[4];
    int good;

    good = open_radio(side) && announce(side, 99) && send_parts(side, whole_case[4], 50, 50);
    tell(run, "begun anew in a table", good && begin_whole_case(side) && finish_whole_case(side));
    good = open_radio(side) && announce(side, 0);
    side->radio_close(&lent_radio, place);
    tell(run, "begun anew behind a fault", good && begin_whole_case(side) && finish_whole_case(side));
    tell(run, "begun anew behind the last close", begin_whole_case(side) && finish_whole_case(side));

    good = begin_whole_case(side);
    keep_radio(&kept_other);
    good = good && finish_whole_case(side);
    memcpy(before, book, sizeof before);
    good = good && open_radio(side) && announce(side, 1); /* another one beside it, in the same arrays */
    take_up(&kept_other);
    good = good && finish_whole_case(side) && book_is((const row *)before);
    tell(run, "laid aside, and taken up twice", good);
}

/* "handed in against that rule it is 16, before 15, and stays as it came": the rule has the book rule in it. The second
 * reader keeps nothing there that could be damaged. */
static void run_damaged_radio(struct run *run)
{
    const struct side *side = run->side;
    uint64_t place[4];
    size_t i, p;
    int good;
    int call;

    if (side->radio_open == second_side.radio_open)
        return;
    for (p = 0; p < sizeof pokes / sizeof pokes[0]; p++) {
        if (pokes[p].kept)
            continue;
        good = send_delivery(side, whole_case, TABLES, 1, 1, place);
        book[pokes[p].row][pokes[p].column] = pokes[p].number;
        for (call = ANNOUNCE; call <= CLOSE; call++)
            good = good && does_nothing(side, (enum radio_call)call, &lent_radio, 16);
        tell(run, pokes[p].words, good);
    }
    for (i = 0; i < RADIO_KEPT; i++) {
        send_delivery(side, whole_case, TABLES, 1, 1, place);
        radio_kept[i] = UINT64_MAX;
        good = 1;
        for (call = ANNOUNCE; call <= CLOSE; call++)
            good = good && does_nothing(side, (enum radio_call)call, &lent_radio, 16);
        tell(run, "C3-12 a kept number is 2^64 - 1", good);
    }
}

/* The same behind a fault. A fault is a table's, with one of the numbers of a reading: what became another number is not
 * repeated by a close. */
static void run_damaged_fault(struct run *run)
{
    static const uint64_t numbers[] = {0, 5, 12, 13, 14, 15, 16, 99};
    static const struct text types = T(V "VEH_TYPE_SEATS\n1;4;x\n");
    const struct side *side = run->side;
    size_t i, k;
    int call;

    if (side->radio_open == second_side.radio_open)
        return;
    for (k = 0; k < sizeof numbers / sizeof numbers[0]; k++)
        for (i = 0; i < RADIO_KEPT; i++) {
            uint64_t place[4], answer;
            int good = open_radio(side) && announce(side, types.length) && send_parts(side, types, 5, 5);

            answer = side->radio_close(&lent_radio, place);
            good = good && answered(answer, place, 8, 1, 2, 3);
            radio_kept[i] = numbers[k];
            for (call = ANNOUNCE; call <= CLOSE; call++) {
                keep_radio(&kept_before);
                answer = make_call(side, (enum radio_call)call, &lent_radio, place);
                good = good && (answer < 12 || answer > 14) && answer != 99;
                if (answer == 0 || answer == 15 || answer == 16)
                    good = good && answered(answer, place, answer, 0, 0, 0);
                if (answer == 15 || answer == 16)
                    good = good && is_as_kept(&kept_before);
            }
            tell(run, "C3-12 a number kept behind a fault is another", good);
        }
}

static void run_radio(struct run *run)
{
    size_t i;

    if (!has_radio(run->side))
        return;
    for (i = 0; i < sizeof announced_edges / sizeof announced_edges[0]; i++)
        run_announced(run, &announced_edges[i]);
    run_two_faults(run);
    run_surplus(run);
    run_turns(run);
    run_kept_radio(run);
    run_damaged_radio(run);
    run_damaged_fault(run);
}

/* ---- 5/13: editions */

/* 22: "right after 16", before all else. */
static void run_strange_edition(struct run *run, uint64_t name)
{
    static const struct text nothing[TABLES] = {T(""), T(""), T(""), T(""), T(""), T("")};
    const struct side *side = run->side;
    uint64_t place[4], got[4], answer;
    int good;

    fill(book, sizeof book, 0xA5);
    answer = side_read(side, name, whole_case, book, BOOK_ROWS, place);
    good = answered(answer, place, 22, 0, 0, 0) && book_is(zeros);
    fill(book, sizeof book, 0xA5);
    answer = side_read(side, name, nothing, book, BOOK_ROWS, place);
    tell(run, "C5-01 a reading by no edition", good && answered(answer, place, 22, 0, 0, 0) && book_is(zeros));
    fill(book, sizeof book, 0xA5);
    memcpy(before, book, sizeof before);
    answer = side_read(side, name, whole_case, book, BOOK_ROWS - 1, place);
    tell(run, "C5-01 16 before 22", answered(answer, place, 16, 0, 0, 0) && memcmp(before, book, sizeof before) == 0);
    fill(got, sizeof got, 0xA5);
    answer = side->cell(name, (const uint8_t *)DEPOTS, strlen(DEPOTS), 2, 2, 2, got, place);
    tell(run, "C5-01 a cell by no edition", answered(answer, place, 22, 0, 0, 0) && memcmp(got, zeros, sizeof got) == 0);
    answer = side->cell(name, (const uint8_t *)"", 0, 0, 0, 0, got, place);
    tell(run, "C5-01 22 before 15", answered(answer, place, 22, 0, 0, 0));
}

/* A delivery that stands there goes on. */
static void run_strange_opening(struct run *run, uint64_t name)
{
    const struct side *side = run->side;
    struct radio short_by_one = lent_radio;
    uint64_t place[4], answer;
    int good = begin_whole_case(side);

    keep_radio(&kept_before);
    answer = side->radio_open(name, &lent_radio, place);
    good = good && answered(answer, place, 22, 0, 0, 0) && is_as_kept(&kept_before);
    short_by_one.lengths.rows--;
    answer = side->radio_open(name, &short_by_one, place);
    good = good && answered(answer, place, 16, 0, 0, 0) && is_as_kept(&kept_before);
    tell(run, "C5-01 22 changes nothing, 16 before it", good && finish_whole_case(side) && marks_are(edition == DINO_23));
}

/* The same texts by one edition and then by the other, into the same arrays. */
static void run_both_editions(struct run *run)
{
    static const struct text broken = T(S "1;20;\"a\nb\"\n1;31;c\n");
    const unsigned own = edition;
    struct text texts[TABLES];
    unsigned turn;
    int good = 1;

    memcpy(texts, whole_case, sizeof texts);
    texts[part_of(STOP)] = broken;
    for (turn = 0; turn < 4; turn++) {
        edition = (own + turn) % EDITIONS;
        if (edition == DINO_23)
            good = good && is_read(run->side, texts, part_of(STOP), 30, 1, 0, 0, 0, 0) && writes(run->side, BLOCK_ROWS);
        else
            good = good && is_read(run->side, texts, part_of(STOP), 30, 1, 6, 3, 2, 3);
    }
    edition = own;
    tell(run, "one edition and then the other", good);
}

/* C5-10: headers alone leave the book without rows, and it is the empty one by 2.1 alone. */
static void run_headers_alone(struct run *run)
{
    static const struct text headers[TABLES] = {T("VERSION;VEH_TYPE_NR"), T(D), T(S), T(P), T(BLOCK_HEADER),
        T(CALENDAR)};
    static const struct text slip = T("");
    uint64_t place[4], answer;
    int good = is_read(run->side, headers, TABLES, 1, 1, 0, 0, 0, 0);

    good = good && memcmp(book, zeros, MARKS * sizeof book[0]) == 0 && marks_are(edition == DINO_23);
    answer = slip_on_book(run->side, slip, place);
    good = good && answered(answer, place, 0, 0, 0, 0) && marks_are(edition == DINO_23);
    tell(run, "C5-10 headers alone", good && writes(run->side, ""));
}

static void run_editions(struct run *run)
{
    static const uint64_t strange[] = {0, 1, 2, 20, 22, 24, 4294967296u + 21, 4294967296u + 23, UINT64_MAX};
    size_t i;

    for (i = 0; i < sizeof strange / sizeof strange[0]; i++) {
        run_strange_edition(run, strange[i]);
        if (has_radio(run->side))
            run_strange_opening(run, strange[i]);
    }
    run_both_editions(run);
    run_headers_alone(run);
}

#define COUNT(list) (sizeof(list) / sizeof(list)[0])

/* What holds by one edition alone. */
static void run_lists_21(struct run *run)
{
    size_t i;

    for (i = 0; i < COUNT(reading_edges_21); i++)
        run_reading(run, &reading_edges_21[i]);
    for (i = 0; i < COUNT(slip_edges_21); i++)
        run_slip(run, &slip_edges_21[i]);
    for (i = 0; i < COUNT(cell_edges_21); i++)
        run_cell(run, &cell_edges_21[i]);
    for (i = 0; i < COUNT(columns_edges_21); i++)
        run_columns(run, &columns_edges_21[i]);
}

static void run_lists_23(struct run *run)
{
    size_t i;

    for (i = 0; i < COUNT(reading_edges_23); i++)
        run_reading(run, &reading_edges_23[i]);
    for (i = 0; i < COUNT(slip_edges_23); i++)
        run_slip(run, &slip_edges_23[i]);
    for (i = 0; i < COUNT(cell_edges_23); i++)
        run_cell(run, &cell_edges_23[i]);
    for (i = 0; i < COUNT(columns_edges_23); i++)
        run_columns(run, &columns_edges_23[i]);
    run_open_rows(run);
    run_broken_tables(run);
}

static void run_by_edition(struct run *run)
{
    size_t i;

    for (i = 0; i < COUNT(reading_edges); i++)
        run_reading(run, &reading_edges[i]);
    for (i = 0; i < COUNT(slip_edges); i++)
        run_slip(run, &slip_edges[i]);
    for (i = 0; i < COUNT(cell_edges); i++)
        run_cell(run, &cell_edges[i]);
    for (i = 0; i < COUNT(pokes); i++)
        run_poke(run, &pokes[i]);
    for (i = 0; i < COUNT(further_points); i++)
        run_further_point(run, &further_points[i]);
    for (i = 0; i < COUNT(calendar_rows); i++)
        run_calendar_rows(run, &calendar_rows[i]);
    for (i = 0; i < COUNT(times_edges); i++)
        run_times(run, &times_edges[i]);
    for (i = 0; i < COUNT(columns_edges); i++)
        run_columns(run, &columns_edges[i]);
    if (edition == DINO_21)
        run_lists_21(run);
    else
        run_lists_23(run);
    run_lowest_columns(run);
    run_lowest_fields(run);
    run_long_tables(run);
    run_long_texts(run);
    run_full_book(run);
    run_questions(run);
    run_seasons(run);
    run_days(run);
    run_greatest_season(run);
    run_hours(run);
    run_hours_order(run);
    run_hours_of_versions(run);
    run_hours_asked(run);
    run_season_hours(run);
    run_calendar_last(run);
    run_writer(run);
    run_widest_book(run);
    run_lengths(run);
    run_book_before_slip(run);
    run_long_lines(run);
    for (i = 0; i < COUNT(long_orders); i++)
        run_long_order(run, &long_orders[i]);
    run_long_elsewhere(run);
    run_editions(run);
    run_radio(run);
}

void edges_run(const struct side *side, size_t *passed, size_t *failed)
{
    struct run run = {side, 0, 0};

    for (edition = 0; edition < EDITIONS; edition++)
        run_by_edition(&run);
    edition = DINO_21;
    *passed += run.passed;
    *failed += run.failed;
}
