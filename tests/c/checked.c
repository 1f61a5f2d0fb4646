/* Runs checked values, and texts and octets to refuse, through the archive, in rooms that are too short, just long enough and
 * longer, and prints a line for each call: `WORK;TYPE;LIMITS;INPUT;ROOM = NUMBER LENGTH BITS AFTER`, as reference/checked.py
 * has them. The cases stand here and there, and neither takes the other's word. ROOM is how many octets were lent, each of
 * them AA, and AFTER is what they are after the call, in hex. Marked octets lie before the room and behind it, and where one
 * has changed the line goes on to say so. */
#include "calls.h"

/* The largest room that is lent, what it holds, and what lies around it. */
enum { LARGEST = 24, LENT = 0xAA, MARK = 0x5C };

/* The restrictions of the cases. */
enum bounds { NONE, DECADE, REVERSED, SINGLE, LAST, NO_24, DECADE_NO_24 };

static const struct {
    const char *name;
    struct anafzir_limits limits;
} BOUNDS[] = {
    [NONE] = {"none", {0, 0, 0, 0, 0, 0, 0}},
    [DECADE] = {"2000..2010", {1, 2000, 2010, 0, 0, 0, 0}},
    [REVERSED] = {"2010..2000", {1, 2010, 2000, 0, 0, 0, 0}},
    [SINGLE] = {"-44..-44", {1, -44, -44, 0, 0, 0, 0}},
    [LAST] = {"999999999..2147483647", {1, 999999999, INT32_MAX, 0, 0, 0, 0}},
    [NO_24] = {"no24", {0, 0, 0, 1, 0, 0, 0}},
    [DECADE_NO_24] = {"2000..2010,no24", {1, 2000, 2010, 1, 0, 0, 0}},
};

struct octets {
    const char *start;
    size_t count;
};

/* The octets of a literal, zeros among them too. */
#define OCTETS(literal) {literal, sizeof(literal) - 1}

/* A list of years, and six of them in two orders. */
#define Y(year) "Basic=Date Date=Y Year=" year
#define SIX_LISTS Y("Negative") "|" Y("L5") "|" Y("L6") "|" Y("L7") "|" Y("L8") "|" Y("L9")
#define SIX_OTHERWISE Y("L9") "|" Y("L6") "|" Y("Negative") "|" Y("L8") "|" Y("L5") "|" Y("L7")

/* A value: its text, its octets in PER and its octets in DER, each made of the others. */
static const struct {
    const char *type;
    enum bounds bounds;
    struct octets text, per, der;
} GOOD[] = {
    {"Basic=Date Date=Y Year=Proleptic", NONE, OCTETS("0000"), OCTETS("\xC0\x40\x00"), OCTETS("\x0E\x04" "0000")},
    {"Basic=Time Time=HMSF4 Local-or-UTC=L", NONE, OCTETS("15:27:46.0999"), OCTETS("\x7B\x77\x3E\x70"),
     OCTETS("\x0E\x0D" "15:27:46.0999")},
    {"Basic=Time Time=HMSF4 Local-or-UTC=L", NONE, OCTETS("15:27:46.1000"), OCTETS("\x7B\x77\x40\x80\xFA\x00"),
     OCTETS("\x0E\x0D" "15:27:46.1000")},
    {"DATE", NONE, OCTETS("2006-06-13"), OCTETS("\x05\x58"), OCTETS("\x1F\x1F\x08" "20060613")},
    {"DATE", NONE, OCTETS("1582-01-01"), OCTETS("\xC0\x81\x8B\x80\x00"), OCTETS("\x1F\x1F\x08" "15820101")},
    {"DATE", DECADE, OCTETS("2000-01-01"), OCTETS("\xBE\xC0\x00"), OCTETS("\x1F\x1F\x08" "20000101")},
    {"DATE", DECADE, OCTETS("2010-12-31"), OCTETS("\x16\xFC"), OCTETS("\x1F\x1F\x08" "20101231")},
    {"TIME-OF-DAY", NONE, OCTETS("24:00:00"), OCTETS("\xC0\x00\x00"), OCTETS("\x1F\x20\x06" "240000")},
    {"TIME-OF-DAY", NO_24, OCTETS("23:59:60"), OCTETS("\xBF\x7E\x00"), OCTETS("\x1F\x20\x06" "235960")},
    {"DATE-TIME", DECADE_NO_24, OCTETS("2006-06-13T15:27:46"), OCTETS("\x05\x58\xF6\xEE"),
     OCTETS("\x1F\x21\x0E" "20060613152746")},
    {"Basic=Date Date=YMD Year=Negative|Basic=Date Date=YMD Year=L5", SINGLE, OCTETS("-0044-03-15"),
     OCTETS("\x01\xD4\x27\x00"), OCTETS("\x0E\x0B" "-0044-03-15")},
    {"Basic=Time Time=HM Local-or-UTC=LD", NONE, OCTETS("15:27-05:30"), OCTETS("\x7B\x75\x3A"), OCTETS("\x0E\x0B" "15:27-05:30")},
    {"DURATION", NONE, OCTETS("P1Y6M"), OCTETS("\xC0\x04\xC0"), OCTETS("\x1F\x22\x04" "1Y6M")},
    {"DURATION", NONE, OCTETS("PT0.5S"), OCTETS("\x03\x00\x00\x20"), OCTETS("\x1F\x22\x05" "T0.5S")},
    {"Basic=Interval Interval-type=D", NONE, OCTETS("PT0.5S"), OCTETS("\x03\x00\x00\x20"), OCTETS("\x0E\x06" "PT0.5S")},
    {"DURATION", NONE, OCTETS("P1D"), OCTETS("\x10\x04"), OCTETS("\x1F\x22\x02" "1D")},
    {"Basic=Interval Interval-type=D", NONE, OCTETS("P0M"), OCTETS("\x40\x00"), OCTETS("\x0E\x03" "P0M")},
    {"DURATION", NONE, OCTETS("P1Y0M"), OCTETS("\xC0\x04\x00"), OCTETS("\x1F\x22\x04" "1Y0M")},
    {"DURATION", NONE, OCTETS("P5W"), OCTETS("\x20\x0A"), OCTETS("\x1F\x22\x02" "5W")},
    {"Basic=Interval Interval-type=D", NONE, OCTETS("P64W"), OCTETS("\x20\x80\xA0\x00"), OCTETS("\x0E\x04" "P64W")},
    {"DURATION", NONE, OCTETS("P2Y10M15DT10H20M30S"), OCTETS("\xDE\x09\x47\x94\x50\xF0"),
     OCTETS("\x1F\x22\x12" "2Y10M15DT10H20M30S")},
    {"Basic=Interval Interval-type=D", NONE, OCTETS("P999999999Y"), OCTETS("\x80\x82\x1D\xCD\x64\xFF\x80"),
     OCTETS("\x0E\x0B" "P999999999Y")},
    {"DURATION", NONE, OCTETS("PT0.000S"), OCTETS("\x03\x00\xA0\x20\x00"), OCTETS("\x1F\x22\x07" "T0.000S")},
    {"Basic=Interval Interval-type=D", NONE, OCTETS("PT0.1000S"), OCTETS("\x03\x01\x01\x04\x81\x01\xF4\x00"),
     OCTETS("\x0E\x09" "PT0.1000S")},
    {"TIME-OF-DAY", NONE, OCTETS("12:34:60"), OCTETS("\x64\x5E\x00"), OCTETS("\x1F\x20\x06" "123460")},
    {"Basic=Time Time=HMS Local-or-UTC=Z", NONE, OCTETS("23:59:60Z"), OCTETS("\xBF\x7E\x00"), OCTETS("\x0E\x09" "23:59:60Z")},
    {"Basic=Time Time=HMS Local-or-UTC=LD", NONE, OCTETS("05:29:60+05:30"), OCTETS("\x2B\xBE\x68\xE8"),
     OCTETS("\x0E\x0E" "05:29:60+05:30")},
    {"Basic=Time Time=HMS Local-or-UTC=LD", NONE, OCTETS("18:59:60-05"), OCTETS("\x97\x7E\x14"), OCTETS("\x0E\x0B" "18:59:60-05")},
    {"Basic=Time Time=HMS Local-or-UTC=LD", NO_24, OCTETS("23:59:60+00"), OCTETS("\xBF\x7E\x1E"),
     OCTETS("\x0E\x0B" "23:59:60+00")},
    {"Basic=Time Time=HMS Local-or-UTC=LD", NONE, OCTETS("15:58:60+15:59"), OCTETS("\x7F\x5E\x7D\xD0"),
     OCTETS("\x0E\x0E" "15:58:60+15:59")},
    {"Basic=Time Time=HMS Local-or-UTC=LD", NONE, OCTETS("08:00:60-15:59"), OCTETS("\x40\x1E\x41\xD0"),
     OCTETS("\x0E\x0E" "08:00:60-15:59")},
    {"Basic=Time Time=HMSF3 Local-or-UTC=LD", NONE, OCTETS("00:59:60.999+01"), OCTETS("\x07\x7E\x3E\x74\x00"),
     OCTETS("\x0E\x0F" "00:59:60.999+01")},
    {"Basic=Date-Time Date=Y Year=Basic Time=HMS Local-or-UTC=Z", DECADE_NO_24, OCTETS("2005T23:59:60Z"), OCTETS("\x02\xFD\xF8"),
     OCTETS("\x0E\x0E" "2005T23:59:60Z")},
    {Y("L5"), NONE, OCTETS("+10000"), OCTETS("\x02\x27\x10"), OCTETS("\x0E\x06" "+10000")},
    {Y("L5"), NONE, OCTETS("-99999"), OCTETS("\x03\xFE\x79\x61"), OCTETS("\x0E\x06" "-99999")},
    {Y("L6"), NONE, OCTETS("+100000"), OCTETS("\x03\x01\x86\xA0"), OCTETS("\x0E\x07" "+100000")},
    {Y("L6"), NONE, OCTETS("-999999"), OCTETS("\x03\xF0\xBD\xC1"), OCTETS("\x0E\x07" "-999999")},
    {Y("L7"), NONE, OCTETS("-1000000"), OCTETS("\x03\xF0\xBD\xC0"), OCTETS("\x0E\x08" "-1000000")},
    {Y("L7"), NONE, OCTETS("+9999999"), OCTETS("\x04\x00\x98\x96\x7F"), OCTETS("\x0E\x08" "+9999999")},
    {Y("L8"), NONE, OCTETS("+10000000"), OCTETS("\x04\x00\x98\x96\x80"), OCTETS("\x0E\x09" "+10000000")},
    {Y("L8"), NONE, OCTETS("-99999999"), OCTETS("\x04\xFA\x0A\x1F\x01"), OCTETS("\x0E\x09" "-99999999")},
    {Y("L9"), NONE, OCTETS("-100000000"), OCTETS("\x04\xFA\x0A\x1F\x00"), OCTETS("\x0E\x0A" "-100000000")},
    {Y("L9"), NONE, OCTETS("-999999999"), OCTETS("\x04\xC4\x65\x36\x01"), OCTETS("\x0E\x0A" "-999999999")},
    {Y("L9"), LAST, OCTETS("+999999999"), OCTETS("\x04\x3B\x9A\xC9\xFF"), OCTETS("\x0E\x0A" "+999999999")},
    {Y("L7") "|" Y("Negative"), NONE, OCTETS("-0128"), OCTETS("\x01\x80"), OCTETS("\x0E\x05" "-0128")},
    {SIX_LISTS, NONE, OCTETS("-0129"), OCTETS("\x02\xFF\x7F"), OCTETS("\x0E\x05" "-0129")},
    {SIX_OTHERWISE, NONE, OCTETS("-8388608"), OCTETS("\x03\x80\x00\x00"), OCTETS("\x0E\x08" "-8388608")},
    {SIX_OTHERWISE, NONE, OCTETS("-8388609"), OCTETS("\x04\xFF\x7F\xFF\xFF"), OCTETS("\x0E\x08" "-8388609")},
    {"Basic=Date Date=YMD Year=L9", NONE, OCTETS("+999999600-02-29"), OCTETS("\x04\x3B\x9A\xC8\x70\x1E\x00"),
     OCTETS("\x0E\x10" "+999999600-02-29")},
    {"Basic=Date Date=YW Year=L9", NONE, OCTETS("-999999980-W53"), OCTETS("\x04\xC4\x65\x36\x14\xD0"),
     OCTETS("\x0E\x0E" "-999999980-W53")},
    {"Basic=Date-Time Date=YD Year=L9 Time=H Local-or-UTC=Z", NONE, OCTETS("-999999996-366T24Z"),
     OCTETS("\x04\xC4\x65\x36\x04\xB6\xE0"), OCTETS("\x0E\x12" "-999999996-366T24Z")},
};

/* A text that is to be refused, in PER and in DER. */
static const struct {
    const char *type;
    enum bounds bounds;
    struct octets text;
} BAD_TEXTS[] = {
    {"DATE", NONE, OCTETS("1581-12-31")},
    {"DATE", NONE, OCTETS("2006-02-29")},
    {"DATE", NONE, OCTETS("1500-02-30")},
    {"DATE", NONE, OCTETS("")},
    {"DATE", DECADE, OCTETS("1999-12-31")},
    {"DATE", DECADE, OCTETS("2011-01-01")},
    {"DATE", REVERSED, OCTETS("2005-06-13")},
    {"DATE", REVERSED, OCTETS("2005-02-29")},
    {"TIME-OF-DAY", NO_24, OCTETS("24:00:00")},
    {"TIME-OF-DAY", NO_24, OCTETS("24:00:01")},
    {"TIME-OF-DAY", NONE, OCTETS("24:00:01")},
    {"TIME-OF-DAY", DECADE, OCTETS("15:27:46")},
    {"DATE", NO_24, OCTETS("2006-06-13")},
    {"Basic=Date Date=Y Year=Basic|Basic=Date Date=Y Year=L5", NONE, OCTETS("2006")},
    {"DURATION", NONE, OCTETS("")},
    {"DURATION", NONE, OCTETS("P")},
    {"DURATION", NONE, OCTETS("P1YT")},
    {"DURATION", NONE, OCTETS("P01Y")},
    {"DURATION", NONE, OCTETS("P1.5Y6M")},
    {"DURATION", NONE, OCTETS("P1000000000Y")},
    {"DURATION", NONE, OCTETS("PT0.1234567890S")},
    {"Basic=Interval Interval-type=D", NONE, OCTETS("P0Y1W")},
    {"Basic=Interval Interval-type=D", NONE, OCTETS("P6M1Y")},
    {"Basic=Interval Interval-type=D", NONE, OCTETS("P-1Y")},
    {"DURATION", NONE, OCTETS("2006-06-13")},
    {"DATE", NONE, OCTETS("P1Y6M")},
    {"DURATION", DECADE, OCTETS("P1Y6M")},
    {"Basic=Interval Interval-type=D", NO_24, OCTETS("P01Y")},
    {"Basic=Interval Interval-type=D|Basic=Interval Interval-type=D", NONE, OCTETS("P1Y6M")},
    {"Basic=Interval Interval-type=D|Basic=Date Date=Y Year=Basic", NONE, OCTETS("P1Y6M")},
    {"Basic=Time Time=HMS Local-or-UTC=Z", NONE, OCTETS("12:34:60Z")},
    {"Basic=Time Time=HMS Local-or-UTC=LD", NONE, OCTETS("05:30:60+05:30")},
    {"Basic=Time Time=HMS Local-or-UTC=LD", NONE, OCTETS("23:59:60+05:30")},
    {"Basic=Time Time=HMS Local-or-UTC=LD", NONE, OCTETS("18:29:60+05:30")},
    {"Basic=Time Time=HMS Local-or-UTC=LD", NONE, OCTETS("04:59:60+05:30")},
    {"Basic=Time Time=HMS Local-or-UTC=LD", NO_24, OCTETS("18:59:60-05:30")},
    {"Basic=Time Time=HMS Local-or-UTC=LD", NONE, OCTETS("23:59:60-00")},
    {"Basic=Time Time=HMSF3 Local-or-UTC=LD", NONE, OCTETS("12:34:60,500+01:00")},
    {"Basic=Date-Time Date=Y Year=Basic Time=HMS Local-or-UTC=Z", DECADE, OCTETS("1999T12:34:60Z")},
    {"Basic=Date-Time Date=Y Year=Basic Time=HMS Local-or-UTC=Z", DECADE, OCTETS("1999T23:59:60Z")},
    {Y("L9"), NONE, OCTETS("+99999999")},
    {Y("L8"), NONE, OCTETS("-100000000")},
    {Y("Basic"), NONE, OCTETS("+123456")},
    {Y("L9"), LAST, OCTETS("+999999998")},
    {Y("L6"), NONE, OCTETS("+011985")},
    {Y("L9"), NONE, OCTETS("+1000000000")},
    {SIX_LISTS, NONE, OCTETS("+2006")},
    {SIX_LISTS, NONE, OCTETS("-00001")},
    {SIX_LISTS, NONE, OCTETS("123456")},
    {"Basic=Date Date=YMD Year=L5", NONE, OCTETS("+123456-02-30")},
    {"Basic=Date Date=YMD Year=L9", NONE, OCTETS("+999999900-02-29")},
    {Y("L4"), NONE, OCTETS("+1234")},
    {Y("L6") "|" Y("L10"), NONE, OCTETS("+123456")},
    {Y("L6") "|" Y("L6"), NONE, OCTETS("+123456")},
    {Y("Basic") "|" Y("L6") "|" Y("L6"), NONE, OCTETS("+123456")},
    {Y("L6") "|" Y("Basic") "|Year=L6 Date=Y Basic=Date", NONE, OCTETS("+123456")},
    {SIX_LISTS "|" Y("Basic"), NONE, OCTETS("+123456")},
    {Y("L6") "|DATE", NONE, OCTETS("+123456")},
    {Y("L6") "|" Y("L7") "|Basic=Time Time=HMS Local-or-UTC=Z", DECADE, OCTETS("+123456")},
    {Y("L6") "|" Y("L7") "|Basic=Time Time=HMS Local-or-UTC=Z", NONE, OCTETS("+123456")},
    {Y("L6") "|" Y("L7") "|" Y("Proleptic"), NONE, OCTETS("+123456")},
    {Y("L7") "|" Y("L5") "|Basic=Date Date=YM Year=L6", DECADE, OCTETS("+123456-06")},
};

/* Octets that are to be refused. */
static const struct {
    int work;
    const char *type;
    enum bounds bounds;
    struct octets octets;
} BAD_OCTETS[] = {
    {UNPER, "DATE", DECADE, OCTETS("\x18\x00")},
    {UNPER, "DATE", REVERSED, OCTETS("\x05\x58")},
    {UNPER, "TIME-OF-DAY", NO_24, OCTETS("\xC0\x00\x00")},
    {UNPER, "DATE", NONE, OCTETS("\xC0\x81\x8B\x6F\xC0")},
    {UNPER, "DATE", NONE, OCTETS("\x05\x58\x00")},
    {UNPER, "DATE", NONE, OCTETS("\x05")},
    {UNDER, "DATE", DECADE, OCTETS("\x1F\x1F\x08" "20110101")},
    {UNDER, "DATE", REVERSED, OCTETS("\x1F\x1F\x08" "20060613")},
    {UNDER, "TIME-OF-DAY", NO_24, OCTETS("\x1F\x20\x06" "240000")},
    {UNDER, "DATE", NONE, OCTETS("\x1F\x1F\x08" "15811231")},
    {UNDER, "DATE", NONE, OCTETS("\x1F\x1F\x08" "20060613\x00")},
    {UNDER, "DATE", NONE, OCTETS("\x1F\x1F\x08" "2006061")},
    {UNDER, "Basic=Time Time=HMSF3 Local-or-UTC=L", NONE, OCTETS("\x0E\x0C" "15:27:46,500")},
    {UNDER, "Basic=Time Time=HM Local-or-UTC=LD", NONE, OCTETS("\x0E\x0B" "15:27+01:00")},
    {UNDER, "DATE", NONE, OCTETS("\x0E\x0A" "2006-06-13")},
    {UNPER, "DURATION", NONE, OCTETS("\x00")},
    {UNPER, "DURATION", NONE, OCTETS("\xA0\x04\x08")},
    {UNPER, "DURATION", NONE, OCTETS("\x80\x80\xFF\x80")},
    {UNPER, "DURATION", NONE, OCTETS("\x03\x00\x00\x48")},
    {UNPER, "Basic=Interval Interval-type=D", NONE, OCTETS("\xC0\x04")},
    {UNPER, "DURATION", NONE, OCTETS("\xC0\x00\xC0")},
    {UNPER, "DURATION", NONE, OCTETS("\x80\x80\x8F\x80")},
    {UNPER, "Basic=Interval Interval-type=D", NONE, OCTETS("\x10\x05")},
    {UNPER, "Basic=Interval Interval-type=D", NONE, OCTETS("\x10\x04\x00")},
    {UNPER, "DURATION", DECADE, OCTETS("\xC0\x04\xC0")},
    {UNDER, "DURATION", NONE, OCTETS("\x1F\x22\x00")},
    {UNDER, "DURATION", NONE, OCTETS("\x1F\x22\x05" "P1Y6M")},
    {UNDER, "DURATION", NONE, OCTETS("\x0E\x05" "P1Y6M")},
    {UNDER, "Basic=Interval Interval-type=D", NONE, OCTETS("\x0E\x04" "1Y6M")},
    {UNDER, "DURATION", NONE, OCTETS("\x1F\x22\x04" "0Y6M")},
    {UNDER, "Basic=Interval Interval-type=D", NONE, OCTETS("\x0E\x06" "PT0,5S")},
    {UNDER, "DURATION", NONE, OCTETS("\x1F\x22\x04" "1Y6M\x00")},
    {UNDER, "Basic=Interval Interval-type=D", NO_24, OCTETS("\x0E\x05" "P1Y6M")},
    {UNPER, "Basic=Time Time=HMS Local-or-UTC=Z", NONE, OCTETS("\x64\x5E\x00")},
    {UNPER, "Basic=Time Time=HMS Local-or-UTC=Z", NONE, OCTETS("\x64\x5E\x01")},
    {UNPER, "Basic=Time Time=HMS Local-or-UTC=Z", NONE, OCTETS("\x64\x5E\x00\x00")},
    {UNPER, "Basic=Time Time=HMS Local-or-UTC=Z", NONE, OCTETS("\xBF\x7E\x01")},
    {UNPER, "Basic=Time Time=HMS Local-or-UTC=Z", NONE, OCTETS("\xBF\x7E\x80")},
    {UNPER, "Basic=Time Time=HMS Local-or-UTC=LD", NONE, OCTETS("\x2B\xDE\x68\xE8")},
    {UNPER, "Basic=Date-Time Date=Y Year=Basic Time=HMS Local-or-UTC=Z", DECADE, OCTETS("\xBE\x99\x17\x80")},
    {UNPER, "Basic=Date-Time Date=Y Year=Basic Time=HMS Local-or-UTC=Z", DECADE, OCTETS("\xBE\xAF\xDF\x80")},
    {UNDER, "Basic=Time Time=HMS Local-or-UTC=Z", NONE, OCTETS("\x0E\x09" "12:34:60Z")},
    {UNDER, "Basic=Time Time=HMS Local-or-UTC=Z", NONE, OCTETS("\x0E\x09" "12:34:60Z\x00")},
    {UNDER, "Basic=Time Time=HMS Local-or-UTC=LD", NONE, OCTETS("\x0E\x0E" "05:30:60+05:30")},
    {UNDER, "Basic=Time Time=HMSF3 Local-or-UTC=LD", NONE, OCTETS("\x0E\x12" "12:34:60,500+01:00")},
    {UNDER, "Basic=Date-Time Date=Y Year=Basic Time=HMS Local-or-UTC=Z", DECADE, OCTETS("\x0E\x0E" "1999T12:34:60Z")},
    {UNDER, "Basic=Date-Time Date=Y Year=Basic Time=HMS Local-or-UTC=Z", DECADE, OCTETS("\x0E\x0E" "1999T23:59:60Z")},
    {UNPER, Y("L5"), NONE, OCTETS("\x03\x01\xE2\x40")},
    {UNPER, Y("L9") "|" Y("L7"), NONE, OCTETS("\x04\xFF\x43\x9E\xB2")},
    {UNPER, "Basic=Date Date=YMD Year=L5", NONE, OCTETS("\x04\x3B\x9A\xC8\x70\x1E\x00")},
    {UNPER, SIX_LISTS, NONE, OCTETS("\x04\x3B\x9A\xCA\x00")},
    {UNPER, SIX_LISTS, NONE, OCTETS("\x04\x80\x00\x00\x00")},
    {UNPER, SIX_LISTS, NONE, OCTETS("\x05\x00\x3B\x9A\xC9\xFF")},
    {UNPER, SIX_LISTS, NONE, OCTETS("\x04\x00\x01\xE2\x40")},
    {UNPER, Y("L5"), NONE, OCTETS("\x04\x00\x01\xE2\x40")},
    {UNPER, Y("Basic"), NONE, OCTETS("\xC0\xC0\x78\x90\x00")},
    {UNDER, Y("L5"), NONE, OCTETS("\x0E\x07" "+123456")},
    {UNDER, Y("L6"), NONE, OCTETS("\x0E\x07" "+011985")},
    {UNDER, Y("L9"), NONE, OCTETS("\x0E\x0B" "+1000000000")},
    {UNDER, SIX_LISTS, NONE, OCTETS("\x0E\x0A" "-999999999\x00")},
};

static void print_hex(const uint8_t *octets, size_t count)
{
    for (size_t i = 0; i < count; i++)
        printf("%02X", octets[i]);
}

/* Whether so many octets are all marks. */
static int marked(const uint8_t *octets, size_t count)
{
    for (size_t i = 0; i < count; i++)
        if (octets[i] != MARK)
            return 0;
    return 1;
}

/* A call in a room of some size, and its line. */
static void run(const struct work *work, const char *type, enum bounds bounds, struct octets input, size_t size)
{
    uint8_t octets[GUARD + LARGEST + GUARD];
    uint8_t *room = octets + GUARD;
    const uint8_t *given = (const uint8_t *)input.start;
    memset(octets, MARK, sizeof octets);
    memset(room, LENT, size);
    struct anafzir_outcome o = work->code((const uint8_t *)type, strlen(type), BOUNDS[bounds].limits, given, input.count, room, size);
    printf("%s;%s;%s;", work->name, type, BOUNDS[bounds].name);
    if (work->decodes)
        print_hex(given, input.count);
    else
        printf("%.*s", (int)input.count, input.start);
    printf(";%zu = %" PRIu32 " %zu %" PRIu32 " ", size, o.number, o.length, o.bits);
    print_hex(room, size);
    if (!marked(octets, GUARD) || !marked(room + size, sizeof octets - GUARD - size))
        printf(", and octets outside the room were changed");
    putchar('\n');
}

/* A call whose result has so many octets, in a room too short by one, in one that is just long enough, and in one that is
 * longer by three. */
static void run_around(int work, const char *type, enum bounds bounds, struct octets input, size_t count)
{
    run(WORKS + work, type, bounds, input, count - 1);
    run(WORKS + work, type, bounds, input, count);
    run(WORKS + work, type, bounds, input, count + 3);
}

/* A call that is to be refused, in three rooms. */
static void run_bad(int work, const char *type, enum bounds bounds, struct octets input)
{
    run(WORKS + work, type, bounds, input, 0);
    run(WORKS + work, type, bounds, input, 1);
    run(WORKS + work, type, bounds, input, LARGEST);
}

int main(void)
{
    for (size_t i = 0; i < sizeof GOOD / sizeof *GOOD; i++) {
        run_around(PER, GOOD[i].type, GOOD[i].bounds, GOOD[i].text, GOOD[i].per.count);
        run_around(DER, GOOD[i].type, GOOD[i].bounds, GOOD[i].text, GOOD[i].der.count);
        run_around(UNPER, GOOD[i].type, GOOD[i].bounds, GOOD[i].per, GOOD[i].text.count);
        run_around(UNDER, GOOD[i].type, GOOD[i].bounds, GOOD[i].der, GOOD[i].text.count);
    }
    for (size_t i = 0; i < sizeof BAD_TEXTS / sizeof *BAD_TEXTS; i++) {
        run_bad(PER, BAD_TEXTS[i].type, BAD_TEXTS[i].bounds, BAD_TEXTS[i].text);
        run_bad(DER, BAD_TEXTS[i].type, BAD_TEXTS[i].bounds, BAD_TEXTS[i].text);
    }
    for (size_t i = 0; i < sizeof BAD_OCTETS / sizeof *BAD_OCTETS; i++)
        run_bad(BAD_OCTETS[i].work, BAD_OCTETS[i].type, BAD_OCTETS[i].bounds, BAD_OCTETS[i].octets);
    return 0;
}
