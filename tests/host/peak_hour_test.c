/* Compares peak_hour with a calendar of this program's own, written from
   documents 002 (b), 01 (Hours; figures a to d) and 02, Item 1, whose holidays
   replace those of 01. */

#define _DEFAULT_SOURCE /* timegm */

#include <inttypes.h>
#include <stdbool.h>
#include <stdint.h>
#include <stdio.h>
#include <time.h>

#include "peak_hour.h"

_Static_assert(sizeof(time_t) >= 8, "the sweep runs past 2038");

enum { NOT_PEAK = 0, PEAK = 1, REFUSED = 2 };

enum {
    SWEEP_FIRST_YEAR = 2005, SWEEP_LAST_YEAR = 2102,
    SWEEP_LAST_MONTH = 13, SWEEP_LAST_DAY = 32, SWEEP_LAST_HOUR = 25,
    FIRST_YEAR = 2007, LAST_YEAR = 2100,
    FIRST_YEAR_OF_19_JUNE = 2021,
    OTHER_QUADRUPLES = 1000000,
    MISMATCHES_SHOWN = 20
};

enum { YEAR, MONTH, DAY, HOUR_ENDING, FIELDS };

typedef struct { uint32_t field[FIELDS]; } quadruple;

/* The calendar */

enum weekday { SUNDAY, MONDAY, SATURDAY = 6 };

typedef struct { int year, month, day; enum weekday weekday; } date;

/* timegm counts a day past the month's end on into the next month, and day 0 back. */
static date find_date(int year, int month, int day)
{
    struct tm tm = { .tm_year = year - 1900, .tm_mon = month - 1, .tm_mday = day };
    timegm(&tm);
    return (date){ tm.tm_year + 1900, tm.tm_mon + 1, tm.tm_mday, (enum weekday)tm.tm_wday };
}

static date day_before(date d)
{
    return find_date(d.year, d.month, d.day - 1);
}

static date day_after(date d)
{
    return find_date(d.year, d.month, d.day + 1);
}

static bool is_weekend(date d)
{
    return d.weekday == SATURDAY || d.weekday == SUNDAY;
}

static bool is_third_monday(date d)
{
    int mondays = 0;
    for (int day = 1; day <= d.day; day++)
        if (find_date(d.year, d.month, day).weekday == MONDAY)
            mondays++;
    return d.weekday == MONDAY && mondays == 3;
}

/* 02, Item 1: the holidays by date, whatever day they are kept on. */
static bool is_holiday(date d)
{
    switch (d.month) {
    case 1:
        return d.day == 1 || is_third_monday(d);
    case 2:
        return is_third_monday(d);
    case 6:
        return d.day == 19 && d.year >= FIRST_YEAR_OF_19_JUNE;
    case 7:
        return d.day == 4;
    default:
        return false;
    }
}

/* 02, Item 1: for a Saturday the Friday before (5 U.S.C. 6103), for a Sunday the
   Monday after (Executive Order 11582). */
static date day_of_observance(date holiday)
{
    switch (holiday.weekday) {
    case SATURDAY:
        return day_before(holiday);
    case SUNDAY:
        return day_after(holiday);
    default:
        return holiday;
    }
}

enum day_kind { NO_SUCH_DATE, DAY_OFF, WORKING_DAY };

static enum day_kind calendar[SWEEP_LAST_YEAR - SWEEP_FIRST_YEAR + 1]
                             [SWEEP_LAST_MONTH + 1][SWEEP_LAST_DAY + 1];

static enum day_kind *entry(date d)
{
    return &calendar[d.year - SWEEP_FIRST_YEAR][d.month][d.day];
}

static bool in_sweep(date d)
{
    return d.year >= SWEEP_FIRST_YEAR && d.year <= SWEEP_LAST_YEAR;
}

/* What is not a date stays NO_SUCH_DATE. */
static void fill_calendar(void)
{
    const date first = find_date(SWEEP_FIRST_YEAR, 1, 1);
    for (date d = first; in_sweep(d); d = day_after(d))
        *entry(d) = is_weekend(d) ? DAY_OFF : WORKING_DAY;
    for (date d = first; in_sweep(d); d = day_after(d))
        if (is_holiday(d) && in_sweep(day_of_observance(d)))
            *entry(day_of_observance(d)) = DAY_OFF;
}

/* 002 (b) */
static bool in_peak_period(uint32_t month, uint32_t hour_ending)
{
    switch (month) {
    case 6: case 7: case 8:
        return hour_ending >= 15 && hour_ending <= 19;
    case 1: case 2:
        return hour_ending == 8 || hour_ending == 9
            || hour_ending == 19 || hour_ending == 20;
    default:
        return false;
    }
}

static uint32_t calendar_answer(quadruple q)
{
    uint32_t year = q.field[YEAR], month = q.field[MONTH], day = q.field[DAY];
    uint32_t hour_ending = q.field[HOUR_ENDING];
    if (year < FIRST_YEAR || year > LAST_YEAR || hour_ending < 1 || hour_ending > 24
        || month > SWEEP_LAST_MONTH || day > SWEEP_LAST_DAY)
        return REFUSED;
    switch (calendar[year - SWEEP_FIRST_YEAR][month][day]) {
    case NO_SUCH_DATE:
        return REFUSED;
    case WORKING_DAY:
        return in_peak_period(month, hour_ending) ? PEAK : NOT_PEAK;
    default:
        return NOT_PEAK;
    }
}

/* Groups of comparisons */

struct group {
    const char *name;
    bool needs_every_answer;
    uint32_t compared;
    uint32_t mismatches;
    uint32_t expected[3];
};

static void compare(struct group *group, quadruple q, uint32_t want)
{
    static uint32_t shown;
    const uint32_t *f = q.field;
    uint32_t got = peak_hour(f[YEAR], f[MONTH], f[DAY], f[HOUR_ENDING]);
    group->compared++;
    group->expected[want]++;
    if (got == want)
        return;
    group->mismatches++;
    if (shown++ < MISMATCHES_SHOWN)
        printf("MISMATCH peak_hour(%" PRIu32 ", %" PRIu32 ", %" PRIu32 ", %" PRIu32
               ") = %" PRIu32 ", expected %" PRIu32 "\n",
               f[YEAR], f[MONTH], f[DAY], f[HOUR_ENDING], got, want);
}

static bool report(const struct group *group)
{
    const uint32_t *n = group->expected;
    bool missing = group->needs_every_answer
        && (n[NOT_PEAK] == 0 || n[PEAK] == 0 || n[REFUSED] == 0);
    bool passed = group->mismatches == 0 && !missing;
    printf("%-4s %s: %" PRIu32 " compared", passed ? "ok" : "FAIL", group->name,
           group->compared);
    if (!passed)
        printf(", %" PRIu32 " mismatches", group->mismatches);
    printf(" (0: %" PRIu32 ", 1: %" PRIu32 ", 2: %" PRIu32 ")%s\n", n[NOT_PEAK], n[PEAK],
           n[REFUSED], missing ? ", an answer was never expected" : "");
    return passed;
}

/* 01, Figures to be proved */
static void compare_figures(struct group *group)
{
    static const struct { quadruple hour; uint32_t want; } rows[] = {
        /* a */
        { { { 2011, 7, 5, 14 } }, 0 },
        { { { 2011, 7, 5, 15 } }, 1 },
        { { { 2011, 7, 5, 19 } }, 1 },
        { { { 2011, 7, 5, 20 } }, 0 },
        /* b */
        { { { 2011, 7, 4, 15 } }, 0 },
        /* c */
        { { { 2011, 1, 17, 8 } }, 0 },
        { { { 2011, 1, 18, 8 } }, 1 },
        { { { 2011, 1, 18, 9 } }, 1 },
        { { { 2011, 1, 18, 19 } }, 1 },
        { { { 2011, 1, 18, 20 } }, 1 },
        { { { 2011, 1, 18, 10 } }, 0 },
        { { { 2011, 1, 18, 18 } }, 0 },
        /* d */
        { { { 2012, 2, 29, 19 } }, 1 },
        { { { 2011, 2, 29, 19 } }, 2 },
        { { { 2100, 2, 29, 19 } }, 2 },
    };
    for (size_t i = 0; i < sizeof rows / sizeof rows[0]; i++)
        compare(group, rows[i].hour, rows[i].want);
}

/* 02, Item 1, and further dates looked up in calendars, at every hour */
static void compare_figures_of_item_1(struct group *group)
{
    static const struct { uint32_t year, month, day; bool has_peak_hours; } rows[] = {
        /* named there */
        { 2009, 7, 3, false },   /* Friday; the 4th is a Saturday */
        { 2010, 7, 5, false },   /* Monday; the 4th is a Sunday */
        { 2012, 1, 2, false },   /* Monday; the 1st is a Sunday */
        { 2021, 6, 18, false },  /* Friday; the 19th is a Saturday */
        /* 4 July */
        { 2009, 7, 6, true },    /* Monday; the 4th is a Saturday */
        { 2010, 7, 2, true },    /* Friday; the 4th is a Sunday */
        { 2014, 7, 3, true },    /* Thursday */
        { 2014, 7, 4, false },   /* Friday */
        { 2014, 7, 7, true },    /* Monday */
        { 2015, 7, 2, true },    /* Thursday */
        { 2015, 7, 3, false },   /* Friday; the 4th is a Saturday */
        { 2020, 7, 3, false },   /* Friday; the 4th is a Saturday */
        { 2020, 7, 6, true },    /* Monday */
        { 2021, 7, 2, true },    /* Friday */
        { 2021, 7, 4, false },   /* Sunday */
        { 2021, 7, 5, false },   /* Monday; the 4th is a Sunday */
        { 2021, 7, 6, true },    /* Tuesday */
        { 2099, 7, 3, false },   /* Friday; the 4th is a Saturday */
        { 2100, 7, 5, false },   /* Monday; the 4th is a Sunday */
        /* 1 January */
        { 2010, 12, 31, false }, /* Friday; no peak hour in December */
        { 2011, 1, 1, false },   /* Saturday */
        { 2011, 1, 3, true },    /* Monday; the 1st is a Saturday */
        { 2012, 1, 3, true },    /* Tuesday; the 1st is a Sunday */
        { 2017, 1, 2, false },   /* Monday; the 1st is a Sunday */
        { 2018, 1, 1, false },   /* Monday */
        { 2018, 1, 2, true },    /* Tuesday */
        { 2022, 1, 3, true },    /* Monday; the 1st is a Saturday */
        { 2023, 1, 2, false },   /* Monday; the 1st is a Sunday */
        { 2100, 12, 31, false }, /* Friday; no peak hour in December */
        /* 19 June before 2021 */
        { 2009, 6, 19, true },   /* Friday */
        { 2010, 6, 18, true },   /* Friday; the 19th is a Saturday */
        { 2016, 6, 20, true },   /* Monday; the 19th is a Sunday */
        { 2020, 6, 18, true },   /* Thursday */
        { 2020, 6, 19, true },   /* Friday */
        /* and from 2021 on */
        { 2021, 6, 17, true },   /* Thursday */
        { 2021, 6, 21, true },   /* Monday; the 19th is a Saturday */
        { 2022, 6, 17, true },   /* Friday; the 19th is a Sunday */
        { 2022, 6, 20, false },  /* Monday; the 19th is a Sunday */
        { 2023, 6, 19, false },  /* Monday */
        { 2023, 6, 20, true },   /* Tuesday */
        { 2024, 6, 19, false },  /* Wednesday */
        { 2027, 6, 18, false },  /* Friday; the 19th is a Saturday */
        { 2033, 6, 20, false },  /* Monday; the 19th is a Sunday */
        { 2100, 6, 18, false },  /* Friday; the 19th is a Saturday */
    };
    for (size_t i = 0; i < sizeof rows / sizeof rows[0]; i++)
        for (uint32_t hour = 1; hour <= 24; hour++) {
            quadruple q = { { rows[i].year, rows[i].month, rows[i].day, hour } };
            bool peak = rows[i].has_peak_hours && in_peak_period(rows[i].month, hour);
            compare(group, q, peak ? PEAK : NOT_PEAK);
        }
}

static void compare_every_hour(struct group *group)
{
    for (uint32_t year = SWEEP_FIRST_YEAR; year <= SWEEP_LAST_YEAR; year++)
        for (uint32_t month = 0; month <= SWEEP_LAST_MONTH; month++)
            for (uint32_t day = 0; day <= SWEEP_LAST_DAY; day++)
                for (uint32_t hour = 0; hour <= SWEEP_LAST_HOUR; hour++) {
                    quadruple q = { { year, month, day, hour } };
                    compare(group, q, calendar_answer(q));
                }
}

/* Other quadruples */

/* splitmix64, from a fixed seed */
static uint64_t next_random(void)
{
    static uint64_t state = 20070601;
    uint64_t z = state += UINT64_C(0x9e3779b97f4a7c15);
    z = (z ^ (z >> 30)) * UINT64_C(0xbf58476d1ce4e5b9);
    z = (z ^ (z >> 27)) * UINT64_C(0x94d049bb133111eb);
    return z ^ (z >> 31);
}

static uint32_t random_word(void)
{
    return (uint32_t)(next_random() >> 32);
}

static uint32_t random_between(uint32_t low, uint32_t high)
{
    return low + random_word() % (high - low + 1);
}

#define ONE_OF(list) ((list)[random_between(0, sizeof(list) / sizeof((list)[0]) - 1)])

static quadruple random_words(void)
{
    quadruple q;
    for (int i = 0; i < FIELDS; i++)
        q.field[i] = random_word();
    return q;
}

static quadruple good_hour(void)
{
    quadruple q;
    q.field[YEAR] = random_between(FIRST_YEAR, LAST_YEAR);
    q.field[MONTH] = random_between(1, 12);
    q.field[DAY] = random_between(1, 28);
    q.field[HOUR_ENDING] = random_between(1, 24);
    return q;
}

static uint32_t any_word(uint32_t good)
{
    (void)good;
    return random_word();
}

static uint32_t largest_word(uint32_t good)
{
    (void)good;
    return UINT32_MAX;
}

static uint32_t near_power_of_two(uint32_t good)
{
    static const unsigned exponents[] = { 8, 16, 31, 32 };
    uint64_t power = UINT64_C(1) << ONE_OF(exponents);
    (void)good;
    return (uint32_t)(power + random_between(0, 64) - 32);
}

/* Good again if cut to that many bits. */
static uint32_t good_if_cut(uint32_t good)
{
    static const unsigned widths[] = { 8, 8, 16, 16, 24, 31 };
    unsigned width = ONE_OF(widths);
    return good + (random_between(1, UINT32_MAX >> width) << width);
}

/* Good again if multiplied by a multiple of 2^(32 - width) and cut to 32 bits. */
static uint32_t good_if_multiplied(uint32_t good)
{
    unsigned width = random_between(12, 31);
    return good + (random_between(1, UINT32_MAX >> width) << width);
}

static quadruple with_one_changed(quadruple q, uint32_t (*change)(uint32_t))
{
    uint32_t i = random_between(0, FIELDS - 1);
    q.field[i] = change(q.field[i]);
    return q;
}

static quadruple with_some_changed(quadruple q, uint32_t (*change)(uint32_t))
{
    uint32_t chosen = random_between(1, (1u << FIELDS) - 1);
    for (int i = 0; i < FIELDS; i++)
        if (chosen >> i & 1)
            q.field[i] = change(q.field[i]);
    return q;
}

/* The same sum if two neighbouring fields are packed as a * radix + b in 32 bits. */
static quadruple with_carry(quadruple q)
{
    static const uint32_t radices[] = { 12, 16, 24, 30, 31, 32, 60, 64, 100, 256, 65536 };
    uint32_t carried = random_word() & 1 ? random_between(1, 3) : random_word();
    uint32_t i = random_between(YEAR, DAY);
    q.field[i] -= carried;
    q.field[i + 1] += carried * ONE_OF(radices);
    return q;
}

static quadruple with_year_just_outside(quadruple q)
{
    q.field[YEAR] = random_word() & 1 ? random_between(FIRST_YEAR - 16, FIRST_YEAR - 1)
                                      : random_between(LAST_YEAR + 1, LAST_YEAR + 16);
    return q;
}

/* The Gregorian calendar repeats after 400 years. */
static quadruple with_year_cycles_away(quadruple q)
{
    uint32_t year = q.field[YEAR];
    switch (random_between(0, 2)) {
    case 0:
        q.field[YEAR] = year - 400 * random_between(1, year / 400);
        break;
    case 1:
        q.field[YEAR] = year + 400 * random_between(1, 10);
        break;
    default:
        q.field[YEAR] = year + 400 * random_between(1, (UINT32_MAX - year) / 400);
    }
    return q;
}

static quadruple other_quadruple(void)
{
    switch (random_between(0, 9)) {
    case 0: return random_words();
    case 1: return with_one_changed(good_hour(), any_word);
    case 2: return with_some_changed(good_hour(), largest_word);
    case 3: return with_some_changed(good_hour(), near_power_of_two);
    case 4: return with_one_changed(good_hour(), good_if_cut);
    case 5: return with_some_changed(good_hour(), good_if_cut);
    case 6: return with_some_changed(good_hour(), good_if_multiplied);
    case 7: return with_carry(good_hour());
    case 8: return with_year_just_outside(good_hour());
    default: return with_year_cycles_away(good_hour());
    }
}

static void compare_other_quadruples(struct group *group)
{
    for (int i = 0; i < OTHER_QUADRUPLES; i++) {
        quadruple q = other_quadruple();
        compare(group, q, calendar_answer(q));
    }
}

/* Kept days: weekdays that are free only because a holiday falls on the weekend */

struct kept_days { int days, years, in_peak_months; };

static bool is_weekend_holiday(date d)
{
    return is_weekend(d) && is_holiday(d);
}

static bool is_kept_day(date d)
{
    return !is_weekend(d) && !is_holiday(d) && *entry(d) == DAY_OFF;
}

static struct kept_days count_kept_days(void)
{
    struct kept_days n = { 0, 0, 0 };
    int last_year = 0;
    for (date d = find_date(FIRST_YEAR, 1, 1); d.year <= LAST_YEAR; d = day_after(d)) {
        if (!is_kept_day(d))
            continue;
        n.days++;
        n.years += d.year != last_year;
        n.in_peak_months += in_peak_period((uint32_t)d.month, 19); /* of either season */
        last_year = d.year;
    }
    return n;
}

/* Gauss */
static int weekday_of_1_january(int year)
{
    int y = year - 1;
    return (1 + 5 * (y % 4) + 4 * (y % 100) + 6 * (y % 400)) % 7;
}

/* The same from the weekdays of 1 January alone: 19 June is 28 weeks before the next one,
   and so on its weekday, 4 July 26 weeks less a day. */
static struct kept_days reckon_kept_days(void)
{
    struct kept_days n = { 0, 0, 0 };
    for (int year = FIRST_YEAR; year <= LAST_YEAR; year++) {
        int next_new_year = weekday_of_1_january(year + 1);
        int june_19 = next_new_year, july_4 = (next_new_year + 1) % 7;
        bool january_2 = weekday_of_1_january(year) == SUNDAY;
        bool june_18_or_20 = year >= FIRST_YEAR_OF_19_JUNE
            && (june_19 == SATURDAY || june_19 == SUNDAY);
        bool july_3_or_5 = july_4 == SATURDAY || july_4 == SUNDAY;
        bool december_31 = next_new_year == SATURDAY;
        int in_peak_months = january_2 + june_18_or_20 + july_3_or_5;
        n.days += in_peak_months + december_31;
        n.years += in_peak_months + december_31 != 0;
        n.in_peak_months += in_peak_months;
    }
    return n;
}

/* Kept days that are not beside one weekend holiday, and weekend holidays that are not beside
   one kept day. */
static int count_unpaired(void)
{
    int unpaired = 0;
    for (date d = find_date(FIRST_YEAR, 1, 1); d.year <= LAST_YEAR; d = day_after(d)) {
        date before = day_before(d), after = day_after(d);
        if (is_kept_day(d))
            unpaired += is_weekend_holiday(before) + is_weekend_holiday(after) != 1;
        if (is_weekend_holiday(d))
            unpaired += is_kept_day(before) + is_kept_day(after) != 1;
    }
    return unpaired;
}

static bool report_kept_days(void)
{
    struct kept_days n = count_kept_days(), m = reckon_kept_days();
    int unpaired = count_unpaired();
    bool passed = n.days == m.days && n.years == m.years
        && n.in_peak_months == m.in_peak_months && unpaired == 0;
    printf("%-4s kept days: %d in %d years of %d to %d, %d in peak months",
           passed ? "ok" : "FAIL", n.days, n.years, FIRST_YEAR, LAST_YEAR, n.in_peak_months);
    if (!passed)
        printf("; from 1 January %d in %d years, %d in peak months; %d unpaired", m.days, m.years,
               m.in_peak_months, unpaired);
    printf("\n");
    return passed;
}

int main(void)
{
    struct group figures = { .name = "figures a to d" };
    struct group item_1 = { .name = "figures of 02, Item 1" };
    struct group every_hour = { .name = "every hour of 2005 to 2102",
                                .needs_every_answer = true };
    struct group others = { .name = "other quadruples" };
    const struct group *groups[] = { &figures, &item_1, &every_hour, &others };
    int tally[2] = { 0, 0 };

    fill_calendar();
    compare_figures(&figures);
    compare_figures_of_item_1(&item_1);
    compare_every_hour(&every_hour);
    compare_other_quadruples(&others);

    for (size_t i = 0; i < sizeof groups / sizeof groups[0]; i++)
        tally[report(groups[i])]++;
    tally[report_kept_days()]++;
    printf("%d passed, %d failed\n", tally[true], tally[false]);
    return tally[false] != 0;
}
