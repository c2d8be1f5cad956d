/* Prints the peak hours of the seven days from a date, asking peak_hour for every hour. */

#define _DEFAULT_SOURCE /* timegm */

#include <stdbool.h>
#include <stdint.h>
#include <stdio.h>
#include <stdlib.h>
#include <string.h>
#include <time.h>

#include "peak_hour.h"

enum { NO_ANSWER = 2, DAYS = 7, HOURS = 24 };

struct date { uint32_t year, month, day; };

static bool in_calendar(struct date t)
{
    return peak_hour(t.year, t.month, t.day, 1) != NO_ANSWER;
}

static struct date next(struct date t)
{
    struct date day = { t.year, t.month, t.day + 1 };
    struct date month = { t.year, t.month + 1, 1 };
    struct date year = { t.year + 1, 1, 1 };
    return in_calendar(day) ? day : in_calendar(month) ? month : year;
}

static void print_date(struct date t, const char *format)
{
    struct tm tm = {
        .tm_year = (int)t.year - 1900, .tm_mon = (int)t.month - 1, .tm_mday = (int)t.day
    };
    char text[64];
    timegm(&tm); /* fills in the weekday */
    strftime(text, sizeof text, format, &tm);
    fputs(text, stdout);
}

static int print_peak_hours(struct date t)
{
    int count = 0;
    for (uint32_t hour = 1; hour <= HOURS; hour++)
        if (peak_hour(t.year, t.month, t.day, hour) == 1) {
            printf(" %2u", (unsigned)hour);
            count++;
        }
    puts(count == 0 ? " none" : "");
    return count;
}

/* Reads a date of the form 2011-07-04 and nothing else. */
static bool read_date(const char *text, struct date *t)
{
    if (strlen(text) != 10)
        return false;
    for (int i = 0; i < 10; i++)
        if (i == 4 || i == 7 ? text[i] != '-' : text[i] < '0' || text[i] > '9')
            return false;
    t->year = (uint32_t)strtoul(text, NULL, 10);
    t->month = (uint32_t)strtoul(text + 5, NULL, 10);
    t->day = (uint32_t)strtoul(text + 8, NULL, 10);
    return in_calendar(*t);
}

int main(int argc, char **argv)
{
    struct date t;
    int count = 0;
    if (argc != 2 || !read_date(argv[1], &t)) {
        fprintf(stderr, "peak_week: %s is not a date of 2007 to 2100, written as 2011-07-04\n",
                argc == 2 ? argv[1] : "what was given");
        return EXIT_FAILURE;
    }
    fputs("Peak hours, by hour ending, in the seven days from ", stdout);
    print_date(t, "%A %-d %B %Y\n\n");
    for (int i = 0; i < DAYS && in_calendar(t); i++, t = next(t)) {
        print_date(t, "%a %e %b %Y ");
        count += print_peak_hours(t);
    }
    printf("\n%d peak hours\n", count);
    if (!in_calendar(t))
        puts("(the peak question answers up to 31 December 2100)");
    return EXIT_SUCCESS;
}
