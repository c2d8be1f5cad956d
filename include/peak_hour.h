/* The peak question of the peak-hour availability book, for controllers' firmware.

   Link with the archive that `make archive` writes, target/staticlib/libcalendar.a.
   The function takes any four numbers, keeps no state, allocates nothing and always returns. */

#ifndef PEAK_HOUR_H
#define PEAK_HOUR_H

#include <stdint.h>

#ifdef __cplusplus
extern "C" {
#endif

/* Whether an hour is a peak hour. `year` is the calendar year, not the delivery year;
   `hour_ending` is 1 to 24, local prevailing time.

   Peak hours are those ending 15 to 19 in June, July and August, and those ending 8, 9, 19
   and 20 in January and February, on days from Monday to Friday that are no holiday.
   Holidays are 1 January, the third Monday of January, the third Monday of February, 4 July
   and, from 2021 on, 19 June. One that falls on a Saturday is a holiday on the Friday before
   too, one that falls on a Sunday on the Monday after.

   1  peak
   0  not peak
   2  no answer: a date that is not in the calendar, an hour outside 1 to 24,
      or a year outside 2007 to 2100

   if (peak_hour(2011, 7, 5, 15) == 1)
       count_service_hour();            // Tuesday 5 July 2011, the hour from 14:00 to 15:00

   peak_hour(2009, 7, 3, 15) is 0: a Friday, on which 4 July 2009 is kept
*/
uint32_t peak_hour(uint32_t year, uint32_t month, uint32_t day, uint32_t hour_ending);

#ifdef __cplusplus
}
#endif

#endif
