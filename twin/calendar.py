#!/usr/bin/env python3
"""Every month's last day of 2000 to 2099, 29 February among them, and the day after each, by Python's datetime.

The last day of the calendar stays. What this prints is stored as the output of the program test_calendar:
    python3 twin/calendar.py > crates/test_calendar/stdout
"""
import datetime

day, last, one = datetime.date(2000, 1, 1), datetime.date(2099, 12, 31), datetime.timedelta(days=1)
while day < last:
    if (day + one).day == 1 or (day.month, day.day) == (2, 29):
        print(day, day + one)
    day += one
print(last, last)
