"""Imports: real timetables and calendars as databases, exact for all time or refused with the reason."""
