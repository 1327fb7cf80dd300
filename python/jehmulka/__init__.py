"""The hours of a dosing box in Python: read, as a table, as a picture.

An hour is measured, idle (nothing was dosed: 0) or missing (not known, never 0).

    hours = jehmulka.hours_of('mill.journal')       # runs the program
    hours = jehmulka.read_hours('mill.hours')       # reads what it printed
    frame = jehmulka.table(hours)                   # a pandas DataFrame
    svg = jehmulka.picture(hours)                   # days by 24 hours
"""

from .errors import Error, Failed, Malformed, Refused
from .picture import picture
from .programs import hours_of, repository, week_of
from .reading import read_hours, read_week, text_of
from .sheet import week_picture
from .table import csv_of, scale, table
from .times import EPOCH, hour_at, month_of, scaled, time_of
from .values import Day, DayKind, Hour, Kind, day_of, days_of

__version__ = '1.0'
__all__ = ['Day', 'DayKind', 'EPOCH', 'Error', 'Failed', 'Hour', 'Kind', 'Malformed', 'Refused',
           'csv_of', 'day_of', 'days_of', 'hour_at', 'hours_of', 'month_of', 'picture', 'read_hours',
           'read_week', 'repository', 'scale', 'scaled', 'table', 'text_of', 'time_of', 'week_of',
           'week_picture']
