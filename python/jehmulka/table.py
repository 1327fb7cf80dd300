"""The hours as a table: a pandas DataFrame, or CSV without pandas."""

from __future__ import annotations

import csv
import io
from datetime import datetime, timezone
from typing import TYPE_CHECKING, Any, Iterable, List

from .times import EPOCH, scaled, time_of
from .values import Hour, Kind

if TYPE_CHECKING:
    import pandas

COLUMNS = ['time', 'hour', 'kind', 'doses', 'sum', 'mean']


def table(hours: Iterable[Hour], origin: datetime = EPOCH) -> pandas.DataFrame:
    """A DataFrame of one row an hour.

    Doses and sum are nullable whole numbers: 0 where idle, <NA> where missing. An hour without a
    dose has no mean."""
    try:
        import pandas
    except ImportError as error:
        raise ImportError('a table needs pandas; csv_of does without') from error
    rows = list(hours)
    times = [time_of(row.hour, origin).astimezone(timezone.utc) for row in rows]
    try:
        time = pandas.DatetimeIndex(times, dtype='datetime64[ns, UTC]')
    except pandas.errors.OutOfBoundsDatetime as error:
        raise ValueError('hours past 2262 have no time in pandas: give their origin') from error
    return pandas.DataFrame({
        'time': time,
        'hour': pandas.array([row.hour for row in rows], dtype='int64'),
        'kind': pandas.Categorical([row.kind.value for row in rows],
                                   [kind.value for kind in Kind]),
        'doses': pandas.array([row.doses for row in rows], dtype='Int64'),
        'sum': pandas.array([row.sum for row in rows], dtype='Int64'),
        'mean': pandas.array([row.mean for row in rows], dtype='Float64'),
    }, columns=COLUMNS)


def scale(frame: pandas.DataFrame, point: int) -> pandas.DataFrame:
    """A copy of a table with sum and mean divided by 10 to the decimal point."""
    scaled(0, point)
    divisor = float(10 ** point)
    return frame.assign(sum=frame['sum'].astype('Float64') / divisor, mean=frame['mean'] / divisor)


def csv_of(hours: Iterable[Hour], origin: datetime = EPOCH, point: int = 0) -> str:
    """The table as CSV, by the standard library alone: what is not known is an empty field."""
    text = io.StringIO()
    writer = csv.writer(text, lineterminator='\n')
    writer.writerow(COLUMNS)
    for hour in hours:
        writer.writerow(cells_of(hour, origin, point))
    return text.getvalue()


def cells_of(hour: Hour, origin: datetime, point: int) -> List[Any]:
    """One row of the CSV."""
    total = None if hour.sum is None else scaled(hour.sum, point)
    mean = None if hour.mean is None else hour.mean / 10 ** point
    time = time_of(hour.hour, origin).isoformat()
    return [time, hour.hour, hour.kind.value, hour.doses, total, mean]
