"""What is said of a column that looks like something else than it becomes, and what to do about it."""
from __future__ import annotations

import collections
import itertools
import re
import shlex
from decimal import Decimal
from typing import Collection, List, Match, NamedTuple, Optional, Pattern, Sequence, Tuple

from .language import MAX_INT, MIN_INT
from .world_cells import (
    DATE,
    DECIMAL,
    MAX_SCALE,
    OTHER_BLANKS,
    OTHER_MINUSES,
    TIME,
    decimal_text,
    padded_date,
    padded_time,
    shown,
)
from .world_columns import PLAIN, BadText, Cell, Column, Form, OtherValue, Remark, Table

MANY_DIGITS = 15
SAMPLE = 1000
MAX_WORDS = 3


# ---- decimals

def decimals_of(value: Cell, form: Form) -> Optional[int]:
    """How many decimals a cell needs, or None where it is no decimal number."""
    match = DECIMAL.match(decimal_text(value, form))
    return len((match.group(3) or "").rstrip("0")) if match else None


def scale_needed(column: Column) -> Optional[int]:
    """How many decimals the cells of a column need that are decimal numbers."""
    found = [decimals_of(cell, column.form) for cell in column.cells
             if cell is not None and not isinstance(cell, (bytes, BadText, OtherValue))]
    return max((each for each in found if each is not None), default=None)


def scale_advised(column: Column) -> Tuple[int, bool]:
    """The decimals for a column with REAL values, and whether some have more. A value of many digits, such as
    0.30000000000000004, is most often what arithmetic left, and doesn't count."""
    needed = scale_needed(column) or 0
    numbers = [cell for cell in column.cells if isinstance(cell, (int, float, Decimal))]
    short = [decimals_of(cell, PLAIN) or 0 for cell in numbers
             if len(decimal_text(cell, PLAIN).replace(".", "").strip("-0")) < MANY_DIGITS]
    scale = min(needed if len(short) == len(numbers) else min(needed, max(short + [1])), MAX_SCALE)
    most = largest(column)
    while scale and most * 10 ** scale > MAX_INT:
        scale -= 1
    return scale, needed > scale


def largest(column: Column) -> Decimal:
    """The largest number of a column without its sign."""
    return max((Decimal(cell).copy_abs() for cell in column.cells if isinstance(cell, (int, float, Decimal))),
               default=Decimal(0))


# ---- dates and clock times

MONTH = re.compile(r"(?:[0-9]{1,2}[. -]+[^\W\d_]{3,9}\.?[, -]+[0-9]{2,4}"
                   r"|[^\W\d_]{3,9}\.? [0-9]{1,2},? [0-9]{4})\b")


def are_most(found: Sequence[object], sample: Sequence[str]) -> bool:
    return 2 * len(found) > len(sample)


def hint_of_dates(table: Table, column: Column, cells: Sequence[str]) -> Optional[str]:
    """That a column looks like dates or clock times that don't compare as these do."""
    sample, name = cells[:SAMPLE], table.full_name(column)
    if are_most([cell for cell in sample if TIME.match(cell)], sample):
        return hint_of_times(name, sample, distinct(cells))
    months = [cell for cell in sample if MONTH.match(cell)]
    if are_most(months, sample):
        return f"{looks_like_dates(name, months[0])}; write them from the year down first, as 2019-01-31"
    found = dates_in(sample)
    if not are_most(found, sample):
        return hint_of_periods(name, sample)
    is_dashed = all(match[2] == "-" for match in found)
    if all(map(is_from_year, found)) and have_lengths_of(cells, sample) and is_dashed:
        return None
    dates = dates_in(distinct(cells))
    others = odd_cells(table, column, {match[0] for match in dates})
    if not are_most([match for match in found if len(match[1]) == 4], sample):
        return hint_of_days(name, dates) + others
    odd = next((match[0] for match in dates if not is_from_year(match) or match[2] != "-"), None)
    if odd is None:
        return None
    return f"{looks_like_dates(name, odd)}; {all_date_words(name, odd, dates)}{others}"


def all_date_words(name: str, odd: str, dates: Sequence[Match[str]]) -> str:
    """What --date makes of dates of which some begin with the year: by a form that takes all of them."""
    forms = [form for form in ("ymd", "dmy", "mdy")
             if all(padded_date(match[0], form) is not None for match in dates)]
    if not forms:
        return "write them in one way, from the year down, in the file first"
    return date_words(name, odd, forms[:1] if forms[0] == "ymd" else forms)


PERIODS = (
    (re.compile(r"[Qq][1-4][ /.-]?[0-9]{4}\Z"), "quarters", "2024-Q1"),
    (re.compile(r"[1-4]\. ?Quartal [0-9]{4}\Z"), "quarters", "2024-Q1"),
    (re.compile(r"[0-9]{1,2}[/.][0-9]{4}\Z"), "months or weeks", "2024-03"),
    (re.compile(r"[^\W\d_]{3,9}\.? [0-9]{4}\Z"), "months", "2024-03"),
)


def hint_of_periods(name: str, sample: Sequence[str]) -> Optional[str]:
    """That a column looks like quarters or months that don't compare as these do."""
    for pattern, what, like in PERIODS:
        found = [cell for cell in sample if pattern.match(cell)]
        if are_most(found, sample):
            return (f"{name} is TEXT, and looks like {what} such as {shown(found[0])}: these don't compare "
                    f"as {what} do; write them from the year down, as {like}, in the file first")
    return None


def distinct(cells: Sequence[str]) -> List[str]:
    """The texts of some cells, each once, in the order in which they come up."""
    return list(dict.fromkeys(cells))


# A month of ISO 8601 is no span of numbers, and compares as months do.
ISO_MONTH = re.compile(r"[0-9]{4}-(?:0[1-9]|1[0-2])\Z")


def dates_in(cells: Sequence[str]) -> List[Match[str]]:
    """What may be dates: one of three parts has two or four digits for its year."""
    return [match for match in map(DATE.match, cells)
            if match and (len(match[1]) == 4 or len(match[4]) in (2, 4) and len(match[1]) < 3)]


def have_lengths_of(cells: Sequence[str], sample: Sequence[str]) -> bool:
    """Whether no cell has another length than those of a sample have. What has fewer digits is shorter."""
    return set(map(len, cells)) <= set(map(len, sample))


def looks_like_dates(name: str, cell: str) -> str:
    return f"{name} is TEXT, and looks like dates such as {shown(cell)}: these don't compare as dates"


def is_from_year(match: Match[str]) -> bool:
    """Whether a date compares as it does: all its parts have their digits."""
    return (len(match[1]), len(match[3]), len(match[4])) == (4, 2, 2) and (
        not match[5] or not TIME.match(match[5]) or padded_time(match[5]) == match[5])


def hint_of_days(name: str, dates: Sequence[Match[str]]) -> str:
    """Of dates that begin with the day or the month."""
    dates = [match for match in dates if len(match[1]) < 4]
    looks = looks_like_dates(name, dates[0][0])
    if any(len(match[4]) != 4 for match in dates):
        return f"{looks}; write their years with four digits first"
    is_day_first = any(int(match[1]) > 12 for match in dates)
    is_month_first = any(int(match[3]) > 12 for match in dates)
    if is_day_first and is_month_first:
        return f"{looks}; some have the day first and some the month: write them in one way first"
    has_points = all(match[2] == "." for match in dates)
    forms = (["dmy"] if is_day_first or has_points and not is_month_first
             else ["mdy"] if is_month_first else ["dmy", "mdy"])
    return f"{looks}; {date_words(name, dates[0][0], forms)}"


def date_words(name: str, cell: str, forms: Sequence[str]) -> str:
    """What --date makes of a date."""
    said = {"dmy": "reads the day first and ", "mdy": "reads the month first and ", "ymd": ""}
    return ", and ".join(f"--date {name}={form} {said[form]}carries it as {padded_date(cell, form) or 'one'}"
                         for form in forms)


def hint_of_times(name: str, sample: Sequence[str], cells: Sequence[str]) -> Optional[str]:
    if all(padded_time(cell) == cell for cell in sample) and have_lengths_of(cells, sample):
        return None
    times = [cell for cell in cells if TIME.match(cell)]
    odd = next((cell for cell in times if padded_time(cell) != cell), None)
    if odd is None:
        return None
    looks = (f"{name} is TEXT, and looks like clock times such as {shown(odd)}: "
             "these don't compare as times do")
    if any(padded_time(cell) is None for cell in times):
        return f"{looks}; where they say how long something took, make them whole numbers of minutes first"
    return f"{looks}; --date {name}=time carries it as {padded_time(odd)}"


# ---- numbers that are written in another way

SYMBOLS = "%‰€$£¥"
NUMBER = re.compile(rf"([{SYMBOLS}]?)\s?([+{OTHER_MINUSES}-]?)\s?([{SYMBOLS}]?)\s?"
                    rf"([0-9][0-9.,'\s]*)((?<!\s)\s?[{SYMBOLS}]|\s[^\W\d_]{{1,5}})?\Z")
FORMS = (PLAIN, Form(","), Form(".", ","), Form(",", "."), Form(".", " "), Form(",", " "), Form(".", "'"),
         Form(",", "'"))


class Written(NamedTuple):
    """How most cells of a column are written that are numbers: their form, the decimals that they need,
    whether one has another minus sign, whether what looks like decimals may be thousands, the cells that are
    no numbers, and whether one has blanks at its ends."""

    form: Form
    scale: int
    has_minus: bool
    are_thousands: bool
    others: List[str]
    has_blanks: bool = False


def fits(form: Form, digits: str) -> bool:
    for blank in OTHER_BLANKS:
        digits = digits.replace(blank, " ")
    between, decimal = re.escape(form.thousands), re.escape(form.decimal)
    grouped = rf"[1-9][0-9]{{0,2}}(?:{between}[0-9]{{3}})+|" if form.thousands else ""
    return re.fullmatch(rf"(?:{grouped}[0-9]+)(?:{decimal}[0-9]*)?", digits) is not None


def written(cells: Sequence[str]) -> Optional[Written]:
    """How the numbers among some cells are written, where most are numbers."""
    pairs = [(cell, NUMBER.match(cell.strip())) for cell in cells]
    found = [match for _, match in pairs if match]
    if not are_most(found, cells):
        return None
    units = {(match[1] or match[3] or match[5] or "").strip() for match in found} - {""}
    digits = [match[4].strip() for match in found]
    form = next((form for form in FORMS if all(fits(form, each) for each in digits)), None)
    if form is None or len(units) > 1:
        return None
    parts = [each.partition(form.decimal)[2] for each in digits]
    # 1,234 may have three decimals, or a sign between thousands.
    are_thousands = not form.thousands and any(parts) and all(
        len(part) == 3 for part, each in zip(parts, digits) if form.decimal in each) and all(
        fits(Form(";", form.decimal), each) for each in digits)
    return Written(form._replace(unit="".join(units)), max(map(len, parts)),
                   any(match[2] in OTHER_MINUSES for match in found if match[2]), are_thousands,
                   list(dict.fromkeys(cell for cell, match in pairs if not match)),
                   any(match and cell != cell.strip() for cell, match in pairs))


def form_words(name: str, form: Form) -> List[str]:
    """The options that say how the numbers of a column are written."""
    # With the point between thousands, the comma stands before decimals by itself.
    decimal = "" if form.decimal == "." or form.thousands == "." else form.decimal
    values = {"--unit": form.unit, "--decimal": decimal, "--thousands": form.thousands}
    return [f"{option} {shlex.quote(f'{name}={value}')}" for option, value in values.items() if value]


def number_words(name: str, found: Written) -> str:
    """The options that carry such a column as whole numbers."""
    words = form_words(name, found.form)
    if found.scale:
        words.append(f"--scale {name}={found.scale}")
    elif not found.form.unit:
        words.append(f"--kind {name}=INT")
    return " ".join(words + [null_word(name, each) for each in found.others])


def null_word(name: str, cell: str) -> str:
    return "--null " + quoted_word(f"{name}={cell}")


def quoted_word(word: str) -> str:
    """A word for a shell, in which blanks that look like others are shown by their numbers."""
    if word.isprintable():
        return shlex.quote(word)
    signs = {"\\": "\\\\", "'": "\\'"}
    return "$'" + "".join(signs.get(char, char) if char.isprintable() else f"\\u{ord(char):04x}"
                          for char in word) + "'"


def may_be_null(cell: str) -> bool:
    """Whether a cell may be a word for what isn't known."""
    return len(cell) <= 20 and not any(char.isdigit() for char in cell)


ZEROS = re.compile(r"[+-]?0[0-9]")


def hint_of_numbers(table: Table, column: Column, cells: Sequence[str]) -> Optional[str]:
    """That a column looks like numbers that are written in another way than -1234.5."""
    name, sample = table.full_name(column), cells[:SAMPLE]
    found = written(sample)
    if found is None or found.scale > MAX_SCALE or len(found.others) > MAX_WORDS or not all(
            map(may_be_null, found.others)):
        return None
    is_plain = found.form == PLAIN and not found.has_minus and not found.has_blanks
    # Numbers that are names, as 0150, are left as they are.
    if is_plain and (not found.others or any(map(ZEROS.match, sample))):
        return None
    what = ("numbers with a unit" if found.form.unit
            else "numbers with another sign than -" if found.has_minus
            else "numbers with signs between thousands" if found.form.thousands
            else "decimals with a comma" if found.form.decimal == ","
            else "numbers with blanks around them" if found.has_blanks
            else "numbers with a word for what isn't known")
    odd = next(cell for cell in sample if (cell in found.others if is_plain else is_odd(cell, found)))
    return f"{name} is TEXT, and looks like {what}, such as {shown(odd)}; {carrying_words(name, found)}"


def carrying_words(name: str, found: Written) -> str:
    """What carries such a column as whole numbers. 1,234 has two readings."""
    words = number_words(name, found)
    if not found.are_thousands:
        return f"{words} carries it as whole numbers{zero_words(found)}"
    others = [null_word(name, each) for each in found.others]
    whole = [*form_words(name, Form(".", found.form.decimal, found.form.unit)), f"--kind {name}=INT", *others]
    return (f"where these are thousands, {' '.join(whole)} carries it as whole numbers, where decimals, "
            f"{words}")


def zero_words(found: Written) -> str:
    """Of a unit without a number, as Excel shows an amount of 0: it may be 0 in place of NULL."""
    zeros = [cell for cell in found.others if found.form.unit and found.form.unit in cell]
    return f"; where {shown(zeros[0])} is 0, write 0 in its place in the file first" if zeros else ""


def is_odd(cell: str, found: Written) -> bool:
    """Whether a cell shows in what the numbers of its column are written in another way."""
    match = NUMBER.match(cell.strip())
    if match is None:
        return False
    if found.form.unit:
        return found.form.unit in cell
    if found.has_minus:
        return match[2] != "" and match[2] in OTHER_MINUSES
    if found.has_blanks and found.form == PLAIN:
        return cell != cell.strip()
    # With signs between thousands some cell has one: else another form would have been found.
    return (found.form.thousands or found.form.decimal) in cell.translate(
        dict.fromkeys(map(ord, OTHER_BLANKS), " "))


# ---- forms that no option reads

class OddForm(NamedTuple):
    """A form of numbers or times that no option reads: what it is, and how to write it instead."""

    pattern: Pattern[str]
    what: str
    how: str


ODD_FORMS = tuple(OddForm(re.compile(pattern + r"\s?\Z"), what, how) for pattern, what, how in (
    (rf"\s?-?[0-9][0-9.']*[.,](?:-|--|[{OTHER_MINUSES}]+)(?:\s?[{SYMBOLS}])?", "amounts without their cents",
     "write 1234 in place of 1.234,--"),
    (rf"\s?[0-9][0-9.,']*\s?[{OTHER_MINUSES}-](?:\s?[{SYMBOLS}])?", "numbers with their minus behind",
     "write -0.50 in place of 0.50-"),
    (rf"\s?\(\s?[{SYMBOLS}]?[0-9][0-9.,']*(?:\s?[{SYMBOLS}])?\)", "numbers below 0 in brackets",
     "write -0.50 in place of (0.50)"),
    (r"\s?[+-]?[0-9]+(?:[.,][0-9]+)?[eE][+-]?[0-9]+", "numbers with an exponent",
     "write 0.001 in place of 1e-3"),
    (r"\s?[0-9]{1,2}[:.][0-9]{2}(?::[0-9]{2})?\s?(?:Uhr|uhr|h)", "clock times with a word behind them",
     "write 09:05 in place of 9:05 Uhr"),
    (r"\s?[0-9]{1,3}(?::[0-9]{2}){1,2},[0-9]+", "times with a comma before their decimals",
     "write 03:45.2 in place of 3:45,2, or the whole in tenths of a second,")))


def odd_form(cell: str) -> Optional[OddForm]:
    return next((form for form in ODD_FORMS if form.pattern.match(cell)), None)


def hint_of_odd(table: Table, column: Column, cells: Sequence[str]) -> Optional[str]:
    """That a column looks like numbers or times in a form that no option reads, or in several forms."""
    odd = [(cell, form) for cell, form in ((cell, odd_form(cell)) for cell in cells) if form]
    numbers = [match[4].strip() for match in map(NUMBER.match, cells) if match]
    name = table.full_name(column)
    found = len(odd) + len(numbers)
    if odd and 2 * found > len(cells) and found >= len(cells) - MAX_WORDS:
        cell, form = odd[0]
        return (f"{name} is TEXT, and looks like {form.what}, such as {shown(cell)}; {form.how} in the file "
                "first")
    if not are_most(numbers, cells) or not all(map(fits_any, numbers)):
        return None
    comma = next((cell for cell in numbers if COMMA.match(cell)), None)
    point = next((cell for cell in numbers if POINT.match(cell)), None)
    if comma is None or point is None:
        return None
    return (f"{name} is TEXT, and looks like numbers of which some have a comma before decimals and some a "
            f"point, such as {shown(comma)} and {shown(point)}; write them in one way in the file first")


# Decimals after a comma and after a point, which may not be thousands.
COMMA, POINT = (re.compile(rf"[0-9.']*{sign}(?:[0-9]{{1,2}}|[0-9]{{4,}})\Z") for sign in (",", r"\."))


def fits_any(digits: str) -> bool:
    return any(fits(form, digits) for form in FORMS)


# ---- what is said

def hint_of_text(table: Table, column: Column, hints: List[str]) -> None:
    """Says that a column of a CSV file is TEXT where most of its cells are numbers, or dates that don't
    compare as dates."""
    # A column of names needn't be looked at to its end.
    texts = (cell for cell in column.cells if cell and isinstance(cell, str))
    sample: List[str] = list(itertools.islice(texts, SAMPLE))
    if not any(map(DIGIT.search, sample)):
        return
    cells = [cell for cell in column.cells if isinstance(cell, str)]
    hint = (hint_of_dates(table, column, cells) or hint_of_numbers(table, column, cells)
            or hint_of_odd(table, column, sample))
    if hint is None and are_most([cell for cell in sample if DECIMAL.match(cell)], sample):
        hint = hint_of_decimals(table, column)
    hint = hint or hint_of_mixed(table, column)
    if hint is not None:
        hints.append(hint)


DIGIT = re.compile(r"\d")


def hint_of_decimals(table: Table, column: Column) -> Optional[str]:
    # Measurements have few values, each many times.
    times = collections.Counter(column.cells)
    count = sum(times.values()) - times.pop(None, 0)
    decimals = {cell: decimals_of(cell, PLAIN) for cell in times}
    numbers = [each for each in decimals.values() if each is not None]
    are_numbers = sum(times[cell] for cell, each in decimals.items() if each is not None)
    if 2 * are_numbers <= count or are_numbers < count and table.from_text:
        return None
    odd = next(((row, cell) for row, cell in enumerate(column.cells)
                if cell is not None and not is_canonical(cell)), None)
    if odd is None:
        # A column of a database whose texts are all spelled as whole numbers.
        return None
    row, first = odd
    scale, name = max(numbers, default=0), table.full_name(column)
    how = "--null, --kind or --scale say otherwise"
    if are_numbers == count and 0 < scale <= MAX_SCALE:
        found = written(list(times))
        how = carrying_words(name, found or Written(PLAIN, scale, False, False, []))
    hint = f"{name} is TEXT, since {table.row_name(row)} has {shown(first)}; {how}"
    # Numbers that are names, as 0150, are texts.
    return Remark(hint) if ZEROS.match(first) else hint


# A number with a sign before it that says that it is none, with a mark behind it, or two with a line between.
LESS = r"(?:<=?|>=?|[~≈≤≥±]|ca\.?|about|c\.)"
FIGURE = r"[+-]?[0-9][0-9.,']*"
QUALIFIED = re.compile(rf"(?:{LESS}\s?{FIGURE}\s?[^\W\d_]{{0,5}}|{FIGURE}\s?[*?!†a-z]|"
                       rf"{FIGURE}\s?[-–—]\s?{FIGURE}|{FIGURE}\s?±\s?{FIGURE})\Z", re.IGNORECASE)
UNITED = re.compile(rf"{FIGURE}\s?([^\W\d_]{{1,5}}(?:/[^\W\d_]{{1,3}})?|[{SYMBOLS}])\Z")
FEW = 12


def is_number(cell: str) -> bool:
    match = NUMBER.match(cell.strip())
    return match is not None and fits_any(match[4].strip()) or DECIMAL.match(cell) is not None


def hint_of_mixed(table: Table, column: Column) -> Optional[str]:
    """That most cells of a column are numbers, and which aren't; or that it looks like numbers in other
    ways."""
    times = collections.Counter(cell for cell in column.cells if isinstance(cell, str) and cell.strip())
    count, name = sum(times.values()), table.full_name(column)
    numbers = [cell for cell in times if is_number(cell)]
    are_numbers = sum(times[cell] for cell in numbers)
    units = {match[1] for match in map(UNITED.match, times) if match}
    if len(units) > 1 and 2 * sum(times[cell] for cell in times if UNITED.match(cell)) > count:
        return (f"{name} is TEXT, and has numbers of several units ({', '.join(sorted(units)[:4])})"
                f"{odd_cells(table, column, ())}; write them in one unit in the file first")
    if any(char.isdigit() and not char.isascii() for cell in numbers or times for char in cell) and 2 * sum(
            times[cell] for cell in times if cell.strip().isdigit()) > count:
        return (f"{name} is TEXT, and has digits of another script{odd_cells(table, column, numbers)}; write "
                "0 to 9 in the file first")
    qualified = sum(times[cell] for cell in times
                    if QUALIFIED.match(cell.strip()) and not ISO_MONTH.match(cell.strip()))
    if 2 * are_numbers <= count and 2 * (are_numbers + qualified) <= count or not (
            set(times) - set(numbers)) or any(map(ZEROS.match, numbers)) and not qualified:
        return None
    return mixed_hint(name, table, column, numbers, [cell for cell in times if cell not in set(numbers)])


def mixed_hint(name: str, table: Table, column: Column, numbers: Sequence[str], others: Sequence[str]) -> str:
    """What is said of a column of which some cells are no numbers, and what carries the others."""
    found = written(numbers) if numbers else None
    hint = (f"{name} is TEXT, and compares as texts do, though {'most' if numbers else 'its'} cells "
            f"{'are' if numbers else 'look like'} numbers{odd_cells(table, column, numbers)}")
    if found is None or found.scale > MAX_SCALE or found.are_thousands or len(others) > FEW:
        return f"{hint}; write them as numbers, or in a column of their own, in the file first"
    words = number_words(name, found._replace(others=list(others)))
    return f"{hint}; {words} carries the numbers, and these as NULL"


def odd_cells(table: Table, column: Column, usual: Collection[str]) -> str:
    """The first cells of a column that aren't as the others, with their rows."""
    odd = [(row, cell) for row, cell in enumerate(column.cells)
           if isinstance(cell, str) and cell.strip() and cell not in usual]
    if not odd:
        return ""
    first = [(row, cell) for place, (row, cell) in enumerate(odd)
             if cell not in [other for _, other in odd[:place]][:200]][:3] if len(odd) < 1000 else odd[:3]
    more = f" and {len(odd) - len(first)} more" if len(odd) > len(first) else ""
    return ": " + ", ".join(f"{table.row_name(row)} has {shown(cell)}" for row, cell in first) + more


CANONICAL = re.compile(r"(?:0|-?[1-9][0-9]{0,18})\Z")


def is_canonical(text: str) -> bool:
    """Whether a text is written in the only way that loses nothing as a number."""
    return CANONICAL.match(text) is not None and MIN_INT <= int(text) <= MAX_INT


def advice_of(table: Table, column: Column, value: Cell) -> str:
    """What to do about a text of a CSV file where a number or a date is due."""
    if not isinstance(value, str) or not table.from_text or column.kind != "INT" and column.date is None:
        return ""
    name = table.full_name(column)
    if may_be_null(value):
        return (f"; where it stands for NULL: --null {quoted_word(value)}, or {null_word(name, value)} "
                "for this column alone")
    return date_advice(value) if column.date is not None else number_advice(name, column, value)


def date_advice(value: str) -> str:
    match = DATE.match(value)
    if match and len(match[1]) < 4 and len(match[4]) != 4:
        return "; years have four digits: write it so in the file first"
    return "; write it from the year down, as 2019-01-31, in the file first" if MONTH.match(value) else ""


def number_advice(name: str, column: Column, value: str) -> str:
    found = written([value])
    odd = odd_form(value)
    if odd is not None and (found is None or not found.form.unit):
        return f"; {odd.how} in the file first"
    if found and column.form.thousands and found.form.decimal == column.form.thousands:
        return (f"; {found.form.decimal} doesn't stand between thousands here: where it stands before "
                f"decimals, give --decimal {found.form.decimal} in place of --thousands")
    # What the options say already isn't said again.
    words = [word for word in form_words(name, found.form) if word not in form_words(name, column.form)
             ] if found else []
    if found and (column.scale or 0) < found.scale <= MAX_SCALE:
        words.append(f"--scale {name}={found.scale}")
    return f"; {' '.join(words)} takes it" if words else ""
