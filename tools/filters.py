"""The numbers of a filter between rates: a windowed sinc, by Kaiser's window."""
import math

RATES, PHASES, TAPS, NUMBERS = range(4000, 192001), range(1, 513), range(2, 65, 2), 16384
COEF_MOST, SHIFT_MOST = 1 << 24, 30


def bessel(x):
    """The modified Bessel function of order 0, by its series."""
    total = term = 1.0
    k = 1
    while term > 1e-18 * total:
        term *= (x / (2 * k)) ** 2
        total += term
        k += 1
    return total


def decibels(taps, ratio):
    """How far down the filter stops, by the taps that count."""
    return min(100.0, 40 + 1.25 * taps * ratio)


def kaiser_shape(stopped):
    """Kaiser's b, for a number of decibels: his formula, with its branch below 50."""
    return 0.1102 * (stopped - 8.7) if stopped > 50 else 0.5842 * (stopped - 21) ** 0.4 + 0.07886 * (stopped - 21)


def usual_cut(taps, ratio):
    """The middle of a slope that ends at half the lower rate, as a fraction of it: by Kaiser's formula for the slope's width."""
    width = (decibels(taps, ratio) - 7.95) / (2.285 * math.pi * (taps - 1)) / ratio
    return max(0.5, 1 - width / 2)


def prototype(t, taps, cut, shape):
    """The windowed sinc, t frames of SRC from its middle."""
    u = 2 * t / taps
    if not -1 < u < 1:
        return 0.0
    sinc = math.sin(math.pi * cut * t) / (math.pi * cut * t) if t else 1.0
    return sinc * bessel(shape * math.sqrt(1 - u * u))


def scaled(row):
    """A row with the sum 1."""
    total = sum(row)
    return [number / total for number in row]


def greatest_shift(rows):
    """The greatest shift with which every coefficient is within its limit."""
    peak = max(abs(number) for row in rows for number in row)
    return max(s for s in range(1, SHIFT_MOST + 1) if peak * 2**s <= COEF_MOST)


def rounded(row, shift):
    """A row as whole numbers with the sum 2 to the power of the shift: rounded down, and up where that leaves the greatest rest."""
    exact = [number * 2**shift for number in row]
    whole = [math.floor(number) for number in exact]
    rest = sorted(range(len(row)), key=lambda j: whole[j] - exact[j])
    for j in rest[: 2**shift - sum(whole)]:
        whole[j] += 1
    return whole


def rows_of(phases, taps, cut, shape):
    """All rows, each with the sum 1."""
    places = [[j + 1 - taps // 2 - r / phases for j in range(taps)] for r in range(phases)]
    return [scaled([prototype(t, taps, cut, shape) for t in row]) for row in places]


def entry(src, dst, phases, taps, cut):
    """The lines of a [[tables]] entry."""
    ratio = min(1.0, dst / src) if src else 1.0
    middle, stopped = cut or usual_cut(taps, ratio), decibels(taps, ratio)
    rows = rows_of(phases, taps, middle * ratio, kaiser_shape(stopped))
    shift = greatest_shift(rows)
    yield f"# tools/filter {src} {dst} {phases} {taps}" + (f" {cut}" if cut else "")
    yield f"# Kaiser's window for {stopped:g} dB; the middle of the slope is at {middle:.4f} of half the lower rate"
    yield "[[tables]]"
    if src:
        yield from (f"src = {src}", f"dst = {dst}")
    yield from (f"shift = {shift}", "rows = [")
    yield from (f"[{','.join(map(str, rounded(row, shift)))}]," for row in rows)
    yield "]"


def fault(src, dst, phases, taps, cut):
    """What is wrong with the words, or None."""
    if (src, dst) != (0, 0) and not (src in RATES and dst in RATES):
        return "SRC and DST are both 4000 to 192000, or both 0"
    if phases not in PHASES:
        return f"PHASES is 1 to 512: {phases}"
    if taps not in TAPS:
        return "TAPS is even, and 2 to 64"
    if phases * taps > NUMBERS:
        return f"PHASES times TAPS is at most {NUMBERS}"
    if cut is not None and not 0 < cut <= 1:
        return "CUT is above 0, and at most 1"
    return None


def usual_entry(src, dst):
    """The lines of a filter from one rate to another: rows for each place where there can be as many, and as many taps as fit."""
    phases = min(dst // math.gcd(src, dst), max(PHASES))
    taps = max(it for it in TAPS if phases * it <= NUMBERS)
    return list(entry(src, dst, phases, taps, None))
