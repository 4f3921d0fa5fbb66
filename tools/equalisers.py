"""The numbers of an equaliser's sections, by the formulas of the Cookbook."""
import cmath
import collections
import math

from commands import wrong

RATES, SECTIONS, NUMBER_MOST, SHIFT_MOST = range(4000, 192001), range(1, 5), 1 << 29, 28
# what follows the HZ of each kind; the least and the greatest of these
KINDS = {
    "lowshelf": ("DB", "SLOPE"),
    "highshelf": ("DB", "SLOPE"),
    "peak": ("DB", "Q"),
    "lowpass": ("Q",),
    "highpass": ("Q",),
}
LIMITS = {"DB": (-120, 120), "SLOPE": (0.01, 1), "Q": (0.01, 1000)}
TOLD = (20, 50, 100, 200, 500, 1000, 2000, 5000, 10000, 20000)  # the Hz of which the gain is printed
LEAST, STEP, FLOOR = 10, 2 ** (1 / 24), -60  # errors are looked for from this many Hz on, half a semitone each, down to this many dB
TINY = 1e-30  # in place of 0, which has no decibels

# A section as it is asked for, its gain 0 where it has none; and by its numbers.
Section = collections.namedtuple("Section", "kind hertz gain width")
Numbers = collections.namedtuple("Numbers", "b0 b1 b2 a1 a2")


def of_pass(sign, cosine):
    """b0, b1 and b2 of a low pass, and with the sign -1 of a high pass."""
    return (1 - sign * cosine) / 2, sign - cosine, (1 - sign * cosine) / 2


def of_shelf(sign, a, cosine, wide):
    """b0, b1, b2, a0, a1 and a2 of a low shelf, and with the sign -1 of a high shelf."""
    turned = sign * cosine
    above, below = (a + 1) - (a - 1) * turned, (a + 1) + (a - 1) * turned
    b1, a1 = 2 * a * ((a - 1) - (a + 1) * turned), -2 * ((a - 1) + (a + 1) * turned)
    return a * (above + wide), sign * b1, a * (above - wide), below + wide, sign * a1, below - wide


def formulas(it, rate):
    """The six numbers of a section by the formulas: b0, b1, b2, a0, a1 and a2."""
    turn, a, sign = 2 * math.pi * it.hertz / rate, 10 ** (it.gain / 40), 1 if it.kind.startswith("low") else -1
    sine, cosine = math.sin(turn), math.cos(turn)
    if it.kind.endswith("shelf"):
        alpha = sine / 2 * math.sqrt((a + 1 / a) * (1 / it.width - 1) + 2)
        return of_shelf(sign, a, cosine, 2 * math.sqrt(a) * alpha)
    alpha = sine / (2 * it.width)
    if it.kind == "peak":
        return 1 + alpha * a, -2 * cosine, 1 - alpha * a, 1 + alpha / a, -2 * cosine, 1 - alpha / a
    return (*of_pass(sign, cosine), 1 + alpha, -2 * cosine, 1 - alpha)


def ideal(it, rate):
    """The numbers of a section before they are rounded."""
    b0, b1, b2, a0, a1, a2 = formulas(it, rate)
    return Numbers(b0 / a0, b1 / a0, b2 / a0, a1 / a0, a2 / a0)


def rounded(numbers):
    """The greatest shift at which all numbers fit, and these as whole numbers."""
    for shift in range(SHIFT_MOST, 0, -1):
        whole = Numbers(*(round(number * 2**shift) for number in numbers))
        if max(map(abs, whole)) <= NUMBER_MOST:
            return shift, whole
    return None


def fades(shift, whole):
    """Whether both poles lie inside the unit circle, by whole numbers: 2 to the power of the shift is one."""
    return abs(whole.a2) < 2**shift and abs(whole.a1) < 2**shift + whole.a2


def size(numbers, hertz, rate):
    """By how much a section makes a tone larger."""
    delay = cmath.exp(-2j * math.pi * hertz / rate)
    b0, b1, b2, a1, a2 = numbers
    return abs(b0 + (b1 + b2 * delay) * delay) / max(abs(1 + (a1 + a2 * delay) * delay), TINY)


def decibels(sections, hertz, rate):
    """The gain of sections one after another."""
    return 20 * math.log10(max(math.prod(size(it, hertz, rate) for it in sections), TINY))


def error(wanted, got, hertz, rate):
    """By how many decibels the gain lies off, where all below the floor is alike."""
    return abs(max(FLOOR, decibels(got, hertz, rate)) - max(FLOOR, decibels(wanted, hertz, rate)))


def greatest_error(rate, sections, got):
    """By how many decibels the gain lies off at most, and at how many Hz."""
    wanted = [ideal(it, rate) for it in sections]
    steps = range(int(math.log(rate / 2 / LEAST, STEP)))
    return max((error(wanted, got, it, rate), it) for it in [*(LEAST * STEP**k for k in steps), *(it.hertz for it in sections)])


def comments(rate, sections, whole):
    """The lines that say what gain the entries have."""
    got = [Numbers(*(number / 2**shift for number in numbers)) for shift, numbers in whole]
    gains = ((round(decibels(got, it, rate), 2) + 0.0, it) for it in TOLD if it < rate / 2)
    yield f"# tools/equaliser {rate} {' '.join(map(words_of, sections))}"
    yield f"# gain in dB at Hz: {', '.join(f'{gain:.2f} at {hertz}' for gain, hertz in gains)}"
    yield "# rounding moves the gain by {:.6f} dB at most, at {:.0f} Hz".format(*greatest_error(rate, sections, got))


def entries(rate, sections, whole):
    """The lines of the [[eq]] entries, with the comments in front of them."""
    yield from comments(rate, sections, whole)
    for it, (shift, numbers) in zip(sections, whole):
        yield from (f"# {words_of(it)}", "[[eq]]", f"shift = {shift}")
        yield from (f"{name} = {number}" for name, number in numbers._asdict().items())


def numbers_of(it):
    """What follows the HZ of a section, each with its name."""
    return [(name, it.gain if name == "DB" else it.width) for name in KINDS[it.kind]]


def words_of(it):
    """The words that ask for a section."""
    return " ".join([it.kind, *(f"{number:.10g}" for number in (it.hertz, *(number for _, number in numbers_of(it))))])


def fault_of(it, rate):
    """What is wrong with a section, or None."""
    if not 0 < it.hertz < rate / 2:
        return f"{words_of(it)}: HZ is above 0, and below half of RATE"
    for name, number in numbers_of(it):
        least, most = LIMITS[name]
        if not least <= number <= most:
            return f"{words_of(it)}: {name} is {least} to {most}"
    return None


def fault(rate, sections):
    """What is wrong with the words, or None."""
    if rate not in RATES:
        return "RATE is 4000 to 192000"
    if len(sections) not in SECTIONS:
        return "there are 1 to 4 sections"
    return next((wrong for wrong in (fault_of(it, rate) for it in sections) if wrong), None)


def section_of(kind, *words):
    """The section that a kind and the words after it ask for."""
    try:
        hertz, *gain, width = map(float, words)
    except ValueError:
        return wrong(f"HZ and what follows it are numbers: {' '.join((kind, *words))}")
    return Section(kind, hertz, gain[0] if gain else 0.0, width)


def sections_of(words):
    """The sections that words ask for."""
    while words:
        kind = words[0] if words[0] in KINDS else wrong(f"{words[0]!r} is no kind of section: {', '.join(KINDS)} are")
        count = 2 + len(KINDS[kind])
        if len(words) < count:
            wrong(f"{kind} wants HZ {' '.join(KINDS[kind])}")
        yield section_of(*words[:count])
        words = words[count:]
