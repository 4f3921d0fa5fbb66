"""What the clients are answered around some frames, each of which is mixed and handed over by a cut of its interrupt."""
import collections

from scripts import BYTES, count_of, device_of, has_entries, keys_of, on_the_mix, rates_of, with_device
from sounds import joined, size_of

# the least and the greatest sample of 32 bits, and how many frames are looked at in one go
ENDS, CLOSE = (-(1 << 31), (1 << 31) - 1), 4096
# what a client is answered before the frame that is before one, after that, before the one and after it, each with its opening; or None
Around = collections.namedtuple("Around", "before left reached behind")


def cuts_at(played, frames):
    """Interrupts by their events, each cut before and after these frames and those before them."""
    edges = {}
    for at in frames:
        for frame in (at - 1, at):
            turn = played.turn_of(frame)
            if turn is not None:
                begin = played.ends[turn - 1] if turn else 0
                edges.setdefault(turn, set()).update((frame - begin, frame + 1 - begin))
    return {played.turns[turn]: pieces(found, played.count(played.turns[turn])) for turn, found in edges.items()}


def pieces(edges, count):
    """The counts between edges, from 0 to a count."""
    ends = sorted({0, *edges, count})
    return [end - begin for begin, end in zip(ends, ends[1:])]


def turn_event(played, frame):
    """The interrupt that hands a frame over, or None."""
    turn = played.turn_of(frame)
    return None if turn is None else played.turns[turn]


def around(solo, frames, every):
    """What the client of a slot is answered around each of some frames."""
    played = solo.played
    known = {(it.event, it.at): (opening, it) for opening, moments in zip(solo.openings, every) for it in moments}
    return {at: Around(*(known.get(it) for it in (
        (turn_event(played, at - 1), at - 1), (turn_event(played, at - 1), at), (turn_event(played, at), at), (turn_event(played, at), at + 1))))
        for at in frames}


def may_limit(solo, config):
    """Whether a client's own stages can limit what it writes: an equaliser, or a matrix from more channels."""
    channels = rates_of(config).get("channels") or device_of(config).channels
    more = any(len(words) > 4 and int(words[4]) > channels for words in (solo.script.words(it.at) for it in solo.openings))
    changed = any(" channels " in solo.script.events[at] for it in solo.openings for at in it.events)
    return has_entries(config, "eq") or more or changed


def wide(config):
    """A configuration whose device has 32 bits, with the rate and the channels of the mix."""
    return with_device(on_the_mix(config) if rates_of(config) else config, {"format": '"s32le"'}, ("device.container",))


def clipped(solo):
    """The frames of the mix with 32 bits, at full volume, in which a client's own stages limit a sample where it has the least or
    the greatest number; or None where they can't, or where that would be too long."""
    config = solo.played.room.config
    counts = solo.played.mixed() if rates_of(config) else None
    frames = sum(counts) if counts else solo.played.total
    wanted = wide(config) if may_limit(solo, config) else config
    if wanted == config or (frames + device_of(wanted).ring) * size_of(device_of(wanted)) > BYTES:
        return None
    return solo.at_full_volume().sound(wanted, counts)


def is_clipped(sound, begin, end):
    """Whether a sample of frames with 32 bits is the least or the greatest."""
    return sound is not None and any(least == ENDS[0] or most == ENDS[1] for least, most in sound.extremes(begin, end))


def clipped_rows(sound, begin, end):
    """The rows of frames in which a sample is the least or the greatest of 32 bits."""
    found = []
    for part in sound.parts(begin, end, CLOSE) if sound else ():
        if is_clipped(sound, *part):
            samples, channels = sound.samples(*part), sound.device.channels
            found += sorted({part[0] + at // channels for at, it in enumerate(samples) if it in ENDS})
    return list(joined(found))


def lookahead(config):
    """How many frames after the one under an output are used, without a filter; or None with one."""
    quality = count_of(keys_of(config), "vchans.quality", "1")
    return None if quality > 1 and has_entries(config, "tables") else min(quality, 1)
