"""Which buffers are good, written from document 01's table and from request 7 alone: version 2 has
one place more, the due time, where any number is good."""

SIZE, ROOM, HIGHEST = 1331, 255, 4_000_000_000


def is_good(b):
    if len(b) != SIZE:
        return False
    if b[0] != 0x00575250 or b[1] != 2:
        return False
    opened, last = b[2], b[3]
    if not opened <= last <= HIGHEST:
        return False
    if b[4] * 2**32 + b[5] > 999_999_999_999_999:
        return False
    if any(flag not in (0, 1) for flag in b[6:9]):
        return False
    n = b[9]
    if not 1 <= n <= 10:
        return False
    used, unused = b[10:10 + n], b[10 + n:20]
    if any(not 1 <= x <= 65_535 for x in used) or used != sorted(used) or any(unused):
        return False
    if any(x > 255 for x in b[20:35]) or any(x > 255 for x in b[44:50]):
        return False
    ends, standing = b[35:39], b[39:43]
    if any(x > 4_000_131_069 for x in ends):
        return False
    if b[6] == 0 and any(ends):
        return False
    if standing[2] == 2 and ends[2] != 0:
        return False
    if any(x > (2 if s == 2 else 1) for s, x in enumerate(standing)):
        return False
    if b[43] > 3:
        return False
    for k in range(5):
        n = b[50 + k]
        if n > ROOM:
            return False
        places = b[55 + ROOM * k:55 + ROOM * (k + 1)]
        used, unused = places[:n], places[n:]
        if used != sorted(used) or any(not opened <= x <= last for x in used) or any(unused):
            return False
    return True


def bases():
    """Three good buffers: new and empty; in use; full, with every number at its highest."""
    new = [0] * SIZE
    new[0:10] = [0x00575250, 2, 1000, 1000, 235, 801733525, 1, 0, 1, 3]
    new[10:13] = [60, 120, 240]
    used = list(new)
    used[3], used[7] = 9000, 1
    used[20:31] = [20, 10, 60, 30, 60, 30, 5, 2, 1, 24, 255]
    used[31:35], used[35:39], used[39:43] = [1, 0, 3, 255], [9103, 0, 5000, 0], [0, 1, 1, 0]
    used[43], used[44:50] = 2, [1, 2, 3, 4, 5, 255]
    for k, times in enumerate(([1000, 1000, 8999], [9000], [], [1000 + 30 * i for i in range(254)], [5000, 5000])):
        used[50 + k] = len(times)
        used[55 + ROOM * k:55 + ROOM * k + len(times)] = times
    used[1330] = 9331
    full = [0x00575250, 2, 0, HIGHEST, 232830, 2764472319, 1, 1, 1, 10] + [65_535] * 10 + [255] * 15
    full += [4_000_131_069, 4_000_131_069, 0, 4_000_131_069, 1, 1, 2, 1, 3] + [255] * 6 + [255] * 5
    for k in range(5):
        full += [HIGHEST - 254 * k + k * i for i in range(ROOM)]
    full += [2**32 - 1]
    return [new, used, full]
