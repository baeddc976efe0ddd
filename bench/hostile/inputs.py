"""The damaged inputs of the hostile run: samples with some bytes, lines, sections, words or numbers changed."""

import re

MOST_BYTES = 16 * 1024 * 1024
LIMITS = [
    0, 1, 2, 3, 9, 16, 17, 18, 19, 23, 24, 63, 64, 65, 79, 80, 81, 127, 128, 129, 255, 256, 4095, 4096, 4097, 32767, 32768,
    65535, 65536, 100000, 499999, 500000, 500001, 999999, 1000000, 999999999, 2**31, 2**32 - 1, 2**32, 2**63, 2**64, 10**18,
    10**40,
]


def change_bytes(random, data, samples):
    """Other bytes at up to eight places."""
    found = bytearray(data)
    for _ in range(random.randint(1, 8)):
        if found:
            found[random.randrange(len(found))] = random.choice([random.randrange(256), 0, 10, 13, 32, 34, 46, 63])
    return bytes(found)


def cut_end(random, data, samples):
    """What stands before a place."""
    return data[: random.randint(0, len(data))]


def cut_line(random, data, samples):
    lines = data.split(b"\n")
    del lines[random.randrange(len(lines))]
    return b"\n".join(lines)


def double_line(random, data, samples):
    lines = data.split(b"\n")
    place = random.randrange(len(lines))
    lines[place:place] = [lines[place]] * random.choice([1, 1, 1, 2, 200])
    return b"\n".join(lines)


def swap_lines(random, data, samples):
    lines = data.split(b"\n")
    one, other = random.randrange(len(lines)), random.randrange(len(lines))
    lines[one], lines[other] = lines[other], lines[one]
    return b"\n".join(lines)


def foreign_line(random, data, samples):
    """A line of another sample."""
    lines = data.split(b"\n")
    lines.insert(random.randint(0, len(lines)), random.choice(random.choice(samples).split(b"\n")))
    return b"\n".join(lines)


def repeat_section(random, data, samples):
    """A section of this or another sample once more, at the start of a section."""
    sections = re.split(rb"(?m)^(?=\?)", data)
    more = re.split(rb"(?m)^(?=\?)", random.choice([data, random.choice(samples)]))
    sections.insert(random.randint(0, len(sections)), random.choice(more))
    return b"".join(sections)


def with_other_numbers(random, data, other):
    """Up to three numbers changed."""
    numbers = list(re.finditer(rb"[0-9]{1,40}", data))
    chosen = random.sample(range(len(numbers)), min(len(numbers), random.randint(1, 3)))
    for place in sorted(chosen, reverse=True):
        start, end = numbers[place].span()
        data = data[:start] + str(other(int(data[start:end]))).encode() + data[end:]
    return data


def number_at_a_limit(random, data, samples):
    return with_other_numbers(random, data, lambda number: random.choice(LIMITS))


def near_number(random, data, samples):
    """A number that is one more or less."""
    return with_other_numbers(random, data, lambda number: max(number + random.choice([-1, 1]), 0))


def swap_words(random, data, samples):
    words = re.split(rb"(\s+)", data)
    if len(words) > 2:
        one, other = 2 * random.randrange((len(words) + 1) // 2), 2 * random.randrange((len(words) + 1) // 2)
        words[one], words[other] = words[other], words[one]
    return b"".join(words)


def other_word(random, data, samples):
    """A word in the place of another."""
    words = re.split(rb"(\s+)", data)
    words[2 * random.randrange((len(words) + 1) // 2)] = random.choice(random.choice([data, random.choice(samples)]).split() or [b""])
    return b"".join(words)


def long_word(random, data, samples):
    """A word many times."""
    words = re.split(rb"(\s+)", data)
    place = 2 * random.randrange((len(words) + 1) // 2)
    words[place] = random.choice([b"", b" ", b"."]).join([words[place]] * random.choice([2, 31, 300, 5000]))
    return b"".join(words)


DAMAGES = [
    change_bytes, cut_end, cut_line, double_line, swap_lines, foreign_line, repeat_section, number_at_a_limit,
    number_at_a_limit, near_number, swap_words, other_word, long_word,
]


def damaged(random, samples):
    """A sample with one to three damages."""
    data = random.choice(samples)
    for _ in range(random.choice([1, 1, 1, 2, 3])):
        data = random.choice(DAMAGES)(random, data, samples)[:MOST_BYTES + 1]
    return data
