"""Random damage: bytes of a case are cut, changed and doubled, files are missing, words are odd."""

BYTES = [0, 9, 10, 13, 32, 34, 36, 39, 40, 41, 44, 45, 46, 48, 49, 58, 61, 65, 69, 91, 126, 127, 128, 195, 239, 255]
WORDS = [
    '--', '-', '--budget', '--pick', 'best', '--names', '--gen', '3', '--help', '-x', 'plan', '.csv', 'none.csv', '--pick=depth',
    'a/.csv', '', '--budget=0', '--budget=1000001', '--x=1', 'plan.csv',
]


def damaged(random, case):
    words, files, script = list(case[0]), dict(case[1]), case[2]
    for _ in range(random.choice([1, 1, 1, 2, 4])):
        name = random.choice(list(files) + [None, None])
        if random.random() < 0.05:
            change_words(random, words)
        elif name is None:
            script = damaged_bytes(random, script)
        elif random.random() < 0.02:
            del files[name]
            if not files:
                break
        else:
            files[name] = damaged_bytes(random, files[name])
    return words, files, script


def damaged_bytes(random, data):
    place = random.randint(0, len(data))
    end = min(len(data), place + random.choice([1, 1, 1, 2, 5, 20]))
    chosen = random.randrange(7)
    if chosen == 0:
        return data[:place]
    if chosen == 1:
        return data[:place] + data[end:]
    if chosen == 2:
        return data[:end] + data[place:]
    if chosen == 3:
        return data[:place] + bytes([random.choice(BYTES)]) + data[place:]
    if chosen == 4:
        return data[:place] + bytes(random.randrange(256) for _ in range(random.randint(1, 3))) + data[end:]
    return data[:place] + bytes([random.choice(BYTES)]) + data[place + 1:]


def change_words(random, words):
    chosen = random.randrange(3)
    place = random.randrange(len(words)) if words else 0
    if chosen == 0:
        words.insert(place, random.choice(WORDS))
    elif words and chosen == 1:
        del words[place]
    elif words:
        words[place] = random.choice(WORDS)
