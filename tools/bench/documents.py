"""Documents that the scripts here time calls on."""

WORDS = "alpha beta gamma delta epsilon zeta eta theta iota kappa lambda mu".split()


def settings():
    """Returns a settings file: sections of keys, some of them with lists."""
    return {
        f"{section}.{name}": {
            "enabled": number % 3 == 0,
            "level": number,
            "color": f"#{number * 7919 % 0x1000000:06x}",
            "paths": [f"/usr/share/{section}/{name}/{part}" for part in WORDS[:4]],
            "limits": {"lines": 80 + number, "bytes": 1024 * number},
        }
        for section in WORDS[:5]
        for number, name in enumerate(WORDS)
    }


def records():
    """Returns an array of 10,000 records."""
    return [
        {"id": number, "name": f"name {number}", "tags": [WORDS[number % 12], "x"], "active": number % 2 == 0, "at": {"x": number, "y": 3}}
        for number in range(10_000)
    ]
