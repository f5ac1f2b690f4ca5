"""A progress bar on a terminal."""
import time

WIDTH = 40
PAUSE = 0.1  # seconds between two drawings


def bar(done, total):
    """The bar as it stands."""
    full = WIDTH * done // max(total, 1)
    return f"\r[{'#' * full}{' ' * (WIDTH - full)}] {done:,} of {total:,}"


def watched(items, stream):
    """The items one by one; meanwhile the bar is drawn where the stream is a terminal, and wiped out in the end."""
    if stream is None or not stream.isatty():
        yield from items
        return
    drawn = 0.0
    try:
        for done, item in enumerate(items):
            if time.monotonic() - drawn > PAUSE:
                drawn = time.monotonic()
                stream.write(bar(done, len(items)))
                stream.flush()
            yield item
    finally:
        stream.write("\r\x1b[K")
        stream.flush()
