"""Makes an input that shows a fault smaller."""

import time


def shrink(data, still_wrong, seconds=8):
    """Drops lines, then bytes, as long as the input stays wrong."""
    deadline = time.monotonic() + seconds

    def drop_parts(parts, joined):
        size = max(1, len(parts) // 2)
        while True:
            at, dropped = 0, False
            while at < len(parts) and time.monotonic() < deadline:
                fewer = parts[:at] + parts[at + size:]
                if still_wrong(joined(fewer)):
                    parts, dropped = fewer, True
                else:
                    at += size
            if time.monotonic() >= deadline or (size == 1 and not dropped):
                return joined(parts)
            size = max(1, size // 2)

    data = drop_parts(data.splitlines(keepends=True), b"".join)
    return drop_parts(data, lambda part: part)
