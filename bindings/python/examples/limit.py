"""A queue limit: frames of 1500 bytes are sent to a card while the limit allows it, and every six milliseconds the card completes all of
them. The limit grows, because the card ran out of work each time."""
from fintaqush import Dql

FRAME = 1500

limit = Dql(min=0, hold_ms=1000, now_ms=0)
for now in 6, 12, 18:
    frames = 0
    while limit.avail >= 0:
        limit.queued(FRAME)
        frames += 1
    in_flight = limit.in_flight
    limit.completed(in_flight, now)
    print(f"{frames} frames, {in_flight} bytes in flight, then a limit of {limit.limit}")
