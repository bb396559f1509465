"""How long things may take, and how much is read."""
import asyncio

# What is read of a head: the broker takes 64 KiB, and beside it about a MiB of a cause of an error.
MOST_HEAD = 1 << 22
PIECE = 1 << 16
# How long, in seconds, an idle connection to the broker is taken again, which itself closes one after 120; and how long it is waited
# for an answer that it owes, for a connection to it, for processes to end, for a client that is refused to stop sending, and for the
# end of a connection of a process that has ended.
IDLE, OWED, CONNECT, GRACE, LINGER, LATE = 60, 60, 5, 3, 2, 1
LEAST_PAUSE, MOST_PAUSE = 1, 30
# How long an attempt may last at most, and how long behind its deadline its process is ended.
MOST_LEFT, HUNG = 901, 1
GONE = (OSError, EOFError, ValueError, asyncio.LimitOverrunError, asyncio.TimeoutError)
