"""How much of a message is looked at. What is beyond is left out, and a note says so."""

from __future__ import annotations

MOST_BYTES = 1_048_576
MOST_PARTS = 100
MOST_DEPTH = 20
MOST_LINES = 10_000
# a line that is longer can't be in a mailing, which has at most 65,536 bytes
LONGEST_LINE = 70_000
MOST_HEADER_BYTES = 262_144
MOST_FIELDS = 1_000
LONGEST_FIELD = 16_384
# what a letter or a log shows of a subject, a message's number or a line of a server
LONGEST_SUBJECT = 200
LONGEST_ID = 200
LONGEST_AUTHENTICATION = 2_000
MOST_AUTHENTICATIONS = 10
# so many numbers of lines are kept with a note
MOST_NOTED_LINES = 100
