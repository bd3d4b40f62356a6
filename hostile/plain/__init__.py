"""A plain directory: what a CoRE Resource Directory answers, written from the standards alone.

It is written from RFC 9176, RFC 7252, RFC 7641, RFC 7959, RFC 9175, RFC 6690 and RFC 3986, and
from what docs/PROFILE.md chooses where those leave a choice; nothing of it comes from crates/. It
keeps plain lists and looks back through them, for each question from the beginning. It is slow, and
it is to be read. `answered` of plain.trace has its output for a trace (docs/PROGRAMS.md).
"""
