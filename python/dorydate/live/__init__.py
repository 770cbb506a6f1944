"""A proved network whose strangers are real hosts: what happens is a line of a script while it happens (docs/live.md).

What crosses the wire between a host and its IMP is read and written here, in Python: which datagram became which line
is tested and not proved. What follows from the lines is what the proved program prints, in each replay too.
"""
