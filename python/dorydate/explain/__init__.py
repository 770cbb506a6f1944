"""What ./explain says of an input, a log and a replay."""
